//! The calls of jointrise: each entry once through the C interface and once through the safe wrapper, and the listing program.

use crate::case::Answers;
use crate::lent::{Guarded, Lent, Number};
use crate::outcome::{Memory, Outcome, five};
use jointrise::raw::{self, Reply};
use jointrise::{Refusal, Verdict};
use std::io::Write;
use std::path::Path;
use std::process::{Command, Stdio};

/// What starts a program of the project on this machine, whichever it is.
const STARTER: &str = concat!(env!("CARGO_MANIFEST_DIR"), "/../../.ci/program");

/// What a call comes to, or what is wrong with it.
pub type Called = Result<Outcome, String>;

/// jointrise, with the listing program at this path.
pub struct Jointrise<'a> {
    pub program: Option<&'a Path>,
}

impl Answers for Jointrise<'_> {
    type Answer = Called;

    fn check(&self, numbers: &[u32], gauges: u32) -> Called {
        let (reply, _) = twice(
            numbers,
            Vec::<u64>::new(),
            |lent, _, r| unsafe { raw::jointrise_check(lent.pointer(), lent.count(), gauges, r) },
            |_| told(jointrise::check(numbers, gauges), |()| [0; 3]),
        )?;
        Ok(Outcome {
            reply,
            memory: Memory::Nothing,
        })
    }

    fn list(&self, numbers: &[u32], gauges: u32, rows: &Lent) -> Called {
        let (reply, after) = twice(
            numbers,
            rows.content(),
            |lent, rows, r| unsafe {
                let (numbers, count) = (lent.pointer(), lent.count());
                raw::jointrise_list(numbers, count, gauges, rows.pointer_mut(), rows.count(), r);
            },
            |rows| told(jointrise::list(numbers, gauges, rows), |k| [k as u64, 0, 0]),
        )?;
        Ok(Outcome {
            reply,
            memory: Memory::Rows(after),
        })
    }

    fn ask(&self, numbers: &[u32], gauges: u32, members: u64, begin: u64, end: u64) -> Called {
        let verdict = |verdict| match verdict {
            Verdict::Missing(u, v) => [1, u.into(), v.into()],
            Verdict::Earlier(x) => [2, x, 0],
            Verdict::Later(y) => [3, y, 0],
            Verdict::Further(k) => [4, k.into(), 0],
            Verdict::Group => [5, 0, 0],
        };
        let (reply, _) = twice(
            numbers,
            Vec::<u64>::new(),
            |lent, _, r| unsafe {
                let (numbers, count) = (lent.pointer(), lent.count());
                raw::jointrise_ask(numbers, count, gauges, members, begin, end, r);
            },
            |_| {
                told(
                    jointrise::ask(numbers, gauges, members, begin, end),
                    verdict,
                )
            },
        )?;
        Ok(Outcome {
            reply,
            memory: Memory::Nothing,
        })
    }

    fn read(&self, bytes: &[u8], numbers: &Lent) -> Called {
        let (reply, after) = twice(
            bytes,
            numbers.content(),
            |lent, numbers, r| unsafe {
                let (bytes, count) = (lent.pointer(), lent.count());
                raw::jointrise_read(bytes, count, numbers.pointer_mut(), numbers.count(), r);
            },
            |numbers| {
                let reply = jointrise::read(bytes, numbers);
                told(reply, |t| [t.links as u64, t.gauges.into(), 0])
            },
        )?;
        Ok(Outcome {
            reply,
            memory: Memory::Numbers(after),
        })
    }

    fn write(&self, numbers: &[u32], gauges: u32, bytes: &Lent) -> Called {
        let (reply, after) = twice(
            numbers,
            bytes.content(),
            |lent, bytes, r| unsafe {
                let (numbers, count) = (lent.pointer(), lent.count());
                raw::jointrise_write(
                    numbers,
                    count,
                    gauges,
                    bytes.pointer_mut(),
                    bytes.count(),
                    r,
                );
            },
            |bytes| {
                told(jointrise::write(numbers, gauges, bytes), |n| {
                    [n as u64, 0, 0]
                })
            },
        )?;
        Ok(Outcome {
            reply,
            memory: Memory::Bytes(after),
        })
    }

    fn listing(&self, input: &[u8], out: &Lent) -> Called {
        let (reply, after) = twice(
            input,
            out.content(),
            |lent, out, r| unsafe {
                let (input, count) = (lent.pointer(), lent.count());
                raw::jointrise_listing(input, count, out.pointer_mut(), out.count(), r);
            },
            |out| {
                [
                    0,
                    0,
                    jointrise::listing(input, out).unwrap_or(0) as u64,
                    0,
                    0,
                ]
            },
        )?;
        Ok(Outcome {
            reply,
            memory: Memory::Bytes(after),
        })
    }

    fn printed(&self, input: &[u8]) -> Called {
        let path = self.program.ok_or("no listing program is named")?;
        let mut child = Command::new(STARTER)
            .arg(path)
            .stdin(Stdio::piped())
            .stdout(Stdio::piped())
            .spawn()
            .map_err(|e| format!("{STARTER}: {e}"))?;
        let mut stdin = child.stdin.take().expect("piped");
        // a program that has read enough may end before it has read all
        let _ = stdin.write_all(input);
        drop(stdin);
        let output = child.wait_with_output().map_err(|e| e.to_string())?;
        if !output.status.success() {
            return Err(format!("the listing program ends with {}", output.status));
        }
        let text =
            String::from_utf8(output.stdout).map_err(|_| "the listing program prints no text")?;
        Ok(Outcome {
            reply: [0; 5],
            memory: Memory::Text(text),
        })
    }
}

/// The five numbers of what the safe wrapper hands back.
fn told<T>(reply: Result<T, Refusal>, answer: impl FnOnce(T) -> [u64; 3]) -> [u64; 5] {
    five(
        reply
            .map(answer)
            .map_err(|why| [why.reason.into(), why.place]),
    )
}

/// Calls the entry, and then the safe wrapper, with the same input and the same content of the lent memory. The reply and what the memory then holds; or what is wrong: memory
/// beside what was lent is changed, or the input is, or the two calls differ.
fn twice<I: Number, O: Number>(
    input: &[I],
    before: Vec<O>,
    entry: impl FnOnce(&Guarded<I>, &mut Guarded<O>, *mut Reply),
    wrapper: impl FnOnce(&mut [O]) -> [u64; 5],
) -> Result<([u64; 5], Vec<O>), String> {
    let lent = Guarded::new(input);
    let mut out = Guarded::new(&before);
    let mut reply = Guarded::new(&Lent::garbage(5).content::<u64>());
    entry(&lent, &mut out, reply.pointer_mut().cast());
    if !(lent.guards_stand() && out.guards_stand() && reply.guards_stand()) {
        return Err("memory beside what was lent is changed".into());
    }
    if lent.content() != input {
        return Err("memory that was lent for reading is changed".into());
    }
    let reply: [u64; 5] = reply.content().try_into().expect("five numbers");
    let mut after = before;
    let again = wrapper(&mut after);
    if reply != again {
        return Err(format!(
            "the entry replies {reply:?}, the safe wrapper {again:?}"
        ));
    }
    if out.content() != after {
        return Err("the entry and the safe wrapper leave different memory".into());
    }
    Ok((reply, after))
}
