//! What the second program replies, in the five numbers of the header, and what it leaves in the lent memory.

use crate::case::Answers;
use crate::lent::Lent;
use crate::outcome::{Memory, Outcome, five};
use plain::{Refusal, Verdict};

pub struct Second;

impl Answers for Second {
    type Answer = Outcome;

    fn check(&self, numbers: &[u32], gauges: u32) -> Outcome {
        Outcome {
            reply: told(plain::check(numbers, gauges), |_| [0; 3]),
            memory: Memory::Nothing,
        }
    }

    fn list(&self, numbers: &[u32], gauges: u32, rows: &Lent) -> Outcome {
        let (reply, after) = plain::list(numbers, gauges, &rows.content::<u64>());
        Outcome {
            reply: told(reply, |count| [count, 0, 0]),
            memory: Memory::Rows(after),
        }
    }

    fn ask(&self, numbers: &[u32], gauges: u32, members: u64, begin: u64, end: u64) -> Outcome {
        let verdict = |verdict| match verdict {
            Verdict::Missing(u, v) => [1, u.into(), v.into()],
            Verdict::Earlier(x) => [2, x, 0],
            Verdict::Later(y) => [3, y, 0],
            Verdict::Further(k) => [4, k.into(), 0],
            Verdict::Group => [5, 0, 0],
        };
        Outcome {
            reply: told(plain::ask(numbers, gauges, members, begin, end), verdict),
            memory: Memory::Nothing,
        }
    }

    fn read(&self, bytes: &[u8], numbers: &Lent) -> Outcome {
        let (reply, after) = plain::read(bytes, &numbers.content::<u32>());
        Outcome {
            reply: told(reply, |read| [read.links, read.gauges, 0]),
            memory: Memory::Numbers(after),
        }
    }

    fn write(&self, numbers: &[u32], gauges: u32, bytes: &Lent) -> Outcome {
        let (reply, after) = plain::write(numbers, gauges, &bytes.content::<u8>());
        Outcome {
            reply: told(reply, |length| [length, 0, 0]),
            memory: Memory::Bytes(after),
        }
    }

    fn listing(&self, input: &[u8], out: &Lent) -> Outcome {
        let text = plain::listing(input);
        let mut after: Vec<u8> = out.content();
        let mut answer = 0;
        if text.len() <= after.len() {
            after[..text.len()].copy_from_slice(text.as_bytes());
            answer = text.len() as u64;
        }
        Outcome {
            reply: [0, 0, answer, 0, 0],
            memory: Memory::Bytes(after),
        }
    }

    fn printed(&self, input: &[u8]) -> Outcome {
        Outcome {
            reply: [0; 5],
            memory: Memory::Text(plain::listing(input)),
        }
    }
}

fn told<T>(reply: Result<T, Refusal>, answer: impl FnOnce(T) -> [u64; 3]) -> [u64; 5] {
    five(reply.map(answer).map_err(|why| [why.reason, why.place]))
}
