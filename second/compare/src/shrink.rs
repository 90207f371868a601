//! The smallest case near a differing one that still differs: links dropped, buffers shortened, numbers made smaller.

use crate::case::{Case, Part};
use crate::lent::{Fill, Lent};
use std::time::{Duration, Instant};

/// How long a smaller case is looked for.
const PATIENCE: Duration = Duration::from_secs(20);

pub fn smallest(case: Case, differs: impl Fn(&Case) -> bool) -> Case {
    let until = Instant::now() + PATIENCE;
    let mut best = case;
    loop {
        let mut found = None;
        each_smaller(&best, &mut |smaller| {
            if smaller != best && differs(&smaller) {
                found = Some(smaller);
            }
            found.is_some() || Instant::now() > until
        });
        match found {
            Some(smaller) => best = smaller,
            None => return best,
        }
    }
}

/// Tries smaller cases until one is taken: one part after another is made smaller.
fn each_smaller(case: &Case, stop: &mut dyn FnMut(Case) -> bool) -> bool {
    let mut own = case.clone();
    own.parts().into_iter().enumerate().any(|(at, part)| {
        let mut stop = |part: Part| stop(exchanged(case, at, part));
        match part {
            Part::Table(numbers, gauges) => table(numbers, *gauges, &mut |mut n, mut g| {
                stop(Part::Table(&mut n, &mut g))
            }),
            Part::File(bytes) => file(bytes, &mut |mut b| stop(Part::File(&mut b))),
            Part::Room(lent) => buffer(lent, &mut |mut l| stop(Part::Room(&mut l))),
            Part::Members(set) => (0..64).any(|k| stop(Part::Members(&mut (*set & !(1 << k))))),
            Part::Hour(hour) => smaller(*hour).any(|mut h| stop(Part::Hour(&mut h))),
        }
    })
}

/// The case with this part in the place of its own.
fn exchanged(case: &Case, at: usize, part: Part) -> Case {
    let mut other = case.clone();
    match (other.parts().swap_remove(at), part) {
        (Part::Table(numbers, gauges), Part::Table(n, g)) => {
            numbers.clone_from(n);
            *gauges = *g;
        }
        (Part::File(bytes), Part::File(b)) => bytes.clone_from(b),
        (Part::Room(lent), Part::Room(l)) => *lent = *l,
        (Part::Members(old), Part::Members(new)) | (Part::Hour(old), Part::Hour(new)) => {
            *old = *new
        }
        _ => unreachable!("a part is exchanged for one of its kind"),
    }
    other
}

fn smaller(n: u64) -> impl Iterator<Item = u64> {
    [0, n / 2, n.saturating_sub(1)]
        .into_iter()
        .filter(move |&m| m < n)
}

/// The table without some links, then with smaller numbers.
fn table(numbers: &[u32], gauges: u32, stop: &mut dyn FnMut(Vec<u32>, u32) -> bool) -> bool {
    parts(numbers, 4, &mut |numbers| stop(numbers, gauges))
        || smaller(gauges.into()).any(|g| stop(numbers.to_vec(), g as u32))
        || (0..numbers.len()).any(|i| {
            smaller(numbers[i].into()).any(|n| {
                let mut numbers = numbers.to_vec();
                numbers[i] = n as u32;
                stop(numbers, gauges)
            })
        })
}

/// The file of a smaller table, if it is the file of one; then the bytes without a part of them, and with smaller bytes.
fn file(bytes: &[u8], stop: &mut dyn FnMut(Vec<u8>) -> bool) -> bool {
    let (reply, numbers) = plain::read(bytes, &vec![0; bytes.len()]);
    if let Ok(read) = reply
        && table(
            &numbers[..4 * read.links as usize],
            read.gauges as u32,
            &mut |numbers, gauges| stop(plain::file_of(&numbers, gauges)),
        )
    {
        return true;
    }
    parts(bytes, 1, stop)
        || (0..bytes.len()).any(|i| {
            smaller(bytes[i].into()).any(|b| {
                let mut bytes = bytes.to_vec();
                bytes[i] = b as u8;
                stop(bytes)
            })
        })
}

/// The sequence without a part of it, larger parts first; the parts are whole in units of `unit`.
fn parts<T: Clone>(of: &[T], unit: usize, stop: &mut dyn FnMut(Vec<T>) -> bool) -> bool {
    let mut size = of.len() / unit;
    while size > 0 {
        for from in (0..of.len()).step_by(size * unit) {
            let upto = (from + size * unit).min(of.len());
            if stop([&of[..from], &of[upto..]].concat()) {
                return true;
            }
        }
        size /= 2;
    }
    false
}

fn buffer(lent: &Lent, stop: &mut dyn FnMut(Lent) -> bool) -> bool {
    [
        lent.count / 2,
        lent.count.saturating_sub(3),
        lent.count.saturating_sub(1),
    ]
    .into_iter()
    .filter(|&count| count < lent.count)
    .any(|count| stop(Lent { count, ..*lent }))
        || (lent.fill != Fill::Garbage && stop(Lent::garbage(lent.count)))
}
