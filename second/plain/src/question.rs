//! The question about one group.

use crate::groups::{all_joined, gauges_of, has, joined};
use crate::table::{Link, Refusal, check, refused};

#[derive(Clone, Copy, Debug, PartialEq, Eq)]
pub enum Verdict {
    /// This pair isn't joined throughout.
    Missing(u32, u32),
    /// The span can begin at this hour.
    Earlier(u64),
    /// The span can end at this hour.
    Later(u64),
    /// This gauge fits too.
    Further(u32),
    Group,
}

/// What is to be said of these members over the hours from `begin` to `end`.
pub fn ask(
    numbers: &[u32],
    gauges: u32,
    members: u64,
    begin: u64,
    end: u64,
) -> Result<Verdict, Refusal> {
    let links = check(numbers, gauges)?;
    if gauges_of(members).any(|k| k >= gauges) {
        return refused(10, 0);
    }
    if members.count_ones() < 2 {
        return refused(11, 0);
    }
    if begin > end {
        return refused(12, 0);
    }
    Ok(verdict(&links, gauges, members, begin, end))
}

fn verdict(links: &[Link], gauges: u32, members: u64, begin: u64, end: u64) -> Verdict {
    for u in gauges_of(members) {
        for v in gauges_of(members).filter(|&v| u < v) {
            if !joined(links, u, v, begin, end) {
                return Verdict::Missing(u, v);
            }
        }
    }
    // with this end the earliest begin is where a link begins, with this begin the latest end is where one ends
    let earliest = links
        .iter()
        .map(|l| u64::from(l.begin))
        .filter(|&x| x < begin && all_joined(links, members, x, end))
        .min();
    if let Some(x) = earliest {
        return Verdict::Earlier(x);
    }
    let latest = links
        .iter()
        .map(|l| u64::from(l.end))
        .filter(|&y| end < y && all_joined(links, members, begin, y))
        .max();
    if let Some(y) = latest {
        return Verdict::Later(y);
    }
    let further = (0..gauges)
        .find(|&k| !has(members, k) && gauges_of(members).all(|u| joined(links, u, k, begin, end)));
    match further {
        Some(k) => Verdict::Further(k),
        None => Verdict::Group,
    }
}

#[cfg(test)]
mod tests {
    use super::*;

    const T: [u32; 20] = [
        1, 9, 0, 1, 3, 12, 1, 2, 5, 14, 0, 2, 7, 20, 2, 3, 10, 18, 1, 3,
    ];

    #[test]
    fn verdicts_of_t() {
        assert_eq!(ask(&T, 4, 3, 5, 9), Ok(Verdict::Earlier(1)));
        assert_eq!(ask(&T, 4, 5, 5, 9), Ok(Verdict::Later(14)));
        assert_eq!(ask(&T, 4, 3, 6, 12), Ok(Verdict::Missing(0, 1)));
        assert_eq!(ask(&T, 4, 7, 5, 9), Ok(Verdict::Group));
        assert_eq!(ask(&T, 4, 3, 1 << 40, 1 << 41), Ok(Verdict::Missing(0, 1)));
    }

    #[test]
    fn refusals_come_in_order() {
        assert_eq!(ask(&T, 4, 16, 9, 5), refused(10, 0));
        assert_eq!(ask(&T, 4, 8, 9, 5), refused(11, 0));
        assert_eq!(ask(&T, 4, 3, 9, 5), refused(12, 0));
    }
}
