//! Cliques and groups, found in three ways: hour by hour as the definition has it, set by set, and by a search in the graph
//! of each span. They are held against one another by the tests below and by the comparison.

use crate::table::{Link, Refusal, check, refused};

/// A clique: its span and its gauges, gauge k as bit k. The order is that of the list.
#[derive(Clone, Copy, Debug, PartialEq, Eq, PartialOrd, Ord)]
pub struct Row {
    pub begin: u64,
    pub end: u64,
    pub members: u64,
}

impl Row {
    fn lies_inside(&self, other: &Row) -> bool {
        self.members & !other.members == 0 && other.begin <= self.begin && self.end <= other.end
    }
}

pub(crate) fn has(members: u64, gauge: u32) -> bool {
    gauge < 64 && members >> gauge & 1 == 1
}

/// The gauges of a set, ascending.
pub(crate) fn gauges_of(members: u64) -> impl DoubleEndedIterator<Item = u32> + Clone {
    (0..64).filter(move |&k| has(members, k))
}

/// Whether one link joins the pair throughout the hours from `x` to `y`.
pub(crate) fn joined(links: &[Link], u: u32, v: u32, x: u64, y: u64) -> bool {
    links.iter().any(|link| link.joins(u, v, x, y))
}

/// Whether every pair of the set is joined throughout.
pub(crate) fn all_joined(links: &[Link], members: u64, x: u64, y: u64) -> bool {
    gauges_of(members).all(|u| gauges_of(members).all(|v| u >= v || joined(links, u, v, x, y)))
}

/// The groups by the words of the definition: every set of at least two gauges with every span of hours up to `last`, those that are cliques, and of these the ones
/// that lie strictly inside no other. Hours after `last` must join nobody.
pub fn groups_by_hours(links: &[Link], gauges: u32, last: u64) -> Vec<Row> {
    let mut cliques = Vec::new();
    for begin in 0..=last {
        for end in begin..=last {
            for members in 0..1u64 << gauges {
                if members.count_ones() >= 2 && all_joined(links, members, begin, end) {
                    cliques.push(Row {
                        begin,
                        end,
                        members,
                    });
                }
            }
        }
    }
    let mut groups: Vec<Row> = cliques
        .iter()
        .filter(|c| !cliques.iter().any(|d| c != &d && c.lies_inside(d)))
        .copied()
        .collect();
    groups.sort();
    groups
}

/// The groups set by set. The longest spans of a set are what one link of each of its pairs have in common; such a span and its set are
/// a group if no further gauge is joined to all of the set throughout.
pub fn groups_by_sets(links: &[Link], gauges: u32) -> Vec<Row> {
    let mut groups = Vec::new();
    for members in 0..1u64 << gauges {
        if members.count_ones() < 2 {
            continue;
        }
        for (begin, end) in longest_spans(links, members) {
            if !(0..gauges).any(|k| {
                !has(members, k) && gauges_of(members).all(|u| joined(links, u, k, begin, end))
            }) {
                groups.push(Row {
                    begin,
                    end,
                    members,
                });
            }
        }
    }
    groups.sort();
    groups
}

fn longest_spans(links: &[Link], members: u64) -> Vec<(u64, u64)> {
    let mut spans = vec![(0, u64::MAX)];
    for u in gauges_of(members) {
        for v in gauges_of(members).filter(|&v| u < v) {
            let of_pair: Vec<&Link> = links.iter().filter(|link| link.is_of(u, v)).collect();
            spans = spans
                .iter()
                .flat_map(|&(x, y)| {
                    of_pair
                        .iter()
                        .map(move |l| (x.max(l.begin.into()), y.min(l.end.into())))
                })
                .filter(|(x, y)| x <= y)
                .collect();
        }
    }
    spans
}

/// The groups span by span: a group begins where a link begins and ends where a link ends. In the graph of the pairs that are joined throughout the span, its set is one
/// that no gauge extends; and the span can't begin an hour earlier, nor end an hour later. None if there are more than `most`.
pub fn groups_by_search(links: &[Link], most: usize) -> Option<Vec<Row>> {
    let mut begins: Vec<u32> = links.iter().map(|l| l.begin).collect();
    begins.sort();
    begins.dedup();
    let mut groups = Vec::new();
    for x in begins {
        let standing: Vec<&Link> = links
            .iter()
            .filter(|l| l.begin <= x && x <= l.end)
            .collect();
        let mut ends: Vec<u32> = standing.iter().map(|l| l.end).collect();
        ends.sort();
        ends.dedup();
        for y in ends {
            let span = Span::new(&standing, x, y);
            let all = (0..64)
                .filter(|&k| span.near[k] != 0)
                .fold(0, |m, k| m | 1 << k);
            if !span.search(0, all, 0, most, &mut groups) {
                return None;
            }
        }
    }
    groups.sort();
    Some(groups)
}

/// The pairs that are joined throughout the hours from `x` to `y`, and of these the ones that are not joined an hour earlier, and an hour later.
struct Span {
    x: u32,
    y: u32,
    near: [u64; 64],
    begins: [u64; 64],
    ends: [u64; 64],
}

impl Span {
    fn new(standing: &[&Link], x: u32, y: u32) -> Span {
        let mut span = Span {
            x,
            y,
            near: [0; 64],
            begins: [0; 64],
            ends: [0; 64],
        };
        for l in standing.iter().filter(|l| y <= l.end) {
            put(&mut span.near, l);
            if l.begin == x {
                put(&mut span.begins, l);
            }
            if l.end == y {
                put(&mut span.ends, l);
            }
        }
        span
    }

    /// Every set that holds `r`, some gauges of `p` and none of `q`, and that no gauge extends. False if the groups are more than `most`.
    fn search(&self, r: u64, p: u64, q: u64, most: usize, groups: &mut Vec<Row>) -> bool {
        if p == 0 && q == 0 {
            if holds_a_pair(&self.begins, r) && holds_a_pair(&self.ends, r) {
                groups.push(Row {
                    begin: self.x.into(),
                    end: self.y.into(),
                    members: r,
                });
            }
            return groups.len() <= most;
        }
        // a set that no gauge extends has the pivot or a gauge that isn't near it
        let pivot = gauges_of(p | q)
            .max_by_key(|&k| (self.near[k as usize] & p).count_ones())
            .expect("p and q are not both empty");
        let (mut p, mut q) = (p, q);
        for k in gauges_of(p & !self.near[pivot as usize]) {
            let near = self.near[k as usize];
            if !self.search(r | 1 << k, p & near, q & near, most, groups) {
                return false;
            }
            p &= !(1 << k);
            q |= 1 << k;
        }
        true
    }
}

fn put(graph: &mut [u64; 64], l: &Link) {
    graph[l.u as usize] |= 1 << l.v;
    graph[l.v as usize] |= 1 << l.u;
}

fn holds_a_pair(graph: &[u64; 64], set: u64) -> bool {
    gauges_of(set).any(|k| graph[k as usize] & set != 0)
}

/// Up to so many gauges the groups are looked for set by set.
const FEW: u32 = 5;

/// The number of groups, and what the lent rows then hold, three numbers a row.
pub fn list(numbers: &[u32], gauges: u32, rows: &[u64]) -> (Result<u64, Refusal>, Vec<u64>) {
    let mut rows = rows.to_vec();
    let links = match check(numbers, gauges) {
        Ok(links) => links,
        Err(refusal) => return (Err(refusal), rows),
    };
    let whole = rows.len() / 3;
    let groups = if gauges <= FEW {
        Some(groups_by_sets(&links, gauges)).filter(|g| g.len() <= whole)
    } else {
        groups_by_search(&links, whole)
    };
    match groups {
        None => {
            rows[..3 * whole].fill(0);
            (refused(9, 0), rows)
        }
        Some(groups) => {
            for (row, group) in rows.chunks_mut(3).zip(&groups) {
                row.copy_from_slice(&[group.begin, group.end, group.members]);
            }
            (Ok(groups.len() as u64), rows)
        }
    }
}

#[cfg(test)]
mod tests {
    use super::*;

    const T: [u32; 20] = [
        1, 9, 0, 1, 3, 12, 1, 2, 5, 14, 0, 2, 7, 20, 2, 3, 10, 18, 1, 3,
    ];

    fn rows(groups: &[Row]) -> Vec<(u64, u64, u64)> {
        groups.iter().map(|g| (g.begin, g.end, g.members)).collect()
    }

    #[test]
    fn the_three_ways_agree_on_t() {
        let links = check(&T, 4).unwrap();
        let by_hours = groups_by_hours(&links, 4, 21);
        assert_eq!(
            rows(&by_hours),
            [
                (1, 9, 3),
                (3, 12, 6),
                (5, 9, 7),
                (5, 14, 5),
                (7, 20, 12),
                (10, 12, 14),
                (10, 18, 10)
            ]
        );
        assert_eq!(by_hours, groups_by_sets(&links, 4));
        assert_eq!(Some(by_hours), groups_by_search(&links, 7));
        assert_eq!(None, groups_by_search(&links, 6));
    }

    #[test]
    fn too_few_rows_are_cleared_and_what_is_left_over_stays() {
        let (reply, after) = list(&T, 4, &[8; 20]);
        assert_eq!(reply, refused(9, 0));
        assert_eq!(after[..18], [0; 18]);
        assert_eq!(after[18..], [8; 2]);
    }
}
