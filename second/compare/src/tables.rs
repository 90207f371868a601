//! Tables of links.

use crate::random::Random;
use plain::LAST_HOUR;

/// The numbers of the links, four a link, and the gauge count.
#[derive(Clone, Debug, PartialEq, Eq)]
pub struct Table {
    pub numbers: Vec<u32>,
    pub gauges: u32,
}

/// The table T of document 01.
pub fn t() -> Table {
    Table {
        numbers: vec![
            1, 9, 0, 1, 3, 12, 1, 2, 5, 14, 0, 2, 7, 20, 2, 3, 10, 18, 1, 3,
        ],
        gauges: 4,
    }
}

/// Every way in which one pair can be linked over the hours from `from` up to `hours`: links that share no hour, also adjacent ones.
fn ways(from: u32, hours: u32) -> Vec<Vec<(u32, u32)>> {
    let mut all = vec![vec![]];
    for begin in from..hours {
        for end in begin..hours {
            for rest in ways(end + 1, hours) {
                let mut way = vec![(begin, end)];
                way.extend(rest);
                all.push(way);
            }
        }
    }
    all
}

/// Every table of three gauges over so many hours; the links in an order, and the gauges of each in an order, that change from table to table.
pub fn all_of_three(hours: u32, random: &mut Random) -> Vec<Table> {
    let ways = ways(0, hours);
    let mut all = Vec::new();
    for a in &ways {
        for b in &ways {
            for c in &ways {
                let mut links = Vec::new();
                for (way, u, v) in [(a, 0, 1), (b, 0, 2), (c, 1, 2)] {
                    links.extend(way.iter().map(|&(begin, end)| [begin, end, u, v]));
                }
                all.push(shuffled(links, 3, random));
            }
        }
    }
    all
}

/// A table of these links, in any order, the two gauges of each in any order.
fn shuffled(mut links: Vec<[u32; 4]>, gauges: u32, random: &mut Random) -> Table {
    random.shuffle(&mut links);
    for link in &mut links {
        if random.chance(2) {
            link.swap(2, 3);
        }
    }
    Table {
        numbers: links.concat(),
        gauges,
    }
}

/// The pairs of gauges below `gauges`.
pub fn pairs(gauges: u32) -> impl Iterator<Item = (u32, u32)> {
    (0..gauges).flat_map(move |u| (u + 1..gauges).map(move |v| (u, v)))
}

/// Up to so many links of up to so many gauges over up to so many hours, wherever they fall.
pub fn scattered(gauges: u32, hours: u32, tries: u32, random: &mut Random) -> Table {
    let mut links: Vec<[u32; 4]> = Vec::new();
    for _ in 0..tries {
        let u = random.between(0, gauges - 1);
        let v = random.between(0, gauges - 1);
        let begin = random.between(0, hours - 1);
        let longest = if random.chance(2) {
            hours - 1
        } else {
            (begin + 4).min(hours - 1)
        };
        let end = random.between(begin, longest.max(begin));
        let apart = |l: &[u32; 4]| {
            (l[2].min(l[3]), l[2].max(l[3])) != (u.min(v), u.max(v)) || l[1] < begin || end < l[0]
        };
        if u != v && links.iter().all(apart) {
            links.push([begin, end, u, v]);
        }
    }
    links.truncate(plain::MOST_LINKS);
    shuffled(links, gauges, random)
}

/// Nearly every pair linked at nearly every hour, in links of chance length: of each pair one begins where the last ended, or an hour after it, or later.
pub fn dense(gauges: u32, hours: u32, longest: u32, gap_one_in: u64, random: &mut Random) -> Table {
    let mut links = Vec::new();
    for (u, v) in pairs(gauges) {
        let mut begin = random.between(0, 1);
        while begin < hours {
            let end = random.between(begin, (begin + longest - 1).min(hours - 1));
            if !random.chance(8) {
                links.push([begin, end, u, v]);
            }
            begin = end + 1 + u32::from(random.chance(gap_one_in));
        }
    }
    random.shuffle(&mut links);
    links.truncate(plain::MOST_LINKS);
    shuffled(links, gauges, random)
}

/// Links of one pair, one after another, among a few others.
pub fn one_pair(count: u32, gauges: u32, random: &mut Random) -> Table {
    let mut links = Vec::new();
    let mut begin = 0;
    for _ in 0..count {
        let end = begin + random.between(0, 3);
        links.push([begin, end, 0, 1]);
        begin = end + random.between(1, 3);
    }
    for (u, v) in pairs(gauges).skip(1) {
        if links.len() < plain::MOST_LINKS {
            links.push([random.between(0, begin / 2), begin, u, v]);
        }
    }
    shuffled(links, gauges, random)
}

/// The table with its hours moved up, so that its last link ends with the last hour.
pub fn moved_to_the_last_hour(mut table: Table) -> Table {
    let last = table
        .numbers
        .chunks(4)
        .map(|l| l[1])
        .max()
        .unwrap_or(LAST_HOUR);
    for link in table.numbers.chunks_mut(4) {
        link[0] += LAST_HOUR - last;
        link[1] += LAST_HOUR - last;
    }
    table
}

/// The table with its links in the order of their begins, as they are reported over a season.
pub fn by_begin(table: Table) -> Table {
    let mut links: Vec<&[u32]> = table.numbers.chunks(4).collect();
    links.sort();
    Table {
        numbers: links.concat(),
        gauges: table.gauges,
    }
}

/// All pairs of so many gauges over one span.
pub fn complete(gauges: u32) -> Table {
    Table {
        numbers: pairs(gauges).flat_map(|(u, v)| [3, 9, u, v]).collect(),
        gauges,
    }
}

/// Gauges by threes, and every two of different threes linked over one span: three to the power of the threes groups.
pub fn threes(count: u32) -> Table {
    Table {
        numbers: pairs(3 * count)
            .filter(|(u, v)| u / 3 != v / 3)
            .flat_map(|(u, v)| [0, 100, u, v])
            .collect(),
        gauges: 3 * count,
    }
}

/// All pairs of so many gauges, each link within the one before it.
pub fn nested(gauges: u32) -> Table {
    Table {
        numbers: pairs(gauges)
            .enumerate()
            .flat_map(|(i, (u, v))| [i as u32, 5000 - i as u32, u, v])
            .collect(),
        gauges,
    }
}

/// So many links, no two with the same begin and no two with the same end.
pub fn all_different(count: u32, random: &mut Random) -> Table {
    let mut begins: Vec<u32> = (0..count).collect();
    let mut pairs: Vec<(u32, u32)> = pairs(64).collect();
    random.shuffle(&mut begins);
    random.shuffle(&mut pairs);
    let mut links: Vec<[u32; 4]> = Vec::new();
    for (i, &begin) in begins.iter().enumerate() {
        // the few links that are too many for the pairs come after all others
        let (u, v) = pairs[i % pairs.len()];
        let later = if i < pairs.len() { 0 } else { 2 * count + 1 };
        links.push([
            later + begin,
            later + count + (begin * 7 + i as u32) % 3,
            u,
            v,
        ]);
    }
    links.sort_by_key(|l| l[1]);
    for (i, link) in links.iter_mut().enumerate() {
        link[1] += i as u32;
    }
    shuffled(links, 64, random)
}

/// A season on a river: gauges on a tree, storms one after another. A storm reaches some neighbouring gauges, each a little later the farther it is, and
/// gauges whose rises overlap are linked for as long as both rise.
pub fn season(count: u32, random: &mut Random) -> Table {
    let gauges = 64;
    let below: Vec<usize> = (0..gauges)
        .map(|k| random.below(k.max(1)) as usize)
        .collect();
    let mut links: Vec<[u32; 4]> = Vec::new();
    let mut hour = 0;
    while links.len() < count as usize {
        let mut rises: Vec<(u32, u32, u32)> = Vec::new();
        let mut gauge = random.below(gauges) as usize;
        for distance in 0..random.between(2, 8) {
            let begin = hour + distance * random.between(1, 3);
            rises.push((gauge as u32, begin, begin + random.between(4, 24)));
            gauge = below[gauge];
        }
        rises.sort();
        rises.dedup_by_key(|rise| rise.0);
        for (i, &(u, from, upto)) in rises.iter().enumerate() {
            for &(v, begin, end) in &rises[i + 1..] {
                let (begin, end) = (from.max(begin), upto.min(end));
                let apart = |l: &[u32; 4]| (l[2], l[3]) != (u, v) || l[1] < begin || end < l[0];
                if begin <= end && links.iter().all(apart) {
                    links.push([begin, end, u, v]);
                }
            }
        }
        hour += random.between(1, 12);
    }
    links.truncate(count as usize);
    shuffled(links, gauges as u32, random)
}

/// So many links of an hour to three, wherever they fall.
pub fn short(count: u32, random: &mut Random) -> Table {
    let hours = count / 8;
    let mut links: Vec<[u32; 4]> = Vec::new();
    while links.len() < count as usize {
        let (u, v) = (random.between(0, 63), random.between(0, 63));
        let begin = random.between(0, hours);
        let end = begin + random.between(0, 2);
        let apart = |l: &[u32; 4]| (l[2], l[3]) != (u, v) || l[1] < begin || end < l[0];
        if u < v && links.iter().all(apart) {
            links.push([begin, end, u, v]);
        }
    }
    shuffled(links, 64, random)
}

/// The table with the fault of this reason, 4 to 8, put into link `place`. Reason 8 needs an earlier link.
pub fn with_fault(table: &Table, reason: u64, place: usize, random: &mut Random) -> Option<Table> {
    let mut faulty = table.clone();
    let gauges = table.gauges;
    let earlier: Vec<[u32; 4]> = table.numbers[..4 * place]
        .chunks(4)
        .map(|l| [l[0], l[1], l[2], l[3]])
        .filter(|l| l[0] <= l[1])
        .collect();
    let link = &mut faulty.numbers[4 * place..4 * place + 4];
    match reason {
        4 => {
            let unknown = *random.pick(&[gauges, gauges + 1, 64, 255, 65535, u32::MAX]);
            link[random.between(2, 3) as usize] = unknown.max(gauges);
        }
        5 => link[3] = link[2],
        6 => {
            link[0] = link[0].max(1);
            link[1] = random.between(0, link[0] - 1);
        }
        7 => link[1] = *random.pick(&[LAST_HOUR + 1, LAST_HOUR + 2, u32::MAX]),
        _ => {
            if earlier.is_empty() {
                return None;
            }
            let [begin, end, u, v] = *random.pick(&earlier);
            let hour = random.between(begin, end);
            let from = if random.chance(2) {
                hour
            } else {
                hour - hour.min(2)
            };
            link.copy_from_slice(&[from, hour, v, u]);
        }
    }
    Some(faulty)
}

#[cfg(test)]
mod tests {
    use super::*;
    use std::collections::BTreeSet;

    #[test]
    fn large_tables_are_accepted() {
        let random = &mut Random::new(7);
        let tables = [
            one_pair(2048, 2, random),
            complete(64),
            threes(21),
            nested(64),
            all_different(2048, random),
            season(2048, random),
            short(2048, random),
            moved_to_the_last_hour(season(700, random)),
        ];
        for table in tables {
            assert!(plain::check(&table.numbers, table.gauges).is_ok());
        }
    }

    #[test]
    fn begins_and_ends_are_all_different() {
        let table = all_different(2048, &mut Random::new(7));
        let begins: BTreeSet<u32> = table.numbers.chunks(4).map(|l| l[0]).collect();
        let ends: BTreeSet<u32> = table.numbers.chunks(4).map(|l| l[1]).collect();
        assert_eq!((begins.len(), ends.len()), (2048, 2048));
    }

    #[test]
    fn a_pair_has_thirteen_ways_over_three_hours() {
        assert_eq!(ways(0, 3).len(), 13);
        assert_eq!(all_of_three(3, &mut Random::new(7)).len(), 13 * 13 * 13);
    }

    #[test]
    fn each_fault_is_found_where_it_was_put() {
        let random = &mut Random::new(7);
        for reason in 4..=8 {
            for place in 0..5 {
                if let Some(faulty) = with_fault(&t(), reason, place, random) {
                    let refusal = plain::check(&faulty.numbers, faulty.gauges).unwrap_err();
                    assert_eq!((refusal.reason, refusal.place), (reason, place as u64));
                }
            }
        }
    }
}
