//! Links, and the reasons 1 to 8 for refusing a table of them.

pub const MOST_LINKS: usize = 2048;
pub const MOST_GAUGES: u32 = 64;
pub const LAST_HOUR: u32 = 2_147_483_647;

/// Gauges `u` and `v` rose together at every hour from `begin` to `end`.
#[derive(Clone, Copy, Debug, PartialEq, Eq)]
pub struct Link {
    pub begin: u32,
    pub end: u32,
    pub u: u32,
    pub v: u32,
}

impl Link {
    /// Whether it is a link of these two gauges, in either order.
    pub fn is_of(&self, u: u32, v: u32) -> bool {
        (self.u == u && self.v == v) || (self.u == v && self.v == u)
    }

    /// Whether it joins these two gauges throughout the hours from `x` to `y`.
    pub fn joins(&self, u: u32, v: u32, x: u64, y: u64) -> bool {
        self.is_of(u, v) && u64::from(self.begin) <= x && y <= u64::from(self.end)
    }

    fn shares_an_hour(&self, other: &Link) -> bool {
        self.begin <= other.end && other.begin <= self.end
    }
}

/// The number of a reason in document 01's table, and its place.
#[derive(Clone, Copy, Debug, PartialEq, Eq)]
pub struct Refusal {
    pub reason: u64,
    pub place: u64,
}

pub(crate) fn refused<T>(reason: u64, place: usize) -> Result<T, Refusal> {
    Err(Refusal {
        reason,
        place: place as u64,
    })
}

/// The links of an accepted table, or the first of reasons 1 to 8.
pub fn check(numbers: &[u32], gauges: u32) -> Result<Vec<Link>, Refusal> {
    if !numbers.len().is_multiple_of(4) {
        return refused(1, 0);
    }
    let links: Vec<Link> = numbers
        .chunks(4)
        .map(|n| Link {
            begin: n[0],
            end: n[1],
            u: n[2],
            v: n[3],
        })
        .collect();
    if links.len() > MOST_LINKS {
        return refused(2, 0);
    }
    if gauges == 0 || gauges > MOST_GAUGES {
        return refused(3, 0);
    }
    for (i, link) in links.iter().enumerate() {
        if link.u >= gauges || link.v >= gauges {
            return refused(4, i);
        }
        if link.u == link.v {
            return refused(5, i);
        }
        if link.end < link.begin {
            return refused(6, i);
        }
        if link.end > LAST_HOUR {
            return refused(7, i);
        }
        if links[..i]
            .iter()
            .any(|earlier| earlier.is_of(link.u, link.v) && earlier.shares_an_hour(link))
        {
            return refused(8, i);
        }
    }
    Ok(links)
}

#[cfg(test)]
mod tests {
    use super::*;

    fn reason(numbers: &[u32], gauges: u32) -> Option<(u64, u64)> {
        check(numbers, gauges).err().map(|r| (r.reason, r.place))
    }

    #[test]
    fn sharing_one_hour_is_refused_and_adjacent_hours_are_not() {
        assert_eq!(reason(&[0, 5, 0, 1, 5, 9, 1, 0], 4), Some((8, 1)));
        assert_eq!(reason(&[0, 5, 0, 1, 6, 9, 1, 0], 4), None);
    }

    #[test]
    fn the_last_hour_passes() {
        assert_eq!(reason(&[0, LAST_HOUR, 0, 1], 2), None);
        assert_eq!(reason(&[0, LAST_HOUR + 1, 0, 1], 2), Some((7, 0)));
    }

    #[test]
    fn whole_tables() {
        assert_eq!(reason(&[0; 8193], 0), Some((1, 0)));
        assert_eq!(reason(&[0; 4 * 2049], 0), Some((2, 0)));
        assert_eq!(reason(&[], 0), Some((3, 0)));
        assert_eq!(reason(&[], 65), Some((3, 0)));
        assert_eq!(reason(&[0, 1, 0, 63], 63), Some((4, 0)));
        assert_eq!(reason(&[0, 1, 0, 63], 64), None);
    }
}
