//! Memory to lend: so many numbers, filled in a known way, with numbers before and after that no call may change.

use std::ptr::{null, null_mut};

/// How the numbers are filled before the call.
#[derive(Clone, Copy, Debug, PartialEq, Eq)]
pub enum Fill {
    Garbage,
    Zeros,
    Ones,
    Small,
}

/// So many numbers, filled so.
#[derive(Clone, Copy, Debug, PartialEq, Eq)]
pub struct Lent {
    pub count: usize,
    pub fill: Fill,
}

impl Lent {
    pub fn garbage(count: usize) -> Lent {
        Lent {
            count,
            fill: Fill::Garbage,
        }
    }

    pub fn content<T: Number>(&self) -> Vec<T> {
        (0..self.count as u64)
            .map(|i| {
                T::cut(match self.fill {
                    Fill::Garbage => garbage(i),
                    Fill::Zeros => 0,
                    Fill::Ones => u64::MAX,
                    Fill::Small => i % 7,
                })
            })
            .collect()
    }
}

fn garbage(i: u64) -> u64 {
    (i + 1).wrapping_mul(0x9e37_79b9_7f4a_7c15) ^ 0x5bd1_e995_c6a4_a793
}

pub trait Number: Copy + PartialEq {
    fn cut(n: u64) -> Self;
}

impl Number for u8 {
    fn cut(n: u64) -> u8 {
        n as u8
    }
}

impl Number for u32 {
    fn cut(n: u64) -> u32 {
        n as u32
    }
}

impl Number for u64 {
    fn cut(n: u64) -> u64 {
        n
    }
}

const GUARDS: usize = 4;

/// Numbers between guards.
pub struct Guarded<T> {
    all: Vec<T>,
    count: usize,
}

impl<T: Number> Guarded<T> {
    pub fn new(content: &[T]) -> Guarded<T> {
        let guards = (0..GUARDS as u64).map(|i| T::cut(garbage(1000 + i)));
        let mut all: Vec<T> = guards.clone().collect();
        all.extend_from_slice(content);
        all.extend(guards);
        Guarded {
            all,
            count: content.len(),
        }
    }

    /// Null where nothing is lent.
    pub fn pointer(&self) -> *const T {
        if self.count == 0 {
            null()
        } else {
            self.content().as_ptr()
        }
    }

    pub fn pointer_mut(&mut self) -> *mut T {
        if self.count == 0 {
            null_mut()
        } else {
            self.all[GUARDS..].as_mut_ptr()
        }
    }

    pub fn count(&self) -> usize {
        self.count
    }

    pub fn content(&self) -> &[T] {
        &self.all[GUARDS..GUARDS + self.count]
    }

    pub fn guards_stand(&self) -> bool {
        let fresh = Guarded::new(self.content());
        self.all == fresh.all
    }
}

#[cfg(test)]
mod tests {
    use super::*;

    #[test]
    fn a_number_written_beside_what_is_lent_is_seen() {
        for beside in [GUARDS - 1, GUARDS + 3] {
            let mut guarded = Guarded::<u32>::new(&[1, 2, 3]);
            assert!(guarded.guards_stand());
            guarded.all[beside] += 1;
            assert!(!guarded.guards_stand());
        }
    }
}
