//! What a call comes to: its reply, and what it leaves in the lent memory.

use std::fmt;

/// What the lent memory holds after a call, or what a program printed.
#[derive(Clone, Debug, PartialEq, Eq)]
pub enum Memory {
    Nothing,
    Rows(Vec<u64>),
    Numbers(Vec<u32>),
    Bytes(Vec<u8>),
    Text(String),
}

/// The five numbers of a reply, and the lent memory.
#[derive(Clone, Debug, PartialEq, Eq)]
pub struct Outcome {
    pub reply: [u64; 5],
    pub memory: Memory,
}

/// The five numbers of a reply, as the header has them: an answer and its values, or a reason and its place.
pub fn five(reply: Result<[u64; 3], [u64; 2]>) -> [u64; 5] {
    match reply {
        Ok([answer, first, second]) => [0, 0, answer, first, second],
        Err([reason, place]) => [reason, place, 0, 0, 0],
    }
}

impl Outcome {
    /// One number of an outcome that isn't the simplest flipped.
    pub fn flip(&mut self) {
        let [reason, _, answer, _, _] = self.reply;
        match &mut self.memory {
            Memory::Nothing if reason == 0 && answer != 3 => {}
            Memory::Nothing if reason == 0 => self.reply[3] += 1,
            Memory::Nothing => self.reply[1] += u64::from(reason == 8),
            Memory::Rows(rows) if reason == 0 && answer > 1 => rows[3 * answer as usize - 1] ^= 1,
            Memory::Numbers(numbers) if reason == 0 && answer > 1 => {
                numbers[4 * answer as usize - 1] ^= 1;
            }
            Memory::Bytes(bytes) if reason == 0 && answer > 36 => {
                bytes[answer as usize - 5] ^= 1;
            }
            Memory::Text(text) if text.ends_with(",2\n") => {
                text.replace_range(text.len() - 2..text.len() - 1, "3");
            }
            _ => {}
        }
    }
}

impl fmt::Display for Outcome {
    fn fmt(&self, f: &mut fmt::Formatter<'_>) -> fmt::Result {
        match &self.memory {
            Memory::Text(text) => return write!(f, "prints {text:?}"),
            _ => write!(f, "replies {:?}", self.reply)?,
        }
        match &self.memory {
            Memory::Nothing | Memory::Text(_) => Ok(()),
            Memory::Rows(rows) => write!(f, " and leaves {rows:?}"),
            Memory::Numbers(numbers) => write!(f, " and leaves {numbers:?}"),
            Memory::Bytes(bytes) => write!(f, " and leaves {bytes:?}"),
        }
    }
}
