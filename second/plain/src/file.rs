//! The link file: records of a 4-byte length, a 2-byte kind and a body, all numbers little-endian.

use crate::table::{Refusal, check, refused};

/// What the reader answers of a file that it accepts.
#[derive(Clone, Copy, Debug, PartialEq, Eq)]
pub struct Read {
    pub gauges: u64,
    pub links: u64,
}

fn little_endian(bytes: &[u8]) -> u64 {
    bytes.iter().rev().fold(0, |n, &b| 256 * n + u64::from(b))
}

/// One record: its kind, its body and the offset behind it.
struct Record<'a> {
    kind: u64,
    body: &'a [u8],
    next: usize,
}

/// The record at an offset, if it is whole, its kind is one of these, and it has its kind's length.
fn record<'a>(bytes: &'a [u8], at: usize, allowed: &[u64]) -> Result<Record<'a>, Refusal> {
    let left = &bytes[at..];
    if left.len() < 4 {
        return refused(20, at);
    }
    let length = little_endian(&left[..4]);
    if ((left.len() - 4) as u64) < length {
        return refused(20, at);
    }
    let length = length as usize;
    if length < 2 {
        return refused(22, at);
    }
    let kind = little_endian(&left[4..6]);
    if !allowed.contains(&kind) {
        return refused(21, at);
    }
    let due = match kind {
        1 => 4,
        2 => 14,
        _ => 6,
    };
    if length != due {
        return refused(22, at);
    }
    Ok(Record {
        kind,
        body: &left[6..4 + length],
        next: at + 4 + length,
    })
}

/// The gauge count and the links' numbers, with room for so many links.
fn records(bytes: &[u8], room: usize) -> Result<(u64, Vec<u32>), Refusal> {
    let opening = record(bytes, 0, &[1])?;
    let gauges = little_endian(opening.body);
    let mut numbers = Vec::new();
    let mut at = opening.next;
    loop {
        let next = record(bytes, at, &[2, 3])?;
        if next.kind == 2 {
            if numbers.len() == 4 * room {
                return refused(25, at);
            }
            for field in [0..4, 4..8, 8..10, 10..12] {
                numbers.push(little_endian(&next.body[field]) as u32);
            }
            at = next.next;
            continue;
        }
        if little_endian(next.body) != numbers.len() as u64 / 4 {
            return refused(23, at);
        }
        if next.next < bytes.len() {
            return refused(24, next.next);
        }
        return Ok((gauges, numbers));
    }
}

/// The reader's answer, and what the lent numbers then hold.
pub fn read(bytes: &[u8], numbers: &[u32]) -> (Result<Read, Refusal>, Vec<u32>) {
    let mut after = numbers.to_vec();
    match records(bytes, numbers.len() / 4) {
        Err(refusal) => (Err(refusal), after),
        Ok((gauges, found)) => {
            after[..found.len()].copy_from_slice(&found);
            let links = found.len() as u64 / 4;
            (Ok(Read { gauges, links }), after)
        }
    }
}

/// The one file of these numbers, four a link. Nothing is tested, and a gauge or a count of gauges is cut to its two bytes.
pub fn file_of(numbers: &[u32], gauges: u32) -> Vec<u8> {
    let mut file = vec![4, 0, 0, 0, 1, 0];
    file.extend(&gauges.to_le_bytes()[..2]);
    for link in numbers.chunks_exact(4) {
        file.extend([14, 0, 0, 0, 2, 0]);
        file.extend(link[0].to_le_bytes());
        file.extend(link[1].to_le_bytes());
        file.extend(&link[2].to_le_bytes()[..2]);
        file.extend(&link[3].to_le_bytes()[..2]);
    }
    file.extend([6, 0, 0, 0, 3, 0]);
    file.extend((numbers.len() as u32 / 4).to_le_bytes());
    file
}

/// The writer's answer, the length of the file, and what the lent bytes then hold.
pub fn write(numbers: &[u32], gauges: u32, bytes: &[u8]) -> (Result<u64, Refusal>, Vec<u8>) {
    let mut after = bytes.to_vec();
    if let Err(refusal) = check(numbers, gauges) {
        return (Err(refusal), after);
    }
    let file = file_of(numbers, gauges);
    if file.len() > bytes.len() {
        return (refused(26, 0), after);
    }
    after[..file.len()].copy_from_slice(&file);
    (Ok(file.len() as u64), after)
}

#[cfg(test)]
mod tests {
    use super::*;

    #[test]
    fn the_file_of_one_link() {
        let (reply, file) = write(&[4, 4, 0, 1], 2, &[0; 36]);
        assert_eq!(reply, Ok(36));
        assert_eq!(
            read(&file, &[7; 5]),
            (
                Ok(Read {
                    gauges: 2,
                    links: 1
                }),
                vec![4, 4, 0, 1, 7]
            )
        );
        assert_eq!(read(&file[..35], &[7; 5]).0, refused(20, 26));
        assert_eq!(read(&[], &[]).0, refused(20, 0));
        assert_eq!(read(&file[..8], &[]).0, refused(20, 8));
        assert_eq!(read(&file, &[7; 3]).0, refused(25, 8));
        assert_eq!(write(&[4, 4, 0, 1], 2, &[0; 35]).0, refused(26, 0));
    }

    #[test]
    fn the_largest_file() {
        let numbers: Vec<u32> = (0..2048).flat_map(|i| [i, i, 0, 1]).collect();
        assert_eq!(file_of(&numbers, 2).len(), 36_882);
    }
}
