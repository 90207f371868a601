//! Link files, whole and damaged.

use crate::random::Random;

/// The records of a whole file: the opening record has 8 bytes, each link record 18, the closing record 10.
pub fn records(file: &[u8]) -> Vec<Vec<u8>> {
    let mut all = vec![file[..8].to_vec()];
    all.extend(file[8..file.len() - 10].chunks(18).map(<[u8]>::to_vec));
    all.push(file[file.len() - 10..].to_vec());
    all
}

/// The file cut at every byte, the empty file and the whole one among them.
pub fn cut(file: &[u8]) -> Vec<Vec<u8>> {
    (0..=file.len()).map(|n| file[..n].to_vec()).collect()
}

/// The file with one byte damaged, at every place: flipped by each of these.
pub fn damaged(file: &[u8], flips: impl Iterator<Item = u8> + Clone) -> Vec<Vec<u8>> {
    let mut all = Vec::new();
    for at in 0..file.len() {
        for flip in flips.clone() {
            let mut other = file.to_vec();
            other[at] ^= flip;
            all.push(other);
        }
    }
    all
}

/// The file with two records exchanged, each two; with each record left out; with each record twice.
pub fn exchanged(file: &[u8]) -> Vec<Vec<u8>> {
    let records = records(file);
    let mut all = Vec::new();
    for i in 0..records.len() {
        for j in i + 1..records.len() {
            let mut other = records.clone();
            other.swap(i, j);
            all.push(other.concat());
        }
        let mut without = records.clone();
        without.remove(i);
        all.push(without.concat());
        let mut twice = records.clone();
        twice.insert(i, records[i].clone());
        all.push(twice.concat());
    }
    all
}

/// A file with one to four things done to it.
pub fn spoilt(file: &[u8], random: &mut Random) -> Vec<u8> {
    let mut other = file.to_vec();
    for _ in 0..random.between(1, 4) {
        let at = random.below(other.len() as u64 + 1) as usize;
        match random.below(6) {
            0 => other.truncate(at),
            1 => other.insert(at, random.number() as u8),
            2 if at < other.len() => {
                other.remove(at);
            }
            3 => other.extend_from_slice(&file[..file.len().min(at)]),
            _ if at < other.len() => other[at] = *random.pick(&[0, 1, 2, 3, 4, 6, 14, 255]),
            _ => {}
        }
    }
    other
}
