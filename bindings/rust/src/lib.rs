//! jointrise finds the gauges of a river network that rose together. These are safe calls of the proved library.
//!
//! A table of links is a slice of numbers, four a link: begin, end, one gauge, the other. Every slice and every number gets a
//! reply: an answer, or a [`Refusal`] with a numbered reason and a place.
//!
//! ```
//! // gauges 0 and 1 rose together at the hours 1 to 9, gauges 1 and 2 at 3 to 12, gauges 0 and 2 at 5 to 14
//! let table = [1, 9, 0, 1, 3, 12, 1, 2, 5, 14, 0, 2];
//! let mut rows = [0; 3 * 8];
//! let groups = jointrise::list(&table, 3, &mut rows).unwrap();
//! assert_eq!(groups, 4);
//! // begin, end, members: bit k is gauge k
//! assert_eq!(rows[..12], [1, 9, 0b011, 3, 12, 0b110, 5, 9, 0b111, 5, 14, 0b101]);
//! ```

#![deny(unsafe_op_in_unsafe_fn)]

use std::error::Error;
use std::fmt;

pub mod raw;

use raw::Reply;

/// Why a call is refused: the number of the reason, and its place, which is a link's number from 0 or an offset in bytes.
#[derive(Clone, Copy, Debug, PartialEq, Eq)]
pub struct Refusal {
    pub reason: u32,
    pub place: u64,
}

impl Refusal {
    /// The reason in words.
    pub fn meaning(&self) -> &'static str {
        match self.reason {
            1 => "the count of numbers isn't a multiple of four",
            2 => "more than 2,048 links",
            3 => "gauge count 0 or above 64",
            4 => "a gauge of the link isn't below the gauge count",
            5 => "the link's two gauges are the same",
            6 => "the link ends before it begins",
            7 => "the link ends after hour 2,147,483,647",
            8 => "the link shares an hour with an earlier link of the same two gauges",
            9 => "more groups than the rows lent",
            10 => "a member at or above the gauge count",
            11 => "fewer than two members",
            12 => "begin after end",
            20 => "the file ends before its closing record is complete",
            21 => "kind unknown, or not allowed here",
            22 => "length isn't that of its kind",
            23 => "closing count differs from the links read",
            24 => "bytes after the closing record",
            25 => "no room for this link",
            26 => "file longer than the buffer",
            _ => "unknown reason",
        }
    }
}

impl fmt::Display for Refusal {
    fn fmt(&self, f: &mut fmt::Formatter<'_>) -> fmt::Result {
        write!(
            f,
            "refused {} {}: {}",
            self.reason,
            self.place,
            self.meaning()
        )
    }
}

impl Error for Refusal {}

/// What [`ask`] answers.
#[derive(Clone, Copy, Debug, PartialEq, Eq)]
pub enum Verdict {
    /// This pair isn't joined throughout: the first such pair, lower gauge first.
    Missing(u32, u32),
    /// The span can begin earlier: the earliest begin with this end.
    Earlier(u64),
    /// The span can end later: the latest end with this begin.
    Later(u64),
    /// A further gauge fits: the lowest.
    Further(u32),
    /// It is a group.
    Group,
}

/// What [`read`] answers: the gauge count, and the count of links, whose numbers are then the first of those lent.
#[derive(Clone, Copy, Debug, PartialEq, Eq)]
pub struct Table {
    pub gauges: u32,
    pub links: usize,
}

fn unless_refused<T>(reply: Reply, answer: impl FnOnce(Reply) -> T) -> Result<T, Refusal> {
    if reply.reason == 0 {
        Ok(answer(reply))
    } else {
        Err(Refusal {
            reason: reply.reason as u32,
            place: reply.place,
        })
    }
}

/// Whether the numbers are a table: refused by the first of reasons 1 to 8.
pub fn check(numbers: &[u32], gauges: u32) -> Result<(), Refusal> {
    let mut reply = Reply::default();
    // SAFETY: the slice and the reply are lent for the call alone, and don't overlap.
    unsafe { raw::jointrise_check(numbers.as_ptr(), numbers.len(), gauges, &mut reply) };
    unless_refused(reply, |_| ())
}

/// Lists the groups of the table in the rows, three numbers a row: begin, end, members; and answers how many there are. Refused by reasons 1 to 8, and the rows are
/// unchanged, or by 9, and every whole row is 0.
pub fn list(numbers: &[u32], gauges: u32, rows: &mut [u64]) -> Result<usize, Refusal> {
    let mut reply = Reply::default();
    // SAFETY: the slices and the reply are lent for the call alone, and don't overlap.
    unsafe {
        raw::jointrise_list(
            numbers.as_ptr(),
            numbers.len(),
            gauges,
            rows.as_mut_ptr(),
            rows.len(),
            &mut reply,
        );
    }
    unless_refused(reply, |r| r.answer as usize)
}

/// Whether these members, over the hours from `begin` to `end`, are a group, and if not, why. Refused by reasons 1 to 8, 10, 11, 12.
pub fn ask(
    numbers: &[u32],
    gauges: u32,
    members: u64,
    begin: u64,
    end: u64,
) -> Result<Verdict, Refusal> {
    let mut reply = Reply::default();
    // SAFETY: the slice and the reply are lent for the call alone, and don't overlap.
    unsafe {
        raw::jointrise_ask(
            numbers.as_ptr(),
            numbers.len(),
            gauges,
            members,
            begin,
            end,
            &mut reply,
        );
    }
    unless_refused(reply, |r| match r.answer {
        1 => Verdict::Missing(r.first as u32, r.second as u32),
        2 => Verdict::Earlier(r.first),
        3 => Verdict::Later(r.first),
        4 => Verdict::Further(r.first as u32),
        _ => Verdict::Group,
    })
}

/// Reads a link file into the lent numbers, four a link. Refused by reasons 20 to 25, and the numbers are unchanged. Reasons 1 to 8 aren't tested.
pub fn read(bytes: &[u8], numbers: &mut [u32]) -> Result<Table, Refusal> {
    let mut reply = Reply::default();
    // SAFETY: the slices and the reply are lent for the call alone, and don't overlap.
    unsafe {
        raw::jointrise_read(
            bytes.as_ptr(),
            bytes.len(),
            numbers.as_mut_ptr(),
            numbers.len(),
            &mut reply,
        );
    }
    unless_refused(reply, |r| Table {
        gauges: r.first as u32,
        links: r.answer as usize,
    })
}

/// Writes the link file of a table into the lent bytes and answers its length. Refused by reasons 1 to 8 and 26, and the bytes are unchanged.
pub fn write(numbers: &[u32], gauges: u32, bytes: &mut [u8]) -> Result<usize, Refusal> {
    let mut reply = Reply::default();
    // SAFETY: the slices and the reply are lent for the call alone, and don't overlap.
    unsafe {
        raw::jointrise_write(
            numbers.as_ptr(),
            numbers.len(),
            gauges,
            bytes.as_mut_ptr(),
            bytes.len(),
            &mut reply,
        );
    }
    unless_refused(reply, |r| r.answer as usize)
}

/// No text of [`listing`] is longer.
pub const LISTING_MOST: usize = 440_332;

/// Puts the listing of a link file into the lent bytes, as the listing program prints it, and answers its length: the groups, or one line that says why the file or its
/// table is refused. Nothing, and no byte is changed, if the bytes are too few; [`LISTING_MOST`] are always enough.
pub fn listing(input: &[u8], out: &mut [u8]) -> Option<usize> {
    let mut reply = Reply::default();
    // SAFETY: the slices and the reply are lent for the call alone, and don't overlap.
    unsafe {
        raw::jointrise_listing(
            input.as_ptr(),
            input.len(),
            out.as_mut_ptr(),
            out.len(),
            &mut reply,
        );
    }
    (reply.answer != 0).then_some(reply.answer as usize)
}
