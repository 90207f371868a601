//! One case: what the two programs are asked.

use crate::lent::Lent;

#[derive(Clone, Debug, PartialEq, Eq)]
pub enum Case {
    Check {
        numbers: Vec<u32>,
        gauges: u32,
    },
    List {
        numbers: Vec<u32>,
        gauges: u32,
        rows: Lent,
    },
    Ask {
        numbers: Vec<u32>,
        gauges: u32,
        members: u64,
        begin: u64,
        end: u64,
    },
    Read {
        bytes: Vec<u8>,
        numbers: Lent,
    },
    Write {
        numbers: Vec<u32>,
        gauges: u32,
        bytes: Lent,
    },
    Listing {
        input: Vec<u8>,
        out: Lent,
    },
    Program {
        input: Vec<u8>,
    },
}

/// What is called, and the reasons that document 01 has it refuse with: a run must see each of them.
pub struct Entry {
    pub name: &'static str,
    pub reasons: &'static [u64],
}

const fn entry(name: &'static str, reasons: &'static [u64]) -> Entry {
    Entry { name, reasons }
}

const LISTING: &[u64] = &[3, 4, 5, 6, 7, 8, 9, 20, 21, 22, 23, 24, 25, 27];

/// Every entry, and the listing program.
pub static ENTRIES: [Entry; 7] = [
    entry("check", &[1, 2, 3, 4, 5, 6, 7, 8]),
    entry("list", &[1, 2, 3, 4, 5, 6, 7, 8, 9]),
    entry("ask", &[1, 2, 3, 4, 5, 6, 7, 8, 10, 11, 12]),
    entry("read", &[20, 21, 22, 23, 24, 25]),
    entry("write", &[1, 2, 3, 4, 5, 6, 7, 8, 26]),
    entry("listing", LISTING),
    entry("program", LISTING),
];

/// A part of a case that can be made smaller by itself.
pub enum Part<'a> {
    /// The numbers of a table, and the gauge count.
    Table(&'a mut Vec<u32>, &'a mut u32),
    File(&'a mut Vec<u8>),
    Room(&'a mut Lent),
    Members(&'a mut u64),
    Hour(&'a mut u64),
}

/// One that answers cases: jointrise, or the second program.
pub trait Answers {
    type Answer;

    fn check(&self, numbers: &[u32], gauges: u32) -> Self::Answer;
    fn list(&self, numbers: &[u32], gauges: u32, rows: &Lent) -> Self::Answer;
    fn ask(&self, numbers: &[u32], gauges: u32, members: u64, begin: u64, end: u64)
    -> Self::Answer;
    fn read(&self, bytes: &[u8], numbers: &Lent) -> Self::Answer;
    fn write(&self, numbers: &[u32], gauges: u32, bytes: &Lent) -> Self::Answer;
    fn listing(&self, input: &[u8], out: &Lent) -> Self::Answer;
    /// What the listing program prints.
    fn printed(&self, input: &[u8]) -> Self::Answer;
}

impl Case {
    /// What this one answers.
    pub fn put_to<A: Answers>(&self, one: &A) -> A::Answer {
        match self {
            Case::Check { numbers, gauges } => one.check(numbers, *gauges),
            Case::List {
                numbers,
                gauges,
                rows,
            } => one.list(numbers, *gauges, rows),
            Case::Ask {
                numbers,
                gauges,
                members,
                begin,
                end,
            } => one.ask(numbers, *gauges, *members, *begin, *end),
            Case::Read { bytes, numbers } => one.read(bytes, numbers),
            Case::Write {
                numbers,
                gauges,
                bytes,
            } => one.write(numbers, *gauges, bytes),
            Case::Listing { input, out } => one.listing(input, out),
            Case::Program { input } => one.printed(input),
        }
    }

    pub fn entry(&self) -> &'static Entry {
        let name = match self {
            Case::Check { .. } => "check",
            Case::List { .. } => "list",
            Case::Ask { .. } => "ask",
            Case::Read { .. } => "read",
            Case::Write { .. } => "write",
            Case::Listing { .. } => "listing",
            Case::Program { .. } => "program",
        };
        let listed = ENTRIES.iter().find(|entry| entry.name == name);
        listed.expect("every entry is listed")
    }

    /// Its parts, in the order in which they are made smaller.
    pub fn parts(&mut self) -> Vec<Part<'_>> {
        use Part::{File, Hour, Members, Room, Table};
        match self {
            Case::Check { numbers, gauges } => vec![Table(numbers, gauges)],
            Case::List {
                numbers,
                gauges,
                rows,
            } => vec![Table(numbers, gauges), Room(rows)],
            Case::Ask {
                numbers,
                gauges,
                members,
                begin,
                end,
            } => vec![
                Table(numbers, gauges),
                Members(members),
                Hour(begin),
                Hour(end),
            ],
            Case::Read { bytes, numbers } => vec![File(bytes), Room(numbers)],
            Case::Write {
                numbers,
                gauges,
                bytes,
            } => vec![Table(numbers, gauges), Room(bytes)],
            Case::Listing { input, out } => vec![File(input), Room(out)],
            Case::Program { input } => vec![File(input)],
        }
    }

    /// The case as a line of Rust that can be pasted into a test: as it is printed for debugging, which is Rust but for lists and fills.
    pub fn paste(&self) -> String {
        let case = format!("{self:?}")
            .replace('[', "vec![")
            .replace("fill: ", "fill: Fill::");
        format!("agree(Case::{case});")
    }
}
