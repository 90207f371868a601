//! Document 01 once more, written from its definitions, sharing nothing with the crates: the check of a table, the list of its groups, the question
//! about one group, the reader and the writer of the link file, and the listing.
//!
//! It is meant to be obviously right and is in no hurry. Lent memory is modelled: a function takes what the buffer holds before
//! the call and hands back what it holds after it, so that a comparison sees every number.

mod file;
mod groups;
mod listing;
mod question;
mod table;

pub use file::{Read, file_of, read, write};
pub use groups::{Row, groups_by_hours, groups_by_search, groups_by_sets, list};
pub use listing::listing;
pub use question::{Verdict, ask};
pub use table::{LAST_HOUR, Link, MOST_GAUGES, MOST_LINKS, Refusal, check};
