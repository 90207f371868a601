//! Holds jointrise against the second program: every reply and every number of lent memory, case by case.

mod calls;
pub mod case;
pub mod difference;
mod expected;
pub mod files;
pub mod kinds;
pub mod lent;
pub mod outcome;
pub mod random;
pub mod run;
pub mod shrink;
pub mod tables;

use case::Case;
use difference::Way;

/// Stops with both outcomes if jointrise and the second program differ on this case. For cases that were printed and pasted into a test.
pub fn agree(case: Case) {
    let way = Way {
        program: Some(concat!(env!("CARGO_MANIFEST_DIR"), "/../../target/bin/listing").into()),
        broken: None,
    };
    if let Err(difference) = way.compare(&case) {
        panic!("{difference}");
    }
}
