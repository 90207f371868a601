//! Cases as the comparison prints them, and that a broken outcome is found and made small.

use compare::agree;
use compare::case::Case;
use compare::difference::Way;
use compare::kinds;
use compare::lent::{Fill, Lent};
use compare::random::Random;
use compare::run::Run;

#[test]
fn one_link() {
    agree(Case::List {
        numbers: vec![4, 4, 0, 1],
        gauges: 4,
        rows: Lent {
            count: 5,
            fill: Fill::Garbage,
        },
    });
}

/// What the comparison prints where the outcomes of this entry have a number flipped.
fn smallest_broken(entry: &str) -> String {
    let way = Way {
        broken: Some(entry.into()),
        ..Way::default()
    };
    match kinds::all(&mut Run::new(way), &mut Random::new(1)) {
        Ok(()) => panic!("nothing is found"),
        Err(stop) => stop.case.paste(),
    }
}

#[test]
fn a_broken_list_is_found() {
    assert_eq!(
        smallest_broken("list"),
        "agree(Case::List { numbers: vec![0, 0, 0, 1, 0, 0, 0, 2], gauges: 3, rows: Lent { count: 6, fill: Fill::Garbage } });"
    );
}

#[test]
fn a_broken_file_is_found() {
    assert!(smallest_broken("read").contains("numbers: Lent { count: 8,"));
}
