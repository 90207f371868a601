//! One call of each kind through the safe wrapper, and the raw entries with null.

use jointrise::raw::{self, Reply};
use jointrise::{Refusal, Table, Verdict};
use std::ptr::{null, null_mut};

const T: [u32; 20] = [
    1, 9, 0, 1, 3, 12, 1, 2, 5, 14, 0, 2, 7, 20, 2, 3, 10, 18, 1, 3,
];

fn refused<T>(reason: u32, place: u64) -> Result<T, Refusal> {
    Err(Refusal { reason, place })
}

#[test]
fn a_table_is_checked() {
    assert_eq!(jointrise::check(&T, 4), Ok(()));
    assert_eq!(jointrise::check(&T, 3), refused(4, 3));
    assert_eq!(jointrise::check(&[], 0), refused(3, 0));
}

#[test]
fn groups_are_listed_and_the_rest_stays() {
    let mut rows = [9; 23];
    assert_eq!(jointrise::list(&T, 4, &mut rows), Ok(7));
    assert_eq!(rows[..6], [1, 9, 3, 3, 12, 6]);
    assert_eq!(rows[18..], [10, 18, 10, 9, 9]);
}

#[test]
fn too_few_rows_are_cleared() {
    let mut rows = [9; 20];
    assert_eq!(jointrise::list(&T, 4, &mut rows), refused(9, 0));
    assert_eq!(rows[..18], [0; 18]);
    assert_eq!(rows[18..], [9, 9]);
}

#[test]
fn each_verdict_carries_its_cause() {
    assert_eq!(jointrise::ask(&T, 4, 3, 6, 12), Ok(Verdict::Missing(0, 1)));
    assert_eq!(jointrise::ask(&T, 4, 3, 5, 9), Ok(Verdict::Earlier(1)));
    assert_eq!(jointrise::ask(&T, 4, 5, 5, 9), Ok(Verdict::Later(14)));
    assert_eq!(
        jointrise::ask(&[0, 5, 0, 1, 0, 5, 1, 2, 0, 5, 0, 2], 3, 6, 0, 5),
        Ok(Verdict::Further(0))
    );
    assert_eq!(jointrise::ask(&T, 4, 7, 5, 9), Ok(Verdict::Group));
    assert_eq!(jointrise::ask(&T, 4, 16, 5, 9), refused(10, 0));
}

#[test]
fn a_file_is_written_and_read_back() {
    let mut file = [0xee; 110];
    assert_eq!(jointrise::write(&T, 4, &mut file), Ok(108));
    assert_eq!(file[108..], [0xee; 2]);
    let mut numbers = [7; 22];
    assert_eq!(
        jointrise::read(&file[..108], &mut numbers),
        Ok(Table {
            gauges: 4,
            links: 5
        })
    );
    assert_eq!(numbers[..20], T);
    assert_eq!(numbers[20..], [7; 2]);
    assert_eq!(jointrise::read(&file[..107], &mut numbers), refused(20, 98));
    assert_eq!(jointrise::write(&T, 4, &mut file[..107]), refused(26, 0));
}

#[test]
fn a_listing_is_a_text() {
    let mut file = [0; 108];
    jointrise::write(&T, 4, &mut file).unwrap();
    let text =
        "groups 7\n1 9 0,1\n3 12 1,2\n5 9 0,1,2\n5 14 0,2\n7 20 2,3\n10 12 1,2,3\n10 18 1,3\n";
    let mut out = [b'?'; 80];
    assert_eq!(jointrise::listing(&file, &mut out), Some(text.len()));
    assert_eq!(&out[..text.len()], text.as_bytes());
    assert_eq!(out[text.len()..], [b'?'; 80][text.len()..]);
    let mut short = [b'?'; 76];
    assert_eq!(
        jointrise::listing(&file, &mut short[..text.len() - 1]),
        None
    );
    assert_eq!(short, [b'?'; 76]);
}

#[test]
fn nothing_lent_may_be_null() {
    let mut reply = Reply::default();
    let told = |reply: &Reply| (reply.reason, reply.answer);
    unsafe {
        raw::jointrise_check(null(), 0, 4, &mut reply);
        assert_eq!(told(&reply), (0, 0));
        raw::jointrise_list(null(), 0, 4, null_mut(), 0, &mut reply);
        assert_eq!(told(&reply), (0, 0));
        raw::jointrise_list(T.as_ptr(), 20, 4, null_mut(), 0, &mut reply);
        assert_eq!(told(&reply), (9, 0));
        raw::jointrise_ask(null(), 0, 4, 3, 0, 1, &mut reply);
        assert_eq!(told(&reply), (0, 1));
        raw::jointrise_read(null(), 0, null_mut(), 0, &mut reply);
        assert_eq!(told(&reply), (20, 0));
        raw::jointrise_write(null(), 0, 4, null_mut(), 0, &mut reply);
        assert_eq!(told(&reply), (26, 0));
        raw::jointrise_listing(null(), 0, null_mut(), 0, &mut reply);
        assert_eq!(told(&reply), (0, 0));
    }
}

#[test]
fn a_refusal_says_why() {
    let refusal = jointrise::check(&[0, 5, 0, 1, 5, 9, 1, 0], 2).unwrap_err();
    assert_eq!(
        refusal.to_string(),
        "refused 8 1: the link shares an hour with an earlier link of the same two gauges"
    );
}
