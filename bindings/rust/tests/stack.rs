//! How much stack the calls take, as include/jointrise.h says. It is one test in a file of its own, the smaller stack first: a thread may be given the stack of one that has
//! ended, and that would hide a stack that is too small.

/// All pairs of 64 gauges over one span: the deepest search there is.
fn complete_graph() -> Vec<u32> {
    let mut numbers = Vec::new();
    for u in 0..64 {
        for v in u + 1..64 {
            numbers.extend([3, 9, u, v]);
        }
    }
    numbers
}

/// What the call replies on a stack of so many KiB.
fn on_a_stack_of<T: Send + 'static>(kib: usize, call: impl FnOnce() -> T + Send + 'static) -> T {
    let thread = std::thread::Builder::new().stack_size(kib * 1024);
    thread.spawn(call).unwrap().join().unwrap()
}

fn list_on_64_kib() {
    let table = complete_graph();
    let mut rows = vec![0; 6];
    let (reply, rows) = on_a_stack_of(64, move || (jointrise::list(&table, 64, &mut rows), rows));
    assert_eq!(reply, Ok(1));
    assert_eq!(rows, [3, 9, u64::MAX, 0, 0, 0]);
}

fn listing_on_192_kib() {
    let mut file = vec![0; 40_000];
    let length = jointrise::write(&complete_graph(), 64, &mut file).unwrap();
    let mut out = vec![0; 1000];
    let (reply, out) = on_a_stack_of(192, move || {
        (jointrise::listing(&file[..length], &mut out), out)
    });
    assert_eq!(reply, Some(195));
    assert!(out.starts_with(b"groups 1\n3 9 0,1,2,3,"));
}

#[test]
fn the_stacks_of_the_header_are_enough() {
    list_on_64_kib();
    listing_on_192_kib();
}
