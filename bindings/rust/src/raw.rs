//! The entries as the library has them. `include/jointrise.h` says what each reply means and what a caller owes.

/// The five numbers of a reply.
#[repr(C)]
#[derive(Clone, Copy, Debug, Default, PartialEq, Eq)]
pub struct Reply {
    pub reason: u64,
    pub place: u64,
    pub answer: u64,
    pub first: u64,
    pub second: u64,
}

unsafe extern "C" {
    pub fn jointrise_check(
        numbers: *const u32,
        numbers_count: usize,
        gauges: u32,
        reply: *mut Reply,
    );
    pub fn jointrise_list(
        numbers: *const u32,
        numbers_count: usize,
        gauges: u32,
        rows: *mut u64,
        rows_count: usize,
        reply: *mut Reply,
    );
    pub fn jointrise_ask(
        numbers: *const u32,
        numbers_count: usize,
        gauges: u32,
        members: u64,
        begin: u64,
        end: u64,
        reply: *mut Reply,
    );
    pub fn jointrise_read(
        bytes: *const u8,
        bytes_count: usize,
        numbers: *mut u32,
        numbers_count: usize,
        reply: *mut Reply,
    );
    pub fn jointrise_write(
        numbers: *const u32,
        numbers_count: usize,
        gauges: u32,
        bytes: *mut u8,
        bytes_count: usize,
        reply: *mut Reply,
    );
    pub fn jointrise_listing(
        input: *const u8,
        input_count: usize,
        out: *mut u8,
        out_count: usize,
        reply: *mut Reply,
    );
}
