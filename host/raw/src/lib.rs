//! The calls as `libpasis.a` has them, for every Rust program here: `host/pasis.h` says the same to C. A slice is its pointer and then
//! its length. With the feature `link` the archive is linked, and each call can be made on slices; what the numbers mean is the caller's.

#[rustfmt::skip] // a slice stays together
extern "C" {
    pub fn pasis_interface() -> u32;
    pub fn pasis_plan_size() -> usize;
    pub fn pasis_session_size() -> usize;
    pub fn pasis_ending_size() -> usize;
    pub fn pasis_smallest_plan(member: u8, t: u64, b: u64, m: u64, counts: *mut u8, counts_len: usize) -> u32;
    pub fn pasis_fresh_book(plan: *const u8, plan_len: usize, node: u64, book: *mut u8, book_len: usize) -> u32;
    pub fn pasis_node(
        plan: *const u8, plan_len: usize, request: *const u8, request_len: usize, book: *mut u8, book_len: usize,
        reply: *mut u8, reply_len: usize,
    ) -> u32;
    pub fn pasis_run(
        plan: *const u8, plan_len: usize, run: *const u8, run_len: usize, book: *mut u8, book_len: usize,
        replies: *mut u8, replies_len: usize, numbers: *mut u8, numbers_len: usize, told: *mut u8, told_len: usize,
    ) -> u32;
    pub fn pasis_open_write(plan: *const u8, plan_len: usize, ask: u64, session: *mut u8, session_len: usize) -> u32;
    pub fn pasis_open_read(plan: *const u8, plan_len: usize, ask: u64, session: *mut u8, session_len: usize) -> u32;
    pub fn pasis_owed(
        plan: *const u8, plan_len: usize, session: *const u8, session_len: usize, node: u64,
        desk: *const u8, desk_len: usize, request: *mut u8, request_len: usize,
    ) -> u32;
    pub fn pasis_write_reply(
        plan: *const u8, plan_len: usize, session: *mut u8, session_len: usize, reply: *const u8, reply_len: usize,
        desk: *mut u8, desk_len: usize, item: *const u8, item_len: usize, ending: *mut u8, ending_len: usize,
    ) -> u32;
    pub fn pasis_read_reply(
        plan: *const u8, plan_len: usize, session: *mut u8, session_len: usize, reply: *const u8, reply_len: usize,
        desk: *mut u8, desk_len: usize, item: *mut u8, item_len: usize, ending: *mut u8, ending_len: usize,
    ) -> u32;
}

#[cfg(feature = "link")]
#[rustfmt::skip] // a slice stays on one line: its pointer, its length
mod on_slices;
#[cfg(feature = "link")]
pub use on_slices::*;
