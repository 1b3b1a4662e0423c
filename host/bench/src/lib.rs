//! The second program behind the names of pasis.h, so that host/bench/calls.c can be linked with it as with the archive and time it. Not used by
//! any test. That each call here is as `raw` declares it, the compiler sees at the end of this file.
use pasis_raw as raw;
use second::wire;
use std::slice::{from_raw_parts as given, from_raw_parts_mut as lent};

type P = *const u8;
type M = *mut u8;

#[no_mangle]
pub unsafe extern "C" fn pasis_fresh_book(p: P, pl: usize, node: u64, b: M, bl: usize) -> u32 {
    wire::fresh_book(given(p, pl), node, lent(b, bl))
}
#[no_mangle]
pub unsafe extern "C" fn pasis_node(p: P, pl: usize, q: P, ql: usize, b: M, bl: usize, r: M, rl: usize) -> u32 {
    wire::node(given(p, pl), given(q, ql), lent(b, bl), lent(r, rl))
}
#[no_mangle]
#[allow(clippy::too_many_arguments)]
pub unsafe extern "C" fn pasis_run(
    p: P,
    pl: usize,
    q: P,
    ql: usize,
    b: M,
    bl: usize,
    r: M,
    rl: usize,
    n: M,
    nl: usize,
    t: M,
    tl: usize,
) -> u32 {
    wire::run(given(p, pl), given(q, ql), lent(b, bl), lent(r, rl), lent(n, nl), lent(t, tl))
}
#[no_mangle]
pub unsafe extern "C" fn pasis_open_write(p: P, pl: usize, ask: u64, s: M, sl: usize) -> u32 {
    wire::open_write(given(p, pl), ask, lent(s, sl))
}
#[no_mangle]
pub unsafe extern "C" fn pasis_open_read(p: P, pl: usize, ask: u64, s: M, sl: usize) -> u32 {
    wire::open_read(given(p, pl), ask, lent(s, sl))
}
#[no_mangle]
pub unsafe extern "C" fn pasis_owed(
    p: P,
    pl: usize,
    s: P,
    sl: usize,
    node: u64,
    d: P,
    dl: usize,
    q: M,
    ql: usize,
) -> u32 {
    wire::owed(given(p, pl), given(s, sl), node, given(d, dl), lent(q, ql))
}
#[no_mangle]
#[allow(clippy::too_many_arguments)]
pub unsafe extern "C" fn pasis_write_reply(
    p: P,
    pl: usize,
    s: M,
    sl: usize,
    r: P,
    rl: usize,
    d: M,
    dl: usize,
    i: P,
    il: usize,
    e: M,
    el: usize,
) -> u32 {
    wire::write_reply(given(p, pl), lent(s, sl), given(r, rl), lent(d, dl), given(i, il), lent(e, el))
}
#[no_mangle]
#[allow(clippy::too_many_arguments)]
pub unsafe extern "C" fn pasis_read_reply(
    p: P,
    pl: usize,
    s: M,
    sl: usize,
    r: P,
    rl: usize,
    d: M,
    dl: usize,
    i: M,
    il: usize,
    e: M,
    el: usize,
) -> u32 {
    wire::read_reply(given(p, pl), lent(s, sl), given(r, rl), lent(d, dl), lent(i, il), lent(e, el))
}

/// Two in a list are of one type.
#[allow(dead_code)]
fn as_declared() {
    let _ = [raw::pasis_fresh_book, pasis_fresh_book];
    let _ = [raw::pasis_node, pasis_node];
    let _ = [raw::pasis_run, pasis_run];
    let _ = [raw::pasis_open_write, pasis_open_write];
    let _ = [raw::pasis_open_read, pasis_open_read];
    let _ = [raw::pasis_owed, pasis_owed];
    let _ = [raw::pasis_write_reply, pasis_write_reply];
    let _ = [raw::pasis_read_reply, pasis_read_reply];
}
