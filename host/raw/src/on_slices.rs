//! The calls on slices. SAFETY of each: every pointer goes with the length of a live slice, writable where the call may write, and the
//! borrows keep any two of them apart. The archive reads and writes inside the slices and keeps no pointer. The first four take nothing
//! and touch nothing.

use crate::*;

pub fn interface() -> u32 {
    unsafe { pasis_interface() }
}

pub fn plan_size() -> usize {
    unsafe { pasis_plan_size() }
}

pub fn session_size() -> usize {
    unsafe { pasis_session_size() }
}

pub fn ending_size() -> usize {
    unsafe { pasis_ending_size() }
}

pub fn smallest_plan(member: u8, t: u64, b: u64, m: u64, counts: &mut [u8]) -> u32 {
    unsafe { pasis_smallest_plan(member, t, b, m, counts.as_mut_ptr(), counts.len()) }
}

pub fn fresh_book(plan: &[u8], node: u64, book: &mut [u8]) -> u32 {
    unsafe { pasis_fresh_book(plan.as_ptr(), plan.len(), node, book.as_mut_ptr(), book.len()) }
}

pub fn node(plan: &[u8], request: &[u8], book: &mut [u8], reply: &mut [u8]) -> u32 {
    unsafe {
        pasis_node(
            plan.as_ptr(), plan.len(),
            request.as_ptr(), request.len(),
            book.as_mut_ptr(), book.len(),
            reply.as_mut_ptr(), reply.len(),
        )
    }
}

pub fn run(
    plan: &[u8], run: &[u8], book: &mut [u8], replies: &mut [u8], numbers: &mut [u8], told: &mut [u8],
) -> u32 {
    unsafe {
        pasis_run(
            plan.as_ptr(), plan.len(),
            run.as_ptr(), run.len(),
            book.as_mut_ptr(), book.len(),
            replies.as_mut_ptr(), replies.len(),
            numbers.as_mut_ptr(), numbers.len(),
            told.as_mut_ptr(), told.len(),
        )
    }
}

pub fn open_write(plan: &[u8], ask: u64, session: &mut [u8]) -> u32 {
    unsafe { pasis_open_write(plan.as_ptr(), plan.len(), ask, session.as_mut_ptr(), session.len()) }
}

pub fn open_read(plan: &[u8], ask: u64, session: &mut [u8]) -> u32 {
    unsafe { pasis_open_read(plan.as_ptr(), plan.len(), ask, session.as_mut_ptr(), session.len()) }
}

pub fn owed(plan: &[u8], session: &[u8], node: u64, desk: &[u8], request: &mut [u8]) -> u32 {
    unsafe {
        pasis_owed(
            plan.as_ptr(), plan.len(),
            session.as_ptr(), session.len(),
            node,
            desk.as_ptr(), desk.len(),
            request.as_mut_ptr(), request.len(),
        )
    }
}

pub fn write_reply(
    plan: &[u8], session: &mut [u8], reply: &[u8], desk: &mut [u8], item: &[u8], ending: &mut [u8],
) -> u32 {
    unsafe {
        pasis_write_reply(
            plan.as_ptr(), plan.len(),
            session.as_mut_ptr(), session.len(),
            reply.as_ptr(), reply.len(),
            desk.as_mut_ptr(), desk.len(),
            item.as_ptr(), item.len(),
            ending.as_mut_ptr(), ending.len(),
        )
    }
}

pub fn read_reply(
    plan: &[u8], session: &mut [u8], reply: &[u8], desk: &mut [u8], item: &mut [u8], ending: &mut [u8],
) -> u32 {
    unsafe {
        pasis_read_reply(
            plan.as_ptr(), plan.len(),
            session.as_mut_ptr(), session.len(),
            reply.as_ptr(), reply.len(),
            desk.as_mut_ptr(), desk.len(),
            item.as_mut_ptr(), item.len(),
            ending.as_mut_ptr(), ending.len(),
        )
    }
}
