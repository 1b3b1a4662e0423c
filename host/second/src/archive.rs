//! The proved library, as a C archive; built with the feature `archive`.

use crate::library::Library;

/// The archive as a library.
pub struct Archive;

impl Library for Archive {
    fn fresh_book(&mut self, plan: &[u8], node: u64, book: &mut [u8]) -> u32 {
        pasis_raw::fresh_book(plan, node, book)
    }

    fn node(&mut self, plan: &[u8], request: &[u8], book: &mut [u8], reply: &mut [u8]) -> u32 {
        pasis_raw::node(plan, request, book, reply)
    }

    fn run(
        &mut self,
        plan: &[u8],
        run: &[u8],
        book: &mut [u8],
        replies: &mut [u8],
        numbers: &mut [u8],
        told: &mut [u8],
    ) -> u32 {
        pasis_raw::run(plan, run, book, replies, numbers, told)
    }

    fn open_write(&mut self, plan: &[u8], ask: u64, session: &mut [u8]) -> u32 {
        pasis_raw::open_write(plan, ask, session)
    }

    fn open_read(&mut self, plan: &[u8], ask: u64, session: &mut [u8]) -> u32 {
        pasis_raw::open_read(plan, ask, session)
    }

    fn owed(&mut self, plan: &[u8], session: &[u8], node: u64, desk: &[u8], request: &mut [u8]) -> u32 {
        pasis_raw::owed(plan, session, node, desk, request)
    }

    fn write_reply(
        &mut self,
        plan: &[u8],
        session: &mut [u8],
        reply: &[u8],
        desk: &mut [u8],
        item: &[u8],
        ending: &mut [u8],
    ) -> u32 {
        pasis_raw::write_reply(plan, session, reply, desk, item, ending)
    }

    fn read_reply(
        &mut self,
        plan: &[u8],
        session: &mut [u8],
        reply: &[u8],
        desk: &mut [u8],
        item: &mut [u8],
        ending: &mut [u8],
    ) -> u32 {
        pasis_raw::read_reply(plan, session, reply, desk, item, ending)
    }

    fn smallest_plan(&mut self, member: u8, t: u64, b: u64, m: u64, counts: &mut [u8]) -> u32 {
        pasis_raw::smallest_plan(member, t, b, m, counts)
    }
}
