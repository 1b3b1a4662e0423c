//! The calls of libpasis.a that a client makes, and the plan that goes with every one of them.

use crate::plan::{stamp_of, Plan, Stamp, FRAME_HEAD, STAMP};
use pasis_raw as raw;

pub const DONE: u32 = 101;
pub const NEVER_WRITTEN: u32 = 102;
pub const ABORTED: u32 = 103;
pub const ROUNDS_SPENT: u32 = 104;
pub const CLOCK_SPENT: u32 = 105;

/// A session's bytes, and where it has the bound, the timestamp being written and the marks.
const SESSION: usize = 237;
const BOUND: usize = 4;
const WRITING: usize = 181;
const MARKS: usize = 221;
/// The longest book that may be lent.
const BOOK: usize = 65_536;

pub fn fresh_book(plan: &Plan, node: usize) -> Vec<u8> {
    let mut book = vec![0; BOOK];
    assert_eq!(raw::fresh_book(&plan.bytes(), node as u64, &mut book), 0, "a fresh book");
    book
}

/// The node's call on a book in memory: its reply, or the number of its refusal.
pub fn node(plan: &Plan, request: &[u8], book: &mut [u8]) -> Result<Vec<u8>, u32> {
    let mut reply = vec![0; plan.record() + FRAME_HEAD];
    match raw::node(&plan.bytes(), request, book, &mut reply) {
        0 => {
            reply.truncate(frame_length(&reply));
            Ok(reply)
        }
        refused => Err(refused),
    }
}

/// The node's call for several requests that wait: for each its reply, or the number of its refusal; or the number of the run's.
pub fn run(plan: &Plan, requests: &[&[u8]], book: &mut [u8]) -> Result<Vec<Result<Vec<u8>, u32>>, u32> {
    let mut replies = vec![0; requests.len() * (plan.record() + FRAME_HEAD)];
    let (mut numbers, mut told) = (vec![0; requests.len()], [0; 24]);
    match raw::run(&plan.bytes(), &requests.concat(), book, &mut replies, &mut numbers, &mut told) {
        0 => {}
        refused => return Err(refused),
    }
    let mut rest = &replies[..];
    let answer = |number: u8| match number {
        0 => {
            let (reply, after) = rest.split_at(frame_length(rest));
            rest = after;
            Ok(reply.to_vec())
        }
        refused => Err(refused.into()),
    };
    Ok(numbers.into_iter().map(answer).collect())
}

/// A session with what is lent at its calls.
pub struct Session {
    plan: Plan,
    pub save: bool,
    bytes: [u8; SESSION],
    desk: Vec<u8>,
    pub item: Vec<u8>,
    ending: [u8; 42],
}

impl Session {
    /// A save of `item`, or an open where there is none. An operation has the ask numbers `ask` to `ask` + W.
    pub fn begin(plan: Plan, ask: u64, item: Option<Vec<u8>>) -> Session {
        let save = item.is_some();
        let open = if save { raw::open_write } else { raw::open_read };
        let mut bytes = [0; SESSION];
        assert_eq!(open(&plan.bytes(), ask, &mut bytes), 0, "an opening");
        let item = item.unwrap_or_else(|| vec![0; plan.item()]);
        Session { plan, save, bytes, desk: vec![0; plan.n * plan.record()], item, ending: [0; 42] }
    }

    /// The request that the open round owes to `node`; none if it is heard.
    pub fn owed(&self, node: usize) -> Option<Vec<u8>> {
        let mut request = vec![0; self.plan.record() + FRAME_HEAD];
        if raw::owed(&self.plan.bytes(), &self.bytes, node as u64, &self.desk, &mut request) != 0 {
            return None;
        }
        request.truncate(frame_length(&request));
        Some(request)
    }

    pub fn reply(&mut self, reply: &[u8]) -> u32 {
        let plan = self.plan.bytes();
        let Session { bytes, desk, item, ending, .. } = self;
        if self.save {
            raw::write_reply(&plan, bytes, reply, desk, item, ending)
        } else {
            raw::read_reply(&plan, bytes, reply, desk, item, ending)
        }
    }

    /// Stage and round: when they change, a new round has opened.
    pub fn place(&self) -> [u8; 3] {
        [self.bytes[1], self.bytes[2], self.bytes[3]]
    }

    /// In a write or repair round.
    pub fn storing(&self) -> bool {
        self.bytes[1] == 1
    }

    pub fn heard(&self, node: usize) -> bool {
        self.bytes[MARKS + node] != 0
    }

    /// Opens the next round of a read that has ended, below its greatest record, or tells that its rounds are spent.
    pub fn walk_on(&mut self) -> u32 {
        let slots = self.desk.chunks(self.plan.record()).zip(&self.bytes[MARKS..]);
        let candidate = slots.filter(|(_, mark)| **mark == 2).map(|(record, _)| stamp_of(record)).max();
        let round = u16::from_be_bytes([self.bytes[2], self.bytes[3]]);
        let Some(candidate) = candidate.filter(|_| round < self.plan.w) else { return ROUNDS_SPENT };
        self.bytes[1] = 0;
        self.bytes[2..BOUND].copy_from_slice(&(round + 1).to_be_bytes());
        self.bytes[BOUND] = 1;
        self.bytes[BOUND + 1..BOUND + 1 + STAMP].copy_from_slice(&candidate);
        self.bytes[MARKS..].fill(0);
        0
    }

    /// The timestamp of an ending; zeros where it has none.
    pub fn stamp(&self) -> Stamp {
        self.ending[..STAMP].try_into().expect("40 bytes")
    }

    /// The timestamp being written.
    pub fn writing(&self) -> Stamp {
        self.bytes[WRITING..MARKS].try_into().expect("40 bytes")
    }

    /// The item of the desk's first m slots.
    pub fn desk_item(&self) -> Vec<u8> {
        let records = self.desk.chunks(self.plan.record()).take(self.plan.m);
        records.flat_map(|record| &record[record.len() - self.plan.f..]).copied().collect()
    }
}

/// The whole length of a frame, from its first 4 bytes.
pub fn frame_length(frame: &[u8]) -> usize {
    u32::from_be_bytes(frame[..4].try_into().expect("4 bytes")) as usize + 4
}
