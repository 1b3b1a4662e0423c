//! The session (document 01, "The client"): a value handed in and handed back, its ranges (refusal 9), its opening and the request
//! that it owes to a node.

use crate::frame::{Ask, Body, Frame, Party};
use crate::plan::Plan;
use crate::record::{Record, Timestamp};
use crate::refusal::{require, Refusal};

#[derive(Clone, Copy, Debug, PartialEq, Eq)]
pub enum Operation {
    Write,
    Read,
}

/// Asking is a time or a read round, storing a write or a repair round.
#[derive(Clone, Copy, Debug, PartialEq, Eq)]
pub enum Stage {
    Asking,
    Storing,
    Ended,
}

/// In a time or write round a heard node is marked `Record`.
#[derive(Clone, Copy, Debug, PartialEq, Eq)]
pub enum Mark {
    Unheard,
    FirstTriple,
    Record,
}

#[derive(Clone, Debug, PartialEq, Eq)]
pub struct Session {
    pub operation: Operation,
    pub stage: Stage,
    pub round: u16,
    pub bound: Option<Timestamp>,
    pub opening: Ask,
    /// What each node answered in the time round (document 02, Q-2). Only those of heard nodes count; no other call changes them.
    pub times: [u64; 16],
    /// The timestamp being written, in a write or repair round.
    pub stamp: Timestamp,
    pub marks: [Mark; 16],
}

/// What an accepted reply brings.
#[derive(Clone, Copy, Debug, PartialEq, Eq)]
pub enum Answer {
    Open,
    /// Rounds are those of a read; a write has none.
    Done {
        stamp: Timestamp,
        rounds: u16,
    },
    NeverWritten {
        rounds: u16,
    },
    Aborted {
        rounds: u16,
    },
    RoundsSpent {
        rounds: u16,
    },
    ClockSpent,
}

pub const UNHEARD: [Mark; 16] = [Mark::Unheard; 16];

/// Slot i of a desk.
pub fn slot<'a>(plan: &Plan, desk: &'a [u8], node: usize) -> &'a [u8] {
    &desk[node * plan.record_length()..][..plan.record_length()]
}

/// Puts a record in slot i of a desk.
pub fn put(plan: &Plan, desk: &mut [u8], node: usize, record: &Record) {
    desk[node * plan.record_length()..][..plan.record_length()].copy_from_slice(&record.bytes());
}

/// Fills the desk with all N records.
pub fn fill(plan: &Plan, desk: &mut [u8], records: &[Record]) {
    for (node, record) in records.iter().enumerate() {
        put(plan, desk, node, record);
    }
}

/// Opening plus W at most 2^64-1.
fn opening_in_range(plan: &Plan, opening: Ask) -> bool {
    opening.0 <= u64::MAX - plan.w as u64
}

/// Opening of a write or a read; order 1, 13.
pub fn open(plan: &Plan, operation: Operation, opening: Ask) -> Result<Session, Refusal> {
    plan.accepted()?;
    require(opening_in_range(plan, opening), Refusal::Opening)?;
    Ok(Session {
        operation,
        stage: Stage::Asking,
        round: 1,
        bound: None,
        opening,
        times: [0; 16],
        stamp: Timestamp::ZERO,
        marks: UNHEARD,
    })
}

/// The request frame owed to an unheard node; order 1, 2, 9, 14, 4, 11. Bytes of the buffer past the frame stay.
pub fn owed(plan: &Plan, session: &Session, node: u64, desk: &[u8], request: &mut [u8]) -> Result<(), Refusal> {
    plan.accepted()?;
    require(desk.len() == plan.desk_length() && request.len() >= plan.frame_room(), Refusal::Length)?;
    require(session.in_range(plan, desk), Refusal::Session)?;
    require(session.stage != Stage::Ended, Refusal::Ended)?;
    require(node < plan.n as u64, Refusal::Frame)?;
    let node = node as usize;
    require(session.marks[node] == Mark::Unheard, Refusal::Heard)?;
    let body = match (session.stage, session.operation, session.bound) {
        (Stage::Storing, _, _) => Body::WriteRequest(Record::from_bytes(plan, slot(plan, desk, node))),
        (_, Operation::Write, _) => Body::TimeRequest,
        (_, Operation::Read, None) => Body::ReadLatest,
        (_, Operation::Read, Some(bound)) => Body::ReadPrevious(bound),
    };
    Frame { node, ask: session.ask(), body }.write(request);
    Ok(())
}

impl Session {
    /// The opening ask number serves round 1, each round takes the next, a write or repair round the one after. For sessions in
    /// range, where no sum passes opening plus W.
    pub fn ask(&self) -> Ask {
        let round = u64::from(self.round);
        match self.stage {
            Stage::Storing => Ask(self.opening.0 + round),
            _ => Ask(self.opening.0 + round - 1),
        }
    }

    pub fn heard(&self) -> usize {
        self.marks.iter().filter(|mark| **mark != Mark::Unheard).count()
    }

    /// The session ranges, without the rule on operations.
    pub fn in_range(&self, plan: &Plan, desk: &[u8]) -> bool {
        self.in_range_ended(plan) && (self.stage == Stage::Ended || self.in_range_open(plan, desk))
    }

    /// The rules that an ended session meets too.
    fn in_range_ended(&self, plan: &Plan) -> bool {
        let round = usize::from(self.round);
        let rounds = 1 <= round && round <= plan.w && (self.operation == Operation::Read || round == 1);
        let bound = match self.bound {
            None => round == 1,
            Some(bound) => round > 1 && bound.time >= 1,
        };
        let beyond = self.marks[plan.n..].iter().all(|mark| *mark == Mark::Unheard);
        rounds && bound && opening_in_range(plan, self.opening) && beyond
    }

    /// The rules of open sessions; a repair round is a write round here.
    fn in_range_open(&self, plan: &Plan, desk: &[u8]) -> bool {
        let reading = self.operation == Operation::Read && self.stage == Stage::Asking;
        let stamp = self.stage != Stage::Storing || self.stamp.time >= 1;
        let triples = reading || !self.marks.contains(&Mark::FirstTriple);
        let slots = !reading || self.slots_in_range(plan, desk);
        stamp && triples && self.heard() < plan.replies() && slots
    }

    /// In a read round each slot marked `Record` holds a time of 1 or more and a timestamp below the bound.
    fn slots_in_range(&self, plan: &Plan, desk: &[u8]) -> bool {
        (0..plan.n).filter(|node| self.marks[*node] == Mark::Record).all(|node| {
            let stamp = Record::from_bytes(plan, slot(plan, desk, node)).stamp;
            stamp.time >= 1 && self.bound.is_none_or(|bound| stamp < bound)
        })
    }

    /// The first part of a reply, in the order 1, 2, 9, 14, 4, 10, 11: a frame that this session awaits from an unheard node.
    pub fn hear(
        &self,
        plan: &Plan,
        operation: Operation,
        reply: &[u8],
        desk: &[u8],
        item: &[u8],
    ) -> Result<Frame, Refusal> {
        plan.accepted()?;
        require(desk.len() == plan.desk_length() && item.len() == plan.item_length(), Refusal::Length)?;
        require(self.operation == operation && self.in_range(plan, desk), Refusal::Session)?;
        require(self.stage != Stage::Ended, Refusal::Ended)?;
        let frame = Frame::read(plan, Party::Client, reply)?;
        require(frame.node < plan.n, Refusal::Frame)?;
        require(self.awaits(&frame), Refusal::Awaited)?;
        require(self.marks[frame.node] == Mark::Unheard, Refusal::Heard)?;
        Ok(frame)
    }

    /// Ask number, kind and write timestamp.
    fn awaits(&self, frame: &Frame) -> bool {
        let kind = match (self.stage, self.operation, &frame.body) {
            (Stage::Storing, _, Body::WriteReply(stamp)) => *stamp == self.stamp,
            (Stage::Asking, Operation::Write, Body::TimeReply(_)) => true,
            (Stage::Asking, Operation::Read, Body::ReadReply(_)) => true,
            _ => false,
        };
        kind && frame.ask == self.ask()
    }

    /// This session with one more node heard, and whether that ends the round.
    pub fn marked(&self, plan: &Plan, node: usize, mark: Mark) -> (Session, bool) {
        let mut next = self.clone();
        next.marks[node] = mark;
        let over = next.heard() == plan.replies();
        (next, over)
    }

    /// The write or repair round of this operation.
    pub fn storing(self, stamp: Timestamp) -> Session {
        Session { stage: Stage::Storing, stamp, marks: UNHEARD, ..self }
    }

    /// The next read round, below this bound.
    pub fn below(self, bound: Timestamp) -> Session {
        Session { round: self.round + 1, bound: Some(bound), marks: UNHEARD, ..self }
    }

    /// The end keeps every field and mark.
    pub fn ended(self) -> Session {
        Session { stage: Stage::Ended, ..self }
    }
}
