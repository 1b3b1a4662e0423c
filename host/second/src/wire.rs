//! The host interface: each call on bytes, with one number as its answer. 0 is accepted and open (or served, or opened), 1 to 14, 20
//! and 21 are the refusals, 101 to 105 the endings.
//!
//! Plan, 11 bytes: N, t, b, Q, m, F (2), member (0 repairable, 1 non-repair), clients (0 crash, 1 Byzantine), W (2).
//! Session, 237 bytes: operation (0 write, 1 read), stage (0 asking, 1 storing, 2 ended), round (2), bound (0 and forty zeros, or 1
//! and the timestamp), opening ask number (8), 16 times by node number (8 each), timestamp being written (40), 16 marks (0 unheard,
//! 1 first triple, 2 record). Ending, 42 bytes, written at an ending only: timestamp (zero where it has none), rounds (2, zero for a write).
//! Counts, 2 bytes: N and Q. Told, 24 bytes: frames cut, bytes of replies written, place where the run ended (8 each). A plan slice of another
//! length is refusal 1, a session, ending, counts or told slice of another length 2, bytes that code no session 9.

use crate::frame::Ask;
use crate::node;
use crate::plan::{Clients, Member, Plan};
use crate::reader;
use crate::record::Timestamp;
use crate::refusal::{require, Refusal};
use crate::run::{self, Told};
use crate::session::{self, Answer, Mark, Operation, Session, Stage};
use crate::wish::Wish;
use crate::writer;

pub const PLAN: usize = 11;
pub const SESSION: usize = 237;
/// Where a session has its times, its timestamp and its marks.
pub const TIMES: usize = 53;
pub const STAMP: usize = 181;
pub const MARKS: usize = 221;
pub const ENDING: usize = 42;
pub const COUNTS: usize = 2;
pub const TOLD: usize = 24;

/// None where the bytes are no plan; whether it is within its rules is not asked here.
pub fn plan_from(bytes: &[u8]) -> Option<Plan> {
    let &[n, t, b, q, m, f1, f0, member, clients, w1, w0] = bytes else {
        return None;
    };
    Some(Plan {
        n: n.into(),
        t: t.into(),
        b: b.into(),
        q: q.into(),
        m: m.into(),
        f: u16::from_be_bytes([f1, f0]).into(),
        member: *[Member::Repairable, Member::NonRepair].get(usize::from(member))?,
        clients: *[Clients::Crash, Clients::Byzantine].get(usize::from(clients))?,
        w: u16::from_be_bytes([w1, w0]).into(),
    })
}

/// Of a plan whose numbers fit their bytes.
pub fn plan_bytes(plan: &Plan) -> [u8; PLAN] {
    let [f1, f0] = (plan.f as u16).to_be_bytes();
    let [w1, w0] = (plan.w as u16).to_be_bytes();
    let [n, t, b, q, m] = [plan.n, plan.t, plan.b, plan.q, plan.m].map(|number| number as u8);
    [n, t, b, q, m, f1, f0, plan.member as u8, plan.clients as u8, w1, w0]
}

/// None where the bytes code no session.
pub fn session_from(bytes: &[u8]) -> Option<Session> {
    let number = |at: usize| u64::from_be_bytes(bytes[at..at + 8].try_into().expect("8 bytes"));
    let mut marks = session::UNHEARD;
    for (mark, byte) in marks.iter_mut().zip(&bytes[MARKS..SESSION]) {
        *mark = *[Mark::Unheard, Mark::FirstTriple, Mark::Record].get(usize::from(*byte))?;
    }
    Some(Session {
        operation: *[Operation::Write, Operation::Read].get(usize::from(bytes[0]))?,
        stage: *[Stage::Asking, Stage::Storing, Stage::Ended].get(usize::from(bytes[1]))?,
        round: u16::from_be_bytes([bytes[2], bytes[3]]),
        bound: bound_from(&bytes[4..45])?,
        opening: Ask(number(45)),
        times: std::array::from_fn(|node| number(TIMES + 8 * node)),
        stamp: Timestamp::from_bytes(&bytes[STAMP..MARKS]),
        marks,
    })
}

/// None where the bytes code no bound; the bound itself may be none.
fn bound_from(bytes: &[u8]) -> Option<Option<Timestamp>> {
    match bytes[0] {
        0 if bytes[1..].iter().all(|byte| *byte == 0) => Some(None),
        1 => Some(Some(Timestamp::from_bytes(&bytes[1..]))),
        _ => None,
    }
}

pub fn session_bytes(session: &Session) -> [u8; SESSION] {
    let mut bytes = [0; SESSION];
    bytes[0] = session.operation as u8;
    bytes[1] = session.stage as u8;
    bytes[2..4].copy_from_slice(&session.round.to_be_bytes());
    if let Some(bound) = session.bound {
        bytes[4] = 1;
        bytes[5..45].copy_from_slice(&bound.bytes());
    }
    bytes[45..53].copy_from_slice(&session.opening.0.to_be_bytes());
    for (eight, time) in bytes[TIMES..STAMP].chunks_exact_mut(8).zip(session.times) {
        eight.copy_from_slice(&time.to_be_bytes());
    }
    bytes[STAMP..MARKS].copy_from_slice(&session.stamp.bytes());
    for (byte, mark) in bytes[MARKS..].iter_mut().zip(session.marks) {
        *byte = mark as u8;
    }
    bytes
}

/// The answer's number, with the ending's timestamp and rounds.
fn answered(answer: Answer) -> (u32, Option<(Timestamp, u16)>) {
    let none = Timestamp::ZERO;
    match answer {
        Answer::Open => (0, None),
        Answer::Done { stamp, rounds } => (101, Some((stamp, rounds))),
        Answer::NeverWritten { rounds } => (102, Some((none, rounds))),
        Answer::Aborted { rounds } => (103, Some((none, rounds))),
        Answer::RoundsSpent { rounds } => (104, Some((none, rounds))),
        Answer::ClockSpent => (105, Some((none, 0))),
    }
}

fn number(outcome: Result<u32, Refusal>) -> u32 {
    outcome.unwrap_or_else(|refusal| refusal as u32)
}

/// Refusal 1, of bytes.
fn accepted(plan: &[u8]) -> Result<Plan, Refusal> {
    let plan = plan_from(plan).ok_or(Refusal::Plan)?;
    plan.accepted()?;
    Ok(plan)
}

pub fn smallest_plan(member: u8, t: u64, b: u64, m: u64, counts: &mut [u8]) -> u32 {
    number(smallest(&Wish { member, t, b, m }, counts))
}

/// Order of refusals: 1, 2, 20 (document 02, Q-1).
fn smallest(wish: &Wish, counts: &mut [u8]) -> Result<u32, Refusal> {
    let member = wish.member()?;
    require(counts.len() == COUNTS, Refusal::Length)?;
    let (n, q) = wish.smallest(member)?;
    counts.copy_from_slice(&[n, q]);
    Ok(0)
}

pub fn fresh_book(plan: &[u8], node: u64, book: &mut [u8]) -> u32 {
    number(accepted(plan).and_then(|plan| node::fresh_book(&plan, node, book)).map(|()| 0))
}

pub fn node(plan: &[u8], request: &[u8], book: &mut [u8], reply: &mut [u8]) -> u32 {
    number(accepted(plan).and_then(|plan| node::serve(&plan, request, book, reply)).map(|()| 0))
}

/// The numbers are one byte a frame: 0 accepted, else the refusal.
pub fn run(plan: &[u8], run: &[u8], book: &mut [u8], replies: &mut [u8], numbers: &mut [u8], told: &mut [u8]) -> u32 {
    let fits = told.len() == TOLD;
    number(accepted(plan).and_then(|plan| run::serve(&plan, run, book, replies, numbers, fits)).map(|outcome| {
        told.copy_from_slice(&told_bytes(&outcome));
        0
    }))
}

pub fn told_bytes(told: &Told) -> [u8; TOLD] {
    let mut bytes = [0; TOLD];
    for (eight, number) in bytes.chunks_exact_mut(8).zip([told.frames, told.replies, told.place]) {
        eight.copy_from_slice(&(number as u64).to_be_bytes());
    }
    bytes
}

pub fn open_write(plan: &[u8], ask: u64, session: &mut [u8]) -> u32 {
    number(open(plan, Operation::Write, ask, session))
}

pub fn open_read(plan: &[u8], ask: u64, session: &mut [u8]) -> u32 {
    number(open(plan, Operation::Read, ask, session))
}

fn open(plan: &[u8], operation: Operation, ask: u64, lent: &mut [u8]) -> Result<u32, Refusal> {
    let plan = accepted(plan)?;
    require(lent.len() == SESSION, Refusal::Length)?;
    let session = session::open(&plan, operation, Ask(ask))?;
    lent.copy_from_slice(&session_bytes(&session));
    Ok(0)
}

pub fn owed(plan: &[u8], session: &[u8], node: u64, desk: &[u8], request: &mut [u8]) -> u32 {
    number(request_owed(plan, session, node, desk, request))
}

fn request_owed(plan: &[u8], lent: &[u8], node: u64, desk: &[u8], request: &mut [u8]) -> Result<u32, Refusal> {
    let plan = accepted(plan)?;
    let lengths = lent.len() == SESSION && desk.len() == plan.desk_length();
    require(lengths && request.len() >= plan.frame_room(), Refusal::Length)?;
    let session = session_from(lent).ok_or(Refusal::Session)?;
    session::owed(&plan, &session, node, desk, request)?;
    Ok(0)
}

/// What the two reply calls do around their own work: 1 and 2, the session's bytes in and out, the ending.
fn reply(
    plan: &[u8],
    lent: &mut [u8],
    (desk, item): (usize, usize),
    ending: &mut [u8],
    call: impl FnOnce(&Plan, &Session) -> Result<(Session, Answer), Refusal>,
) -> Result<u32, Refusal> {
    let plan = accepted(plan)?;
    let lengths = lent.len() == SESSION && ending.len() == ENDING;
    require(lengths && desk == plan.desk_length() && item == plan.item_length(), Refusal::Length)?;
    let session = session_from(lent).ok_or(Refusal::Session)?;
    let (next, answer) = call(&plan, &session)?;
    lent.copy_from_slice(&session_bytes(&next));
    let (number, end) = answered(answer);
    if let Some((stamp, rounds)) = end {
        ending[..40].copy_from_slice(&stamp.bytes());
        ending[40..].copy_from_slice(&rounds.to_be_bytes());
    }
    Ok(number)
}

pub fn write_reply(
    plan: &[u8],
    session: &mut [u8],
    frame: &[u8],
    desk: &mut [u8],
    item: &[u8],
    ending: &mut [u8],
) -> u32 {
    let lengths = (desk.len(), item.len());
    number(reply(plan, session, lengths, ending, |plan, session| writer::reply(plan, session, frame, desk, item)))
}

pub fn read_reply(
    plan: &[u8],
    session: &mut [u8],
    frame: &[u8],
    desk: &mut [u8],
    item: &mut [u8],
    ending: &mut [u8],
) -> u32 {
    let lengths = (desk.len(), item.len());
    number(reply(plan, session, lengths, ending, |plan, session| reader::reply(plan, session, frame, desk, item)))
}
