//! The calls of the node and of the client, on the types of this crate; `Wish::smallest` is the ninth.

use crate::{Answer, Plan, Ran, Refusal, Session, ENDING_SIZE, SESSION_SIZE, TOLD_SIZE};
use pasis_raw as raw;

type Made<T> = Result<T, Refusal>;

pub(crate) fn accepted(number: u32) -> Made<()> {
    match number {
        0 => Ok(()),
        refusal => Err(Refusal::from_number(refusal)),
    }
}

/// The length of the frame that a call has just written at the start of a buffer.
fn written(buffer: &[u8]) -> usize {
    let length: [u8; 4] = *buffer.first_chunk().expect("a served call was lent R+15 bytes");
    4 + u32::from_be_bytes(length) as usize
}

/// Makes the empty book of a node; refuses 1, 2, 4.
pub fn fresh_book(plan: &Plan, node: u64, book: &mut [u8]) -> Made<()> {
    accepted(raw::fresh_book(&plan.bytes(), node, book))
}

/// Serves one request frame against one book and gives the length of the reply frame; refuses 1 to 8. Make the book durable, and only
/// then send the reply. A refused request has no reply.
pub fn node(plan: &Plan, request: &[u8], book: &mut [u8], reply: &mut [u8]) -> Made<usize> {
    accepted(raw::node(&plan.bytes(), request, book, reply)).map(|()| written(reply))
}

/// Serves a run of request frames, laid end to end, against one book; refuses 1, 2, 21, 3. `replies` has at least R+15 bytes for each frame that
/// is cut ([`Plan::replies_size`]), `numbers` one place. The outcome is that of [`node`] called with each frame in turn. Make the book durable once,
/// and only then send the replies, any of them.
pub fn run<'a>(
    plan: &Plan,
    run: &[u8],
    book: &mut [u8],
    replies: &'a mut [u8],
    numbers: &'a mut [u8],
) -> Made<Ran<'a>> {
    let mut told = [0; TOLD_SIZE];
    accepted(raw::run(&plan.bytes(), run, book, replies, numbers, &mut told))?;
    Ok(Ran::new(&told, replies, numbers))
}

/// Opens a write. `ask` is the first of W+1 ask numbers that this client has never used; refuses 1, 13.
pub fn open_write(plan: &Plan, ask: u64) -> Made<Session> {
    let mut session = [0; SESSION_SIZE];
    accepted(raw::open_write(&plan.bytes(), ask, &mut session)).map(|()| Session(session))
}

/// Opens a read. `ask` is the first of W+1 ask numbers that this client has never used; refuses 1, 13.
pub fn open_read(plan: &Plan, ask: u64) -> Made<Session> {
    let mut session = [0; SESSION_SIZE];
    accepted(raw::open_read(&plan.bytes(), ask, &mut session)).map(|()| Session(session))
}

/// Writes the request owed to an unheard node and gives its length; refuses 1, 2, 9, 14, 4, 11.
pub fn owed(plan: &Plan, session: &Session, node: u64, desk: &[u8], request: &mut [u8]) -> Made<usize> {
    accepted(raw::owed(&plan.bytes(), &session.0, node, desk, request)).map(|()| written(request))
}

/// Takes a reply to a write; refuses 1, 2, 9, 14, 4, 10, 11. The session comes back in any case, at a refusal as it came.
pub fn write_reply(
    plan: &Plan,
    mut session: Session,
    reply: &[u8],
    desk: &mut [u8],
    item: &[u8],
) -> (Session, Made<Answer>) {
    let mut ending = [0; ENDING_SIZE];
    let number = raw::write_reply(&plan.bytes(), &mut session.0, reply, desk, item, &mut ending);
    (session, Answer::from_number(number, &ending))
}

/// Takes a reply to a read; refuses 1, 2, 9, 14, 4, 10, 11, 5, 6, 12. The session comes back in any case, at a refusal as it came; the
/// item is written by [`Answer::Done`] alone.
pub fn read_reply(
    plan: &Plan,
    mut session: Session,
    reply: &[u8],
    desk: &mut [u8],
    item: &mut [u8],
) -> (Session, Made<Answer>) {
    let mut ending = [0; ENDING_SIZE];
    let number = raw::read_reply(&plan.bytes(), &mut session.0, reply, desk, item, &mut ending);
    (session, Answer::from_number(number, &ending))
}
