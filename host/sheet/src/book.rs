//! A look into a book, for people. Whether it is a book, and whether a record is good, the library says.

use crate::drive::told_of;
use crate::folder::Silence;
use pasis::{Plan, Timestamp, BOOK_MOST};

/// A record that a book holds.
pub struct Held {
    pub stamp: Timestamp,
    /// Whether its hashes are right.
    pub good: bool,
}

/// A frame of this kind to a node, or from one.
pub fn frame(kind: u8, node: usize, ask: u64, body: &[u8]) -> Vec<u8> {
    let length = (11 + body.len()) as u32;
    [&length.to_be_bytes()[..], &[1, kind, node as u8], &ask.to_be_bytes(), body].concat()
}

/// Whether the library stores this record in an empty book of that node.
pub fn good(plan: &Plan, node: usize, record: &[u8]) -> bool {
    let mut book = vec![0; plan.book_size(1)];
    let mut reply = vec![0; plan.frame_size()];
    let made = pasis::fresh_book(plan, node as u64, &mut book);
    made.and_then(|()| pasis::node(plan, &frame(3, node, 0, record), &mut book, &mut reply)).is_ok()
}

/// The records of a node's book in their order, or why it is none: the library is asked for its greatest time first.
pub fn records(plan: &Plan, node: usize, book: &[u8]) -> Result<Vec<Held>, Silence> {
    let mut reply = vec![0; plan.frame_size()];
    let asked = pasis::node(plan, &frame(1, node, 0, &[]), &mut book.to_vec(), &mut reply);
    asked.map_err(|refusal| told_of(refusal, book))?;
    let used = 4 + u32::from_be_bytes(*book.first_chunk().expect("a served book")) as usize;
    let held = |record: &[u8]| Held {
        stamp: Timestamp(*record.first_chunk().expect("R is above 40")),
        good: good(plan, node, record),
    };
    Ok(book[11..used].chunks_exact(plan.record_size()).map(held).collect())
}

/// How many records a book can have at most.
pub fn most(plan: &Plan) -> usize {
    (BOOK_MOST - 11) / plan.record_size()
}

/// A book of a node with these records, which are in order, and with room for one more or as many bytes as its node told.
pub fn of(plan: &Plan, node: usize, records: &[Vec<u8>], room: Option<usize>) -> Result<Vec<u8>, Silence> {
    let used = plan.book_size(records.len());
    let room = room.unwrap_or(plan.book_size(records.len() + 1)).clamp(used.min(BOOK_MOST), BOOK_MOST);
    let mut book = vec![0; room];
    pasis::fresh_book(plan, node as u64, &mut book).map_err(|refusal| told_of(refusal, &book))?;
    if used > room {
        return Err("holds more than a book can".to_string());
    }
    book[..4].copy_from_slice(&(used as u32 - 4).to_be_bytes());
    book[9..11].copy_from_slice(&(records.len() as u16).to_be_bytes());
    book[11..used].copy_from_slice(&records.concat());
    Ok(book)
}
