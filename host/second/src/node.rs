//! The node (document 01, "The node"; Figure 1 of the report): one request against one book. The answer depends on the plan only
//! through refusal 1, N and F.

use crate::book::{Book, LENT};
use crate::frame::{Body, Frame, Party};
use crate::plan::Plan;
use crate::record::Record;
use crate::refusal::{require, Refusal};

/// Order 1, 2, 4. Writes the first 11 bytes only.
pub fn fresh_book(plan: &Plan, node: u64, book: &mut [u8]) -> Result<(), Refusal> {
    plan.accepted()?;
    require(LENT.contains(&book.len()), Refusal::Length)?;
    require(node < plan.n as u64, Refusal::Frame)?;
    Book { node: node as usize, records: Vec::new() }.write(plan, book);
    Ok(())
}

/// Order 1 to 8 as numbered. A refused call writes nothing.
pub fn serve(plan: &Plan, request: &[u8], lent: &mut [u8], reply: &mut [u8]) -> Result<(), Refusal> {
    plan.accepted()?;
    require(LENT.contains(&lent.len()) && reply.len() >= plan.frame_room(), Refusal::Length)?;
    let mut book = Book::read(plan, lent).ok_or(Refusal::Book)?;
    let answer = answer(plan, &mut book, lent.len(), request)?;
    book.write(plan, lent);
    answer.write(reply);
    Ok(())
}

/// The reply to one request, with its record in the book: refusals 4 to 8, which leave the book. So many bytes are lent to the book.
pub fn answer(plan: &Plan, book: &mut Book, lent: usize, request: &[u8]) -> Result<Frame, Refusal> {
    let request = Frame::read(plan, Party::Node, request)?;
    require(request.node == book.node, Refusal::Frame)?;
    let body = match request.body {
        Body::TimeRequest => Body::TimeReply(book.last().map_or(0, |record| record.stamp.time)),
        Body::ReadLatest => Body::ReadReply(book.last().cloned()),
        Body::ReadPrevious(bound) => {
            require(bound.time >= 1, Refusal::Time)?;
            Body::ReadReply(book.last_below(bound).cloned())
        }
        Body::WriteRequest(record) => {
            let stamp = record.stamp;
            execute(plan, book, record, lent)?;
            Body::WriteReply(stamp)
        }
        Body::TimeReply(_) | Body::WriteReply(_) | Body::ReadReply(_) => unreachable!("not for a node"),
    };
    Ok(Frame { node: book.node, ask: request.ask, body })
}

/// Refusals 5 to 8 of a write request. A record that is held already is acknowledged, also by a full book.
fn execute(plan: &Plan, book: &mut Book, record: Record, lent: usize) -> Result<(), Refusal> {
    require(record.stamp.time >= 1, Refusal::Time)?;
    require(record.hashes_right(book.node), Refusal::Hash)?;
    if let Some(held) = book.held(record.stamp) {
        require(*held == record, Refusal::Held)?;
        return Ok(());
    }
    require(book.length(plan) + plan.record_length() <= lent, Refusal::Room)?;
    book.insert(record);
    Ok(())
}
