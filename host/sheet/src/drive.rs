//! Carries an operation to its end over the books of one folder, asked in the order of their numbers.

use crate::claim::Claim;
use crate::folder::{Folder, Silence};
use crate::operation::{Block, Operation, Run};
use pasis::{Plan, Refusal, Session};

/// The silence of a book that has no room.
pub const FULL: &str = "full";

/// The silence that was asked for, which needs no note.
const DOWN: &str = "taken as silent";

/// The nodes: each a book in memory, or silent.
pub struct Nodes<'a> {
    plan: Plan,
    books: Vec<Result<Vec<u8>, Silence>>,
    /// Where a changed book goes to its file; else only what is in memory changes.
    keep: Option<&'a Folder>,
}

impl<'a> Nodes<'a> {
    pub fn of(folder: &'a Folder, down: &[usize], keep: bool) -> Nodes<'a> {
        let book = |node: usize| match down.contains(&node) {
            true => Err(DOWN.to_string()),
            false => folder.book(node),
        };
        let books = (0..usize::from(folder.plan.n)).map(book).collect();
        Nodes { plan: folder.plan, books, keep: keep.then_some(folder) }
    }

    /// Books that have no files.
    pub fn in_memory(plan: &Plan, books: Vec<Result<Vec<u8>, Silence>>) -> Nodes<'a> {
        Nodes { plan: *plan, books, keep: None }
    }

    pub fn book(&self, node: usize) -> Result<&[u8], &Silence> {
        self.books[node].as_deref()
    }

    /// One request at one node. The book is on disk before the reply is given. A request that changes the book is served once more, on the book
    /// as it then is on disk, while nobody else may change it.
    fn serve(&mut self, node: usize, request: &[u8]) -> Result<Vec<u8>, Silence> {
        let plan = &self.plan;
        let book = self.books[node].as_mut().map_err(|silence| silence.clone())?;
        let (mut after, mut reply) = served(plan, request, book)?;
        if let (true, Some(folder)) = (after != *book, self.keep) {
            let failed = |error: std::io::Error| format!("cannot be written: {error}");
            let claim = Claim::wait(&folder.book_path(node)).map_err(failed)?;
            let before = folder.book(node)?;
            (after, reply) = served(plan, request, &before)?;
            if after != before {
                claim.store(&after).map_err(failed)?;
            }
        }
        *book = after;
        Ok(reply)
    }
}

/// A book after a request, and the reply.
fn served(plan: &Plan, request: &[u8], book: &[u8]) -> Result<(Vec<u8>, Vec<u8>), Silence> {
    let mut after = book.to_vec();
    let mut reply = vec![0; plan.frame_size()];
    let told = pasis::node(plan, request, &mut after, &mut reply).map_err(|refusal| told_of(refusal, book))?;
    reply.truncate(told);
    Ok((after, reply))
}

/// A node's refusal, for people.
pub fn told_of(refusal: Refusal, book: &[u8]) -> Silence {
    match refusal {
        Refusal::Length => format!("damaged: {} bytes, and a book has 11 to 65,536", book.len()),
        Refusal::Book => format!("damaged ({refusal})"),
        Refusal::Frame => "damaged: it is the book of another node".to_string(),
        Refusal::Room => FULL.to_string(),
        refusal => format!("refused ({refusal})"),
    }
}

fn note(operation: &mut Operation, node: usize, why: &str) {
    let note = format!("book-{node}: {why}; node {node} counts as silent");
    if why != DOWN && !operation.run.notes.contains(&note) {
        operation.run.notes.push(note);
    }
}

/// One node's part in a round.
fn ask(operation: &mut Operation, nodes: &mut Nodes, node: usize, request: &[u8]) {
    let reply = match nodes.serve(node, request) {
        Ok(reply) => reply,
        Err(why) => return note(operation, node, &why),
    };
    if operation.storing() {
        operation.stored_at(node);
    }
    if operation.over() {
        return; // the request was delivered; its reply comes too late to be counted
    }
    if let Err(refusal) = operation.hear(node, &reply) {
        note(operation, node, &format!("its reply is refused ({refusal})"));
    }
}

/// One round: every node is asked, up to the end of a read or time round; a write or repair round is delivered to all. Whether it ended.
fn round(operation: &mut Operation, nodes: &mut Nodes, stop_after: Option<usize>) -> bool {
    for (node, request) in operation.begin().iter().enumerate() {
        if operation.storing() && stop_after == Some(operation.run.stored.len()) {
            operation.run.cut_off = true;
            return false;
        }
        if operation.over() && !operation.storing() {
            break;
        }
        ask(operation, nodes, node, request);
    }
    operation.close();
    operation.over()
}

/// Carries an open session to its end, or until a round does not end; a save that is to be cut off stops after so many nodes stored.
pub fn run(plan: &Plan, nodes: &mut Nodes, session: Session, block: Block, stop_after: Option<usize>) -> Run {
    let mut operation = Operation::new(plan, session, block);
    while round(&mut operation, nodes, stop_after) && !operation.ended() {}
    operation.run
}
