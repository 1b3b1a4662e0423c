//! What may happen to a book on its disk.

use crate::library::{frame_length, node};
use crate::plan::{frame, Plan, BOOK_HEAD};
use crate::poison::sound;
use second::random::Random;

/// The book of node i, damaged: some bytes of its records, some of all in use, its end cut off, or a sound record of bytes that nobody saved
/// put in.
pub fn damaged(plan: &Plan, i: usize, mut book: Vec<u8>, random: &mut Random) -> Vec<u8> {
    let used = if book.len() < BOOK_HEAD { book.len() } else { frame_length(&book).clamp(1, book.len()) };
    let from = if used > BOOK_HEAD && random.within(0, 2) > 0 { BOOK_HEAD } else { 0 };
    match random.within(0, 5) {
        0 => book.truncate(random.within(1, used)),
        1 | 2 => {
            let later = random.within(1, 1000) as u64;
            let record = sound(plan, later, &random.bytes(plan.item())).swap_remove(i);
            // Where the book is damaged already it refuses, and stays as it is.
            let _ = node(plan, &frame(3, i, 0, &record), &mut book);
        }
        _ => {
            for _ in 0..random.within(1, 40) {
                let at = random.within(from.min(used - 1), used - 1);
                book[at] = random.byte();
            }
        }
    }
    book
}
