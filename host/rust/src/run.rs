//! What a run of frames came to (document 02, Q-3).

use crate::{frame_length, Refusal};

/// The bytes that the library tells of a run: frames cut, bytes of replies written, place where it ended, 8 each.
pub const TOLD_SIZE: usize = 24;

/// A run that was served.
#[derive(Clone, Copy, Debug, PartialEq, Eq)]
pub struct Ran<'a> {
    /// The reply frames end to end: what is to be sent, once the book is durable.
    pub replies: &'a [u8],
    /// One for each frame that was cut: 0 accepted, else its refusal, 4 to 8.
    pub numbers: &'a [u8],
    /// Where the run ended: its length, or where there is no whole frame.
    pub place: usize,
}

impl<'a> Ran<'a> {
    pub(crate) fn new(told: &[u8; TOLD_SIZE], replies: &'a [u8], numbers: &'a [u8]) -> Ran<'a> {
        let [frames, written, place] = [0, 8, 16].map(|at| {
            let eight = told[at..at + 8].try_into().expect("8 bytes");
            u64::from_be_bytes(eight) as usize
        });
        Ran { replies: &replies[..written], numbers: &numbers[..frames], place }
    }

    /// What each frame came to, in order: its reply frame, or its refusal.
    pub fn outcomes(&self) -> impl Iterator<Item = Result<&'a [u8], Refusal>> {
        let mut rest = self.replies;
        self.numbers.iter().map(move |number| match number {
            0 => {
                let length = frame_length(rest).expect("a reply for each frame that was accepted") as usize;
                let (reply, after) = rest.split_at(length);
                rest = after;
                Ok(reply)
            }
            refusal => Err(Refusal::from_number(u32::from(*refusal))),
        })
    }
}
