//! A run of frames laid end to end (document 02, Q-3): "the outcome is as if they came singly in that order". The frames are cut first, all of
//! them; then each is answered by the node, from one book that is read at the beginning and written at the end.

use crate::book::{Book, LENT};
use crate::node;
use crate::plan::Plan;
use crate::refusal::{require, Refusal};

/// The least that a length may say: version, kind, node and ask number.
const LEAST: usize = 11;

/// The frames that are cut, in order, and the place where the run ended: its length where nothing is left.
pub fn cut(run: &[u8]) -> (Vec<&[u8]>, usize) {
    let (mut frames, mut rest) = (Vec::new(), run);
    while let Some((length, after)) = rest.split_first_chunk() {
        let length = u32::from_be_bytes(*length) as usize;
        if length < LEAST || length > after.len() {
            break;
        }
        let (frame, left) = rest.split_at(4 + length);
        frames.push(frame);
        rest = left;
    }
    (frames, run.len() - rest.len())
}

/// What a run is told: the frames cut, the bytes of replies written, the place where it ended.
#[derive(Clone, Copy, Debug, PartialEq, Eq)]
pub struct Told {
    pub frames: usize,
    pub replies: usize,
    pub place: usize,
}

/// Order 1, 2, 21, 3; then no frame refuses the run, only itself. A refused run writes nothing. `fits` is whether what is told has its length.
pub fn serve(
    plan: &Plan,
    run: &[u8],
    lent: &mut [u8],
    replies: &mut [u8],
    numbers: &mut [u8],
    fits: bool,
) -> Result<Told, Refusal> {
    plan.accepted()?;
    require(LENT.contains(&lent.len()) && fits, Refusal::Length)?;
    let (frames, place) = cut(run);
    let room = plan.frame_room() * frames.len();
    require(replies.len() >= room && numbers.len() >= frames.len(), Refusal::Run)?;
    let mut book = Book::read(plan, lent).ok_or(Refusal::Book)?;
    let mut written = Vec::new();
    for (frame, number) in frames.iter().zip(numbers) {
        *number = match node::answer(plan, &mut book, lent.len(), frame) {
            Ok(reply) => {
                written.extend(reply.bytes());
                0
            }
            Err(refusal) => refusal as u8,
        };
    }
    book.write(plan, lent);
    replies[..written.len()].copy_from_slice(&written);
    Ok(Told { frames: frames.len(), replies: written.len(), place })
}
