//! The session: 237 bytes that the caller keeps between two calls.

use crate::Timestamp;

pub const SESSION_SIZE: usize = 237;
/// Where the times that the nodes told, the timestamp being written and the marks lie.
const TIMES: usize = 53;
const STAMP: usize = 181;
const MARKS: usize = 221;

/// An open operation, or an ended one. It goes by value into a reply call and comes back from it. It cannot be cloned, since two
/// branches of one operation would share ask numbers and a desk.
#[derive(Debug, PartialEq, Eq)]
pub struct Session(pub(crate) [u8; SESSION_SIZE]);

#[derive(Clone, Copy, Debug, PartialEq, Eq)]
pub enum Operation {
    Write,
    Read,
}

/// Asking is a time or a read round, storing a write or a repair round.
#[derive(Clone, Copy, Debug, PartialEq, Eq)]
pub enum Stage {
    Asking,
    Storing,
    Ended,
}

/// In a time or write round a heard node is marked `Record`.
#[derive(Clone, Copy, Debug, PartialEq, Eq)]
pub enum Mark {
    Unheard,
    FirstTriple,
    Record,
}

/// What the bytes say. `None` where they code no value; the library refuses such a session, and its own sessions are never so.
impl Session {
    /// A session that was stored. Bytes that are none are refused by the call that gets them.
    pub fn from_bytes(bytes: [u8; SESSION_SIZE]) -> Session {
        Session(bytes)
    }

    pub fn as_bytes(&self) -> &[u8; SESSION_SIZE] {
        &self.0
    }

    pub fn operation(&self) -> Option<Operation> {
        [Operation::Write, Operation::Read].get(usize::from(self.0[0])).copied()
    }

    pub fn stage(&self) -> Option<Stage> {
        [Stage::Asking, Stage::Storing, Stage::Ended].get(usize::from(self.0[1])).copied()
    }

    pub fn round(&self) -> u16 {
        u16::from_be_bytes([self.0[2], self.0[3]])
    }

    /// Under which timestamp a read asks; `None` also where it asks for the latest.
    pub fn bound(&self) -> Option<Timestamp> {
        (self.0[4] == 1).then(|| self.timestamp_at(5))
    }

    /// The timestamp being written, in a write or repair round.
    pub fn writing(&self) -> Timestamp {
        self.timestamp_at(STAMP)
    }

    /// The time that this node told in the time round of a write; of no account where it is not heard. `None` from 16 on.
    pub fn time_told(&self, node: usize) -> Option<u64> {
        let times = self.0[TIMES..STAMP].as_chunks::<8>().0;
        times.get(node).map(|time| u64::from_be_bytes(*time))
    }

    pub fn mark(&self, node: usize) -> Option<Mark> {
        let byte = *self.0.get(node.checked_add(MARKS)?)?;
        [Mark::Unheard, Mark::FirstTriple, Mark::Record].get(usize::from(byte)).copied()
    }

    fn timestamp_at(&self, at: usize) -> Timestamp {
        Timestamp(self.0[at..at + 40].try_into().expect("40 bytes"))
    }
}
