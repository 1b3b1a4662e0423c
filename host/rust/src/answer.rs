//! What a call answers: a refusal, or where the operation stands.

use std::fmt;

/// The bytes of an ending: a timestamp, and the rounds in two.
pub const ENDING_SIZE: usize = 42;

/// The refusals of document 01, under its numbers, and `Wish` and `Run`, the 20 and 21 of document 02.
#[derive(Clone, Copy, Debug, PartialEq, Eq)]
pub enum Refusal {
    Plan,
    Length,
    Book,
    Frame,
    Time,
    Hash,
    Held,
    Room,
    Session,
    Awaited,
    Heard,
    Bound,
    Ask,
    Ended,
    Wish,
    Run,
    /// A number that this interface does not have.
    Other(u32),
}

const KNOWN: [(u32, Refusal, &str); 16] = [
    (1, Refusal::Plan, "plan outside its rules"),
    (2, Refusal::Length, "a lent length is wrong"),
    (3, Refusal::Book, "book not of this shape, or not of this plan"),
    (
        4,
        Refusal::Frame,
        "frame length (for its kind too), version, kind for this party, or node wrong; a node number of N or more",
    ),
    (5, Refusal::Time, "time 0 in a record or a bound"),
    (6, Refusal::Hash, "a hash check fails"),
    (7, Refusal::Held, "same timestamp held with other bytes"),
    (8, Refusal::Room, "no room in the book for R more bytes"),
    (9, Refusal::Session, "session out of its ranges, or of the other operation"),
    (10, Refusal::Awaited, "ask number, kind or write timestamp not the one awaited"),
    (11, Refusal::Heard, "this node is already heard"),
    (12, Refusal::Bound, "reply not strictly below the bound"),
    (13, Refusal::Ask, "opening ask number plus W above 2^64-1"),
    (14, Refusal::Ended, "session has ended"),
    (20, Refusal::Wish, "no N and Q up to 16 are accepted for this wish"),
    (21, Refusal::Run, "under R+15 reply bytes or one number place for each frame of the run"),
];

impl Refusal {
    pub(crate) fn from_number(number: u32) -> Refusal {
        let known = KNOWN.iter().find(|(its, ..)| *its == number);
        known.map_or(Refusal::Other(number), |(_, refusal, _)| *refusal)
    }

    /// The documents' number.
    pub fn number(self) -> u32 {
        match self {
            Refusal::Other(number) => number,
            known => KNOWN.iter().find(|(_, refusal, _)| *refusal == known).map_or(0, |(number, ..)| *number),
        }
    }
}

impl fmt::Display for Refusal {
    fn fmt(&self, f: &mut fmt::Formatter<'_>) -> fmt::Result {
        let words = KNOWN.iter().find(|(_, refusal, _)| refusal == self).map(|(.., words)| *words);
        write!(f, "refusal {}: {}", self.number(), words.unwrap_or("not a number of this interface"))
    }
}

impl std::error::Error for Refusal {}

/// An 8 byte time, then the hash of the cross checksum; ordered as document 01 orders them.
#[derive(Clone, Copy, PartialEq, Eq, PartialOrd, Ord, Hash)]
pub struct Timestamp(pub [u8; 40]);

impl Timestamp {
    pub fn time(&self) -> u64 {
        u64::from_be_bytes(*self.0.first_chunk().expect("40 bytes"))
    }
}

/// The time and the first 4 bytes of the verifier, for people: `7:3fa90c11`.
impl fmt::Display for Timestamp {
    fn fmt(&self, f: &mut fmt::Formatter<'_>) -> fmt::Result {
        let head: String = self.0[8..12].iter().map(|byte| format!("{byte:02x}")).collect();
        f.pad(&format!("{}:{head}", self.time()))
    }
}

impl fmt::Debug for Timestamp {
    fn fmt(&self, f: &mut fmt::Formatter<'_>) -> fmt::Result {
        fmt::Display::fmt(self, f)
    }
}

/// What an accepted reply brings. Rounds are the read rounds that were used; a write has none and says 0.
#[derive(Clone, Copy, Debug, PartialEq, Eq)]
pub enum Answer {
    /// The operation goes on.
    Open,
    Done {
        timestamp: Timestamp,
        rounds: u16,
    },
    NeverWritten {
        rounds: u16,
    },
    Aborted {
        rounds: u16,
    },
    RoundsSpent {
        rounds: u16,
    },
    /// The (b+1)-th greatest time reply is 2^64-1.
    ClockSpent,
}

impl Answer {
    pub(crate) fn from_number(number: u32, ending: &[u8; ENDING_SIZE]) -> Result<Answer, Refusal> {
        let timestamp = Timestamp(*ending.first_chunk().expect("42 bytes"));
        let rounds = u16::from_be_bytes(*ending.last_chunk().expect("42 bytes"));
        Ok(match number {
            0 => Answer::Open,
            101 => Answer::Done { timestamp, rounds },
            102 => Answer::NeverWritten { rounds },
            103 => Answer::Aborted { rounds },
            104 => Answer::RoundsSpent { rounds },
            105 => Answer::ClockSpent,
            refusal => return Err(Refusal::from_number(refusal)),
        })
    }
}
