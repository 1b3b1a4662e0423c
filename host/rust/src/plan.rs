//! The plan and the sizes that follow from it.

use crate::{open_read, Refusal};

/// The bytes of a plan.
pub const PLAN_SIZE: usize = 11;

/// The least and the greatest length of a lent book.
pub const BOOK_LEAST: usize = 11;
pub const BOOK_MOST: usize = 65_536;

#[derive(Clone, Copy, Debug, PartialEq, Eq)]
pub enum Member {
    Repairable = 0,
    NonRepair = 1,
}

#[derive(Clone, Copy, Debug, PartialEq, Eq)]
pub enum Clients {
    Crash = 0,
    Byzantine = 1,
}

/// The nine values of document 01. Any values may stand here; every call refuses a plan that is outside its rules.
#[derive(Clone, Copy, Debug, PartialEq, Eq)]
pub struct Plan {
    pub n: u8,
    pub t: u8,
    pub b: u8,
    pub q: u8,
    pub m: u8,
    /// Fragment length.
    pub f: u16,
    pub member: Member,
    pub clients: Clients,
    /// Round limit.
    pub w: u16,
}

/// Five nodes of which one may be lost or lie, and two fragments make a block of 2,048 bytes.
impl Default for Plan {
    fn default() -> Plan {
        let (member, clients) = (Member::Repairable, Clients::Crash);
        Plan { n: 5, t: 1, b: 1, q: 3, m: 2, f: 1024, member, clients, w: 16 }
    }
}

impl Plan {
    /// As the library takes it: N, t, b, Q, m, F (2), member, clients, W (2).
    pub fn bytes(&self) -> [u8; PLAN_SIZE] {
        let ([f1, f0], [w1, w0]) = (self.f.to_be_bytes(), self.w.to_be_bytes());
        let (member, clients) = (self.member as u8, self.clients as u8);
        [self.n, self.t, self.b, self.q, self.m, f1, f0, member, clients, w1, w0]
    }

    /// Whether the library accepts it.
    pub fn check(&self) -> Result<(), Refusal> {
        open_read(self, 0).map(|_| ())
    }

    /// R = 40 + 32·N + F.
    pub fn record_size(&self) -> usize {
        40 + 32 * usize::from(self.n) + usize::from(self.f)
    }

    /// N·R, exactly.
    pub fn desk_size(&self) -> usize {
        usize::from(self.n) * self.record_size()
    }

    /// m·F, exactly.
    pub fn item_size(&self) -> usize {
        usize::from(self.m) * usize::from(self.f)
    }

    /// R + 15, the least room for a request or a reply.
    pub fn frame_size(&self) -> usize {
        self.record_size() + 15
    }

    /// (R + 15) for each of so many frames, the least room for the replies of a run.
    pub fn replies_size(&self, frames: usize) -> usize {
        frames.saturating_mul(self.frame_size())
    }

    /// A book with room for so many records.
    pub fn book_size(&self, records: usize) -> usize {
        records.saturating_mul(self.record_size()).saturating_add(11)
    }

    /// N-t, the replies that end a round; of an accepted plan.
    pub fn replies(&self) -> usize {
        usize::from(self.n.saturating_sub(self.t))
    }

    /// Q+b: a set of so many or more is complete.
    pub fn complete(&self) -> usize {
        usize::from(self.q) + usize::from(self.b)
    }

    /// Q-t: a set below this is incomplete; of an accepted plan.
    pub fn incomplete(&self) -> usize {
        usize::from(self.q.saturating_sub(self.t))
    }
}
