//! The plan and its thresholds (document 01, "The plan"; Table 2 of the report).

use crate::refusal::{require, Refusal};

#[derive(Clone, Copy, Debug, PartialEq, Eq)]
pub enum Member {
    Repairable,
    NonRepair,
}

#[derive(Clone, Copy, Debug, PartialEq, Eq)]
pub enum Clients {
    Crash,
    Byzantine,
}

#[derive(Clone, Debug, PartialEq, Eq)]
pub struct Plan {
    pub n: usize,
    pub t: usize,
    pub b: usize,
    pub q: usize,
    pub m: usize,
    /// Fragment length.
    pub f: usize,
    pub member: Member,
    pub clients: Clients,
    /// Round limit.
    pub w: usize,
}

/// What the size of a candidate set says of the candidate.
#[derive(Clone, Copy, Debug, PartialEq, Eq)]
pub enum Class {
    Complete,
    Incomplete,
    Unclassifiable,
}

/// The greatest N.
pub const NODES: u8 = 16;

/// Whether N, t, b, Q and m meet their ranges and Table 2. It is written with sums alone, so that nothing is taken from a smaller number;
/// the numbers may have 64 bits, and the sums here have 128.
pub fn fits(member: Member, [n, t, b, q, m]: [u128; 5]) -> bool {
    let ranges = (1..=NODES.into()).contains(&n) && b <= t;
    let table = t + b < q
        && 1 <= m
        && match member {
            Member::Repairable => q + t + b <= n && m + t <= q,
            Member::NonRepair => q + 2 * t + 2 * b <= n && m <= q + b,
        };
    ranges && table
}

impl Plan {
    /// Refusal 1.
    pub fn accepted(&self) -> Result<(), Refusal> {
        let Plan { n, t, b, q, m, f, w, .. } = *self;
        let ranges = (1..=1024).contains(&f) && (1..=65_535).contains(&w);
        require(ranges && fits(self.member, [n, t, b, q, m].map(|number| number as u128)), Refusal::Plan)
    }

    /// The replies that end a round.
    pub fn replies(&self) -> usize {
        self.n - self.t
    }

    pub fn class(&self, set: usize) -> Class {
        let (complete, incomplete) = (self.q + self.b, self.q - self.t);
        if set >= complete {
            Class::Complete
        } else if set < incomplete {
            Class::Incomplete
        } else {
            Class::Unclassifiable
        }
    }

    pub fn checksum_length(&self) -> usize {
        32 * self.n
    }

    /// R.
    pub fn record_length(&self) -> usize {
        40 + self.checksum_length() + self.f
    }

    pub fn desk_length(&self) -> usize {
        self.n * self.record_length()
    }

    pub fn item_length(&self) -> usize {
        self.m * self.f
    }

    /// The least length of a reply or request buffer: the longest frame.
    pub fn frame_room(&self) -> usize {
        self.record_length() + 15
    }
}
