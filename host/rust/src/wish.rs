//! The smallest plan for what a site wishes for (document 02, Q-1).

use crate::calls::accepted;
use crate::{Clients, Member, Plan, Refusal};

/// The bytes that the library writes N and Q into.
pub const COUNTS_SIZE: usize = 2;

/// The values of a plan that bear on its N and Q. Any numbers may stand here.
#[derive(Clone, Copy, Debug, PartialEq, Eq)]
pub struct Wish {
    pub member: Member,
    /// So many nodes may be silent or worse.
    pub t: u64,
    /// So many of those may lie.
    pub b: u64,
    /// So many fragments give the block.
    pub m: u64,
}

/// The nodes of a plan, and its Q.
#[derive(Clone, Copy, Debug, PartialEq, Eq)]
pub struct Counts {
    pub n: u8,
    pub q: u8,
}

impl Wish {
    /// The smallest N that document 01 accepts for it, and with that N the smallest Q; refuses 1, 20.
    pub fn smallest(&self) -> Result<Counts, Refusal> {
        let mut counts = [0; COUNTS_SIZE];
        accepted(pasis_raw::smallest_plan(self.member as u8, self.t, self.b, self.m, &mut counts))?;
        let [n, q] = counts;
        Ok(Counts { n, q })
    }

    /// The smallest plan for it with these other values, which have no part in N and Q and may be out of their ranges: see [`Plan::check`].
    pub fn plan(&self, f: u16, clients: Clients, w: u16) -> Result<Plan, Refusal> {
        let Counts { n, q } = self.smallest()?;
        // None is above N, since it is accepted.
        let [t, b, m] = [self.t, self.b, self.m].map(|value| value as u8);
        Ok(Plan { n, t, b, q, m, f, member: self.member, clients, w })
    }
}
