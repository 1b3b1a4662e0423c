//! The smallest plan for a wish (document 02, Q-1): N and Q by trying all that document 01 has room for, smallest first.

use crate::plan::{fits, Member, NODES};
use crate::refusal::{require, Refusal};

/// What site staff know. The member is as they gave it, 0 repairable and 1 non-repair.
#[derive(Clone, Copy, Debug, PartialEq, Eq)]
pub struct Wish {
    pub member: u8,
    pub t: u64,
    pub b: u64,
    pub m: u64,
}

impl Wish {
    /// Refusal 1: no member, b above t, or m 0.
    pub fn member(&self) -> Result<Member, Refusal> {
        let member = *[Member::Repairable, Member::NonRepair].get(usize::from(self.member)).ok_or(Refusal::Plan)?;
        require(self.b <= self.t && self.m > 0, Refusal::Plan)?;
        Ok(member)
    }

    /// The smallest N, and with it the smallest Q, that the plan's rules accept; 20 where they accept none. F, W and the clients are not
    /// asked: any in their ranges goes with any N and Q.
    pub fn smallest(&self, member: Member) -> Result<(u8, u8), Refusal> {
        for n in 1..=NODES {
            for q in 0..=NODES {
                if fits(member, [n.into(), self.t.into(), self.b.into(), q.into(), self.m.into()]) {
                    return Ok((n, q));
                }
            }
        }
        Err(Refusal::Wish)
    }
}
