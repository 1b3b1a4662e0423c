//! What good nodes have executed, in its order (document 02, Q-5): which writes, whoever sent them, complete or not.

use crate::plan::{frame_kind, stamp_of, Plan, Stamp, FRAME_HEAD, STAMP};
use second::code::{cross_checksum, regenerate, Share};
use std::collections::{BTreeMap, BTreeSet};

#[derive(Default)]
pub struct Executed {
    /// The records that were sent to each node under a timestamp, arrived or not.
    sent: BTreeMap<Stamp, BTreeMap<usize, Vec<u8>>>,
    /// Each timestamp and node once, in their order, and which these are.
    log: Vec<(Stamp, usize)>,
    known: BTreeSet<(Stamp, usize)>,
    /// The items that have been looked for.
    items: BTreeMap<Stamp, Option<Vec<u8>>>,
}

impl Executed {
    /// A request to node i has been sent.
    pub fn overhear(&mut self, i: usize, request: &[u8]) {
        if frame_kind(request) == 3 {
            let record = &request[FRAME_HEAD..];
            self.sent.entry(stamp_of(record)).or_default().insert(i, record.to_vec());
        }
    }

    /// Node i, which is good, has acknowledged this timestamp; or it told of it, and its acknowledgement was lost with its keeper.
    pub fn note(&mut self, i: usize, stamp: Stamp) {
        if self.known.insert((stamp, i)) {
            self.log.push((stamp, i));
        }
    }

    /// How much has been executed by now.
    pub fn moment(&self) -> usize {
        self.log.len()
    }

    /// How many of the nodes that are good have executed this timestamp.
    pub fn by(&self, stamp: &Stamp, good: impl Fn(usize) -> bool) -> usize {
        self.log.iter().filter(|(executed, i)| executed == stamp && good(*i)).count()
    }

    /// The greatest write of an item that Q of the nodes that are good had executed at this moment; none: there was none.
    pub fn sheet(&mut self, plan: &Plan, moment: usize, good: impl Fn(usize) -> bool) -> Option<(Stamp, Vec<u8>)> {
        let mut counts: BTreeMap<Stamp, usize> = BTreeMap::new();
        for (stamp, _) in self.log[..moment].iter().filter(|(_, i)| good(*i)) {
            *counts.entry(*stamp).or_default() += 1;
        }
        let mut enough = counts.into_iter().rev().filter(|(_, count)| *count >= plan.q);
        enough.find_map(|(stamp, _)| Some((stamp, self.item(plan, stamp)?)))
    }

    /// The item of this timestamp's records; none: they are poisoned.
    fn item(&mut self, plan: &Plan, stamp: Stamp) -> Option<Vec<u8>> {
        let records = self.sent.get(&stamp)?;
        self.items.entry(stamp).or_insert_with(|| item_of(plan, records)).clone()
    }
}

/// The item whose N fragments have the cross checksum of these records.
fn item_of(plan: &Plan, records: &BTreeMap<usize, Vec<u8>>) -> Option<Vec<u8>> {
    let fragment = plan.record() - plan.f;
    let shares: Vec<Share> = records.iter().map(|(i, record)| (*i, &record[fragment..])).collect();
    let fragments = regenerate(&plan.second(), shares.get(..plan.m)?);
    let (_, record) = records.first_key_value()?;
    (cross_checksum(&fragments) == record[STAMP..fragment]).then(|| fragments[..plan.m].concat())
}
