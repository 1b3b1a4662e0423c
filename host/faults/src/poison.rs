//! Records that no correct client makes, by the second program's fragment code and hash.

use crate::plan::Plan;
use second::code::{cross_checksum, encode};
use second::random::Random;
use second::record::{records, stamp, under, Record};

/// What a Byzantine client writes under one timestamp.
#[derive(Clone, Copy, PartialEq)]
pub enum Poison {
    /// Fragments of no item.
    Fragments,
    /// An item's fragments but for one.
    OneFragment,
    /// An item's fragments, and in the cross checksum an entry that is no fragment's hash.
    Checksum,
}

pub const POISONS: [Poison; 3] = [Poison::Fragments, Poison::OneFragment, Poison::Checksum];

fn bytes(records: Vec<Record>) -> Vec<Vec<u8>> {
    records.iter().map(Record::bytes).collect()
}

/// The N records of an item, as a client makes them.
pub fn sound(plan: &Plan, time: u64, item: &[u8]) -> Vec<Vec<u8>> {
    bytes(records(time, encode(&plan.second(), item)))
}

/// The N records of a save that is nobody's: from no m of them comes an item whose N fragments have this cross checksum. Where m is N there
/// are no such fragments; no plan here has that.
pub fn poisoned(plan: &Plan, poison: Poison, time: u64, random: &mut Random) -> Vec<Vec<u8>> {
    let mut fragments = encode(&plan.second(), &random.bytes(plan.item()));
    let odd = random.below(plan.n);
    match poison {
        Poison::Fragments => fragments.iter_mut().for_each(|fragment| *fragment = random.bytes(plan.f)),
        Poison::OneFragment => fragments[odd][0] ^= 1,
        Poison::Checksum => {
            let mut checksum = cross_checksum(&fragments);
            checksum[32 * odd] ^= 1;
            return bytes(under(stamp(time, &checksum), &checksum, fragments));
        }
    }
    bytes(records(time, fragments))
}
