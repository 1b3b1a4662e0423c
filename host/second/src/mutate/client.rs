//! Changes to what a client keeps between its calls: its session and its desk.

use super::{beside, flip, put};
use crate::craft;
use crate::plan::Plan;
use crate::random::Random;
use crate::record::Timestamp;
use crate::wire;

/// What this session's comparisons look at: the timestamp being written, or the bound if it has one.
pub fn aim(session: &[u8]) -> Option<Timestamp> {
    match session {
        _ if session.len() != wire::SESSION => None,
        _ if session[1] == 1 => Some(Timestamp::from_bytes(&session[wire::STAMP..wire::MARKS])),
        _ => (session[4] == 1).then(|| Timestamp::from_bytes(&session[5..45])),
    }
}

/// A change of what a client keeps between its calls.
pub fn keepsake(random: &mut Random, plan: &Plan, kept: &mut [u8], slots: &mut [u8]) {
    if random.chance(30) {
        session(random, plan, kept);
    } else {
        desk(random, plan, aim(kept), slots);
    }
}

/// One field of the session.
pub fn session(random: &mut Random, plan: &Plan, bytes: &mut [u8]) {
    let w = plan.w as u16;
    match random.below(16) {
        0 => bytes[0] = random.pick(&[0, 1, 2, 255]),
        1 | 2 => bytes[1] = random.pick(&[0, 1, 2, 2, 3, 255]),
        3 => bytes[2..4].copy_from_slice(&random.pick(&[0, 1, 2, w, w.wrapping_add(1)]).to_be_bytes()),
        4 => bytes[4] = random.pick(&[0, 1, 2]),
        5 => bytes[4..45].fill(0),
        6 => put(bytes, 5, random.pick(&[0, 1])),
        7 => later_round(random, plan, bytes),
        8 => {
            let last = u64::MAX - plan.w as u64;
            put(bytes, 45, random.pick(&[0, last, last + 1, u64::MAX]));
        }
        9 => put(bytes, wire::TIMES + 8 * random.below(16), craft::time(random)),
        10 => put(bytes, wire::STAMP, random.pick(&[0, 1])),
        11 => bytes[wire::MARKS + random.below(16)] = random.pick(&[0, 1, 2, 3, 255]),
        12 => marks(random, plan, bytes),
        13 | 14 => times(random, plan, bytes),
        _ => flip(random, bytes),
    }
}

/// A round above 1 with a bound, as a made-up session may have it; the operation and stage are left.
pub fn later_round(random: &mut Random, plan: &Plan, bytes: &mut [u8]) {
    let w = plan.w as u16;
    let round = random.pick(&[2, 255, 256, w - 1, w, w, w.wrapping_add(1)]);
    bytes[2..4].copy_from_slice(&round.to_be_bytes());
    bytes[4] = 1;
    put(bytes, 5, craft::time(random));
    let verifier = random.bytes(32);
    bytes[13..45].copy_from_slice(&verifier);
}

/// As many nodes heard as end a round, or one fewer; first triples among them or not.
fn marks(random: &mut Random, plan: &Plan, bytes: &mut [u8]) {
    let heard = plan.replies() - random.below(2);
    let mark = random.pick(&[1, 2, 2]);
    let from = random.below(plan.t + 1);
    bytes[wire::MARKS..wire::SESSION].fill(0);
    bytes[wire::MARKS + from..wire::MARKS + from + heard].fill(mark);
}

/// The times of all nodes, or those of unheard nodes alone, which count for nothing and are handed back.
pub fn times(random: &mut Random, plan: &Plan, bytes: &mut [u8]) {
    let (drawn, unheard) = (craft::times(random, plan), random.chance(60));
    for node in 0..16 {
        let time = drawn.get(node).copied().unwrap_or_else(|| craft::time(random));
        if !unheard || bytes[wire::MARKS + node] == 0 {
            put(bytes, wire::TIMES + 8 * node, time);
        }
    }
}

/// One slot of the desk.
pub fn desk(random: &mut Random, plan: &Plan, aim: Option<Timestamp>, bytes: &mut [u8]) {
    let size = plan.record_length();
    if bytes.len() != plan.desk_length() {
        return flip(random, bytes);
    }
    let at = size * random.below(plan.n);
    match random.below(7) {
        0 => put(bytes, at, random.pick(&[0, 1, u64::MAX])),
        1 | 2 => {
            if let Some(aim) = aim {
                bytes[at..at + 40].copy_from_slice(&beside(random, aim).bytes());
            }
        }
        3 => flip(random, &mut bytes[at + 40..at + 40 + plan.checksum_length()]),
        4 => flip(random, &mut bytes[at + 40 + plan.checksum_length()..at + size]),
        5 => {
            // every slot bears one timestamp, so that the cross checksums alone tell the set; or one slot the next to it
            let stamp = Timestamp::from_bytes(&bytes[at..at + 40]);
            for slot in bytes.chunks_exact_mut(size) {
                slot[..40].copy_from_slice(&stamp.bytes());
            }
            let other = size * random.below(plan.n);
            bytes[other..other + 40].copy_from_slice(&beside(random, stamp).bytes());
        }
        _ => {
            let from = size * random.below(plan.n);
            bytes.copy_within(from..from + size, at);
        }
    }
}
