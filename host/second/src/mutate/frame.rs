//! Changes to a frame.

use super::{beside, flip, get, put, View};
use crate::craft;
use crate::plan::Plan;
use crate::random::Random;
use crate::record::Timestamp;
use crate::sha256::sha256;
use crate::wire;

/// One field of a frame, or another frame in its place.
pub fn change(random: &mut Random, view: &View, seen: &[Vec<u8>], aim: Option<Timestamp>, bytes: &mut Vec<u8>) {
    if bytes.len() < 15 {
        *bytes = random.bytes(15);
    }
    let (node, ask) = (bytes[6], get(bytes, 7));
    match random.below(18) {
        0 => flip(random, &mut bytes[..4]),
        1 => bytes[4] = random.pick(&[0, 2, 255]),
        2 => bytes[5] = random.pick(&[0, 1, 2, 3, 4, 5, 6, 7, 8, 9, 255]),
        3 => bytes[6] = random.pick(&[0, view.plan.n as u8 - 1, view.plan.n as u8, 16, 255, node ^ 1]),
        4 => put(bytes, 7, random.pick(&[ask.wrapping_add(1), ask.wrapping_sub(1), 0, ask ^ (1 << 63)])),
        5 | 6 => cut(random, view.plan, bytes),
        7 => {
            let kind = random.within(1, 8) as u8;
            *bytes = craft::senseless(random, view.plan, kind, node, ask);
        }
        8 | 9 if !seen.is_empty() => {
            let old = random.pick(seen);
            *bytes = old;
            if random.chance(70) {
                put(bytes, 7, ask);
            }
            if random.chance(50) {
                bytes[6] = node;
            }
        }
        10 | 11 => put(bytes, 15, random.pick(&[0, 0, 1, u64::MAX])),
        12..=14 => near(random, aim, bytes),
        15 | 16 => record(random, view.plan, bytes),
        _ => flip(random, bytes),
    }
}

/// Another length, of the body or of too little for a frame, mostly with the length field that says so.
fn cut(random: &mut Random, plan: &Plan, bytes: &mut Vec<u8>) {
    let body = bytes.len() - 15;
    let other = random.pick(&[0, 8, 40, plan.record_length(), plan.record_length() - 32, body + 1, body - body.min(1)]);
    bytes.resize(15 + other, 0x3c);
    if random.chance(20) {
        bytes.truncate(random.pick(&[14, 14, 13, 11, 7, 5, 4, 3, 0]));
    }
    if random.chance(70) && bytes.len() >= 4 {
        let rest = bytes.len() as u32 - 4;
        bytes[..4].copy_from_slice(&rest.to_be_bytes());
    }
}

/// A timestamp at the start of the body on either side of the one that it is compared with; changing the time alone leaves the hashes
/// of a record right.
pub fn near(random: &mut Random, aim: Option<Timestamp>, bytes: &mut [u8]) {
    let Some(aim) = aim else { return put(bytes, 15, 0) };
    if bytes.len() < 55 {
        return;
    }
    if bytes.len() == 55 || random.chance(20) {
        bytes[15..55].copy_from_slice(&beside(random, aim).bytes());
    } else {
        let time = aim.time;
        put(bytes, 15, random.pick(&[time, time, time.wrapping_sub(1), time.wrapping_add(1)]));
    }
}

/// A time reply that says what another node said, or a time next to that, or the last.
pub fn tied(random: &mut Random, session: &[u8], bytes: &mut [u8]) {
    let said = get(session, wire::TIMES + 8 * random.below(16));
    put(bytes, 15, random.pick(&[said, said, said.wrapping_add(1), said.wrapping_sub(1), u64::MAX]));
}

/// A record in the body: one of its hashes made wrong, or a change after which both are right again.
fn record(random: &mut Random, plan: &Plan, bytes: &mut [u8]) {
    if bytes.len() != 15 + plan.record_length() {
        return;
    }
    let node = usize::from(bytes[6]) % plan.n;
    let (checksum, fragment) = (55, 55 + plan.checksum_length());
    match random.below(6) {
        0 => flip(random, &mut bytes[23..55]),
        1 => flip(random, &mut bytes[fragment..]),
        2 => flip(random, &mut bytes[checksum + 32 * node..checksum + 32 * node + 32]),
        3 => flip(random, &mut bytes[checksum..fragment]),
        _ => {
            let hash = sha256(&bytes[fragment..]);
            bytes[checksum + 32 * node..checksum + 32 * node + 32].copy_from_slice(&hash);
            let other = random.below(plan.n);
            if other != node {
                flip(random, &mut bytes[checksum + 32 * other..checksum + 32 * other + 32]);
            }
        }
    }
    if random.chance(70) {
        let verifier = sha256(&bytes[checksum..fragment]);
        bytes[23..55].copy_from_slice(&verifier);
    }
}
