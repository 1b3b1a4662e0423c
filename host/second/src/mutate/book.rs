//! Changes to a book.

use super::{beside, flip, put};
use crate::plan::Plan;
use crate::random::Random;
use crate::record::Timestamp;

/// One field of the book, its lent length, or one of its records.
pub fn change(random: &mut Random, plan: &Plan, bytes: &mut Vec<u8>) {
    if bytes.len() < 11 {
        return;
    }
    let size = plan.record_length();
    let count = usize::from(u16::from_be_bytes([bytes[9], bytes[10]]));
    let used = (11 + count * size).min(bytes.len());
    match random.below(10) {
        0 => flip(random, &mut bytes[..11]),
        1 => bytes[random.pick(&[4, 5, 6, 7, 8])] = random.pick(&[0, 1, 2, 16, 255, plan.n as u8, plan.f as u8]),
        2 => counted(random, plan, count, bytes),
        3 | 4 => {
            let lengths = [used, used - 1, used + 1, used + size, used + size - 1, used + size + 1];
            bytes.resize(random.pick(&lengths), 0x77);
        }
        _ if count == 0 || 11 + count * size > bytes.len() => flip(random, bytes),
        5 | 6 => two_records(random, size, count, bytes),
        7 => put(bytes, 11 + size * random.below(count), random.pick(&[0, 1, u64::MAX])),
        _ => flip(random, &mut bytes[11..used]),
    }
}

/// Count and length raised or lowered together, so that the tail or a record less is read.
fn counted(random: &mut Random, plan: &Plan, count: usize, bytes: &mut [u8]) {
    let other = random.pick(&[count + 1, count - count.min(1), 0, 65_535]);
    let length = 7 + other.min(65_535) * plan.record_length();
    bytes[9..11].copy_from_slice(&(other as u16).to_be_bytes());
    if random.chance(80) {
        bytes[..4].copy_from_slice(&(length as u32).to_be_bytes());
    }
}

/// Two records made to bear one timestamp, or next ones, or to stand in each other's place.
fn two_records(random: &mut Random, size: usize, count: usize, bytes: &mut [u8]) {
    let (a, b) = (11 + size * random.below(count), 11 + size * random.below(count));
    let (first, second) = (bytes[a..a + size].to_vec(), bytes[b..b + size].to_vec());
    if random.chance(50) {
        let stamp = beside(random, Timestamp::from_bytes(&first[..40]));
        bytes[b..b + 40].copy_from_slice(&stamp.bytes());
    } else {
        bytes[b..b + size].copy_from_slice(&first);
        bytes[a..a + size].copy_from_slice(&second);
    }
}

/// A byte of record number `at`, past its timestamp.
pub fn damage(random: &mut Random, size: usize, at: usize, bytes: &mut [u8]) {
    flip(random, &mut bytes[11 + size * at..11 + size * (at + 1)][40..]);
}

/// Damage to the record that a write request bears, if the book holds it: what refusal 7 is for. Or the next timestamp in its place.
pub fn damage_held(random: &mut Random, plan: &Plan, request: &[u8], bytes: &mut [u8]) {
    let (size, stamp) = (plan.record_length(), request.get(15..55));
    let held =
        bytes.get(11..).and_then(|records| records.chunks_exact(size).position(|record| record.get(..40) == stamp));
    match (held, stamp) {
        (Some(at), Some(stamp)) if random.chance(30) => {
            let other = beside(random, Timestamp::from_bytes(stamp));
            bytes[11 + size * at..][..40].copy_from_slice(&other.bytes());
        }
        (Some(at), _) => damage(random, size, at, bytes),
        _ => {}
    }
}
