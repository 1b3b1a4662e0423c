//! Plans, records and frames made up for the generator: what careful, careless and lying parties might send.

use crate::book::{Book, HEADER};
use crate::code::encode;
use crate::frame::{Ask, Body, Frame};
use crate::plan::{Clients, Member, Plan};
use crate::random::Random;
use crate::record::{records, Record, Timestamp};

/// How great the plans and books are.
#[derive(Clone, Copy, Debug, PartialEq, Eq)]
pub enum Size {
    /// N to 5, F to 4 and short books, for stored cases.
    Small,
    Any,
}

/// An accepted plan: each number drawn within what Table 2 leaves it, small ones more often.
pub fn plan(random: &mut Random, size: Size) -> Plan {
    let greatest = if size == Size::Small { 5 } else { random.pick(&[5, 7, 9, 16]) };
    let n = if random.chance(25) { greatest } else { random.within(1, greatest) };
    let member = random.pick(&[Member::Repairable, Member::NonRepair]);
    // N is at least 2t+2b+1 for the one, 3t+3b+1 for the other
    let times = if member == Member::Repairable { 2 } else { 3 };
    let t = ((n - 1) / times).min(random.pick(&[0, 1, 1, 1, 2, 3, 7]));
    let b = t.min((n - 1) / times - t).min(random.pick(&[0, 1, 1, 3]));
    let (least, most) = (t + b + 1, n - (times - 1) * (t + b));
    let more = random.pick(&[0, 1, 16]);
    let q = random.within(least, most.min(least + more));
    let most = if member == Member::Repairable { q - t } else { q + b };
    let few = random.pick(&[1, 2, 3, 16]);
    let m = random.within(1, most.min(few));
    let f = match size {
        Size::Small => random.within(1, 4),
        Size::Any => random.pick(&[1, 2, 3, 4, 5, 17, 33, 60, 64, 100, 257, 1024]),
    };
    let clients = random.pick(&[Clients::Crash, Clients::Byzantine]);
    let w = random.pick(&[1, 1, 2, 2, 3, 5, 300, 65_535]);
    let plan = Plan { n, t, b, q, m, f, member, clients, w };
    assert_eq!(plan.accepted(), Ok(()), "{plan:?}");
    plan
}

/// A logical time: small ones meet often, the last ones spend the clock.
pub fn time(random: &mut Random) -> u64 {
    match random.below(12) {
        0 => u64::MAX,
        1 => u64::MAX - 1,
        2 => random.number(),
        3 => 0,
        _ => random.within(1, 6) as u64,
    }
}

/// What the nodes might say in one time round: a great time from about b of them, which the (b+1)-th greatest passes over, and from the
/// others times that are often equal.
pub fn times(random: &mut Random, plan: &Plan) -> Vec<u64> {
    let great = random.pick(&[u64::MAX, u64::MAX, u64::MAX - 1, 9]);
    let many = random.pick(&[plan.b, plan.b, plan.b + 1, plan.b + 1, plan.b + 2]);
    let few = random.pick(&[0, 4, 4, u64::MAX - 2]);
    let mut times: Vec<u64> = (0..plan.n).map(|_| few + random.below(3) as u64).collect();
    for _ in 0..many {
        times[random.below(plan.n)] = great;
    }
    times
}

/// A time that a record may bear.
pub fn record_time(random: &mut Random) -> u64 {
    time(random).max(1)
}

/// The N records of an item.
pub fn honest(random: &mut Random, plan: &Plan, time: u64) -> Vec<Record> {
    let item = random.bytes(plan.item_length());
    records(time, encode(plan, &item))
}

/// N records whose hashes are right and whose fragments belong to no item: a poisonous write.
pub fn poisonous(random: &mut Random, plan: &Plan, time: u64) -> Vec<Record> {
    let fragments = (0..plan.n).map(|_| random.bytes(plan.f)).collect();
    records(time, fragments)
}

/// A book of up to as many records as the greatest can hold, none of them of right hashes.
pub fn long_book(random: &mut Random, plan: &Plan, node: usize) -> Book {
    let most = (65_536 - HEADER) / plan.record_length();
    let count = most - random.pick(&[0, 1, 2, most / 3, most / 2]);
    let mut stamp = Timestamp { time: 1, verifier: [0; 32] };
    let mut records = Vec::new();
    for _ in 0..count {
        stamp.time += random.pick(&[0, 1, 1, 1 << 40]);
        stamp = Timestamp { time: stamp.time + 1, verifier: [random.byte(); 32] };
        records.push(Record { stamp, checksum: random.bytes(plan.checksum_length()), fragment: random.bytes(plan.f) });
    }
    Book { node, records }
}

pub fn frame(node: usize, ask: u64, body: Body) -> Vec<u8> {
    Frame { node, ask: Ask(ask), body }.bytes()
}

/// A frame of this kind with a body of the right length for it and no sense.
pub fn senseless(random: &mut Random, plan: &Plan, kind: u8, node: u8, ask: u64) -> Vec<u8> {
    let length = match kind {
        2 => 8,
        3 => plan.record_length(),
        4 | 6 => 40,
        7 => random.pick(&[0, plan.record_length()]),
        _ => 0,
    };
    let mut bytes = (11 + length as u32).to_be_bytes().to_vec();
    bytes.extend([1, kind, node]);
    bytes.extend(ask.to_be_bytes());
    bytes.extend(random.bytes(length));
    bytes
}
