//! Changes to a good call that aim at one rule each: on both sides of its edge where it has one. Two or three changes at once meet the
//! order of the refusals. Here the plan, the lengths and the numbers; what lies in a lent slice in the modules below.

pub mod book;
pub mod client;
pub mod frame;

use crate::craft;
use crate::library::{Call, Kind, Slice};
use crate::plan::{Clients, Member, Plan};
use crate::random::Random;
use crate::record::Timestamp;
use crate::wire;

/// What a change may draw on.
pub struct View<'a> {
    pub plan: &'a Plan,
    /// Frames seen before: requests, replies.
    pub requests: &'a [Vec<u8>],
    pub replies: &'a [Vec<u8>],
}

pub fn change(random: &mut Random, view: &View, call: &mut Call) {
    match random.below(20) {
        0 => plan(random, view.plan, call),
        1 => sibling(random, view.plan, call),
        2 => length(random, view.plan, call),
        3 if matches!(call.kind, Kind::WriteReply | Kind::ReadReply) => {
            call.kind = if call.kind == Kind::WriteReply { Kind::ReadReply } else { Kind::WriteReply };
        }
        4 | 5 if call.kind.numbered() => number(random, view.plan, call),
        6 | 7 if call.kind == Kind::ReadReply => {
            let aim = aim(random, view.plan, call);
            frame::near(random, aim, &mut call.lent[1]);
        }
        6 if call.kind == Kind::WriteReply => {
            let session = call.lent[0].clone();
            frame::tied(random, &session, &mut call.lent[1]);
        }
        7 if call.kind == Kind::WriteReply && call.lent[0].len() == wire::SESSION => {
            client::times(random, view.plan, &mut call.lent[0]);
        }
        _ => inside(random, view, call),
    }
}

/// A change inside one lent slice, by what lies in it.
fn inside(random: &mut Random, view: &View, call: &mut Call) {
    let aim = aim(random, view.plan, call);
    let mut at = random.below(call.lent.len());
    while matches!(call.kind.slices()[at], Slice::Item | Slice::Out) && random.chance(80) {
        at = random.below(call.lent.len());
    }
    match call.kind.slices()[at] {
        Slice::Session if call.lent[at].len() == wire::SESSION => {
            client::session(random, view.plan, &mut call.lent[at]);
        }
        Slice::Request => frame::change(random, view, view.requests, aim, &mut call.lent[at]),
        Slice::Reply => frame::change(random, view, view.replies, aim, &mut call.lent[at]),
        Slice::Desk => client::desk(random, view.plan, aim, &mut call.lent[at]),
        Slice::Book if call.kind == Kind::Node && random.chance(35) => {
            let request = call.lent[0].clone();
            book::damage_held(random, view.plan, &request, &mut call.lent[at]);
        }
        Slice::Book => book::change(random, view.plan, &mut call.lent[at]),
        _ => flip(random, &mut call.lent[at]),
    }
}

/// The timestamp that comparisons of this call look at: the session's bound, or what it writes; of a node, one that its book holds.
fn aim(random: &mut Random, plan: &Plan, call: &Call) -> Option<Timestamp> {
    if let Some(at) = call.place(Slice::Session) {
        return client::aim(&call.lent[at]);
    }
    let records = call.lent[call.place(Slice::Book)?].get(11..)?;
    let held: Vec<&[u8]> = records.chunks_exact(plan.record_length()).take(40).collect();
    (!held.is_empty()).then(|| Timestamp::from_bytes(&held[random.below(held.len())][..40]))
}

pub fn flip(random: &mut Random, bytes: &mut [u8]) {
    if !bytes.is_empty() {
        let at = random.below(bytes.len());
        bytes[at] ^= 1 << random.below(8);
    }
}

/// Writes a number over 8 bytes, if they are there.
fn put(bytes: &mut [u8], at: usize, number: u64) {
    if bytes.len() >= at + 8 {
        bytes[at..at + 8].copy_from_slice(&number.to_be_bytes());
    }
}

fn get(bytes: &[u8], at: usize) -> u64 {
    bytes.get(at..at + 8).map_or(0, |eight| u64::from_be_bytes(eight.try_into().expect("8 bytes")))
}

/// The timestamp itself, or the next one above or below it: 40 bytes as a number, plus or minus 1.
fn beside(random: &mut Random, stamp: Timestamp) -> Timestamp {
    let mut bytes = stamp.bytes();
    let (step, carries) = random.pick(&[(0, 0), (1, 255), (255, 0)]);
    for byte in bytes.iter_mut().rev() {
        let carry = step != 0 && *byte == carries;
        *byte = byte.wrapping_add(step);
        if !carry {
            break;
        }
    }
    Timestamp::from_bytes(&bytes)
}

/// One byte of the plan, or its length.
pub fn plan(random: &mut Random, plan: &Plan, call: &mut Call) {
    if call.plan.len() != wire::PLAN {
        return;
    }
    match random.below(12) {
        0 => {
            call.plan.pop();
        }
        1 => call.plan.push(0),
        2 => call.plan.clear(),
        3 => call.plan[random.pick(&[7, 8])] = random.pick(&[2, 3, 255]),
        4 => {
            // Q or m one past the edge that Table 2 gives it
            let upper = match plan.member {
                Member::Repairable => [plan.n - plan.t - plan.b, plan.q - plan.t],
                Member::NonRepair => [plan.n - 2 * plan.t - 2 * plan.b, plan.q + plan.b],
            };
            let which = random.below(2);
            call.plan[3 + which] = (upper[which] + random.below(2)) as u8;
        }
        5 => call.plan[5..7].copy_from_slice(&random.pick(&[0u16, 1, 1024, 1025, 65_535]).to_be_bytes()),
        6 => call.plan[9..11].copy_from_slice(&random.pick(&[0u16, 1, 2, 65_535]).to_be_bytes()),
        7 => call.plan[0] = random.pick(&[0, 1, 16, 17, 255]),
        _ => {
            let at = random.below(wire::PLAN);
            call.plan[at] = call.plan[at].wrapping_add(random.pick(&[1, 255, 2, 128]));
        }
    }
}

/// Another accepted plan with the same N and F, so that book and desk still have their lengths.
fn sibling(random: &mut Random, plan: &Plan, call: &mut Call) {
    let mut other = plan.clone();
    for _ in 0..50 {
        other = Plan { n: plan.n, f: plan.f, ..craft::plan(random, craft::Size::Any) };
        other.w = random.pick(&[plan.w, other.w]);
        if other.accepted().is_ok() {
            break;
        }
        other = plan.clone();
        other.clients = random.pick(&[Clients::Crash, Clients::Byzantine]);
    }
    call.plan = wire::plan_bytes(&other).to_vec();
    if let (Some(item), true) = (call.place(Slice::Item), random.chance(80)) {
        call.lent[item].resize(other.item_length(), 7);
    }
}

/// The length of one lent slice.
fn length(random: &mut Random, plan: &Plan, call: &mut Call) {
    let at = random.below(call.lent.len());
    let now = call.lent[at].len();
    let lengths = match call.kind.slices()[at] {
        Slice::Book => vec![0, 10, 11, 12, now + 1, now - now.min(1), 65_536, 65_537],
        Slice::Out if call.kind == Kind::Node || call.kind == Kind::Owed => {
            vec![0, plan.frame_room() - 1, plan.frame_room(), plan.frame_room() + 1, 15]
        }
        _ => vec![0, now + 1, now - now.min(1), now + plan.f, now - now.min(plan.f)],
    };
    call.lent[at].resize(random.pick(&lengths), 0x5a);
}

/// The node or ask number beside the buffers.
fn number(random: &mut Random, plan: &Plan, call: &mut Call) {
    let (n, last) = (plan.n as u64, u64::MAX - plan.w as u64);
    // numbers that equal the right one in their low bits
    let (byte, word) = (call.number.wrapping_add(256), call.number.wrapping_add(1 << 32));
    call.number = match call.kind {
        Kind::OpenWrite | Kind::OpenRead => random.pick(&[0, last, last + 1, u64::MAX, last - 1]),
        _ => random.pick(&[n - 1, n, n + 1, 16, 255, byte, word, u64::MAX]),
    };
}
