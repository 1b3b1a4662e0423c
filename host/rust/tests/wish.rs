//! The smallest plan for a wish: document 02, Q-1, case by case, and against every plan there is.

use pasis::Member::{NonRepair, Repairable};
use pasis::{Clients, Counts, Member, Plan, Refusal, Wish, COUNTS_SIZE};
use pasis_raw as raw;

fn smallest(member: Member, t: u64, b: u64, m: u64) -> Result<(u8, u8), Refusal> {
    Wish { member, t, b, m }.smallest().map(|Counts { n, q }| (n, q))
}

/// Document 01's two plans, and its smallest.
#[test]
fn plans_of_document_01() {
    assert_eq!(smallest(Repairable, 1, 1, 2), Ok((5, 3)));
    assert_eq!(smallest(NonRepair, 1, 1, 4), Ok((7, 3)));
    assert_eq!(smallest(Repairable, 0, 0, 1), Ok((1, 1)));
    assert_eq!(smallest(NonRepair, 0, 0, 1), Ok((1, 1)));
}

/// The last t, b and m that 16 nodes serve. By document 01's table Q is at least t+b+1, and at most N-t-b (repairable) or N-2t-2b, so that N is
/// at least 2t+2b+1 or 3t+3b+1; and m asks for a Q of m+t (repairable) or m-b, so that N is at least m+2t+b for both members.
#[test]
fn both_sides_of_sixteen_nodes() {
    // Repairable. t alone: 2*7+1 is 15 and leaves m 2, at m+14; 2*8+1 is 17. b with t: 2*3+2*3+1 is 13 and leaves m 7, at m+9; 2*4+2*4+1 is 17.
    assert_eq!(smallest(Repairable, 7, 0, 2), Ok((16, 9)));
    assert_eq!(smallest(Repairable, 7, 0, 3), Err(Refusal::Wish));
    assert_eq!(smallest(Repairable, 8, 0, 1), Err(Refusal::Wish));
    assert_eq!(smallest(Repairable, 3, 3, 7), Ok((16, 10)));
    assert_eq!(smallest(Repairable, 3, 3, 8), Err(Refusal::Wish));
    assert_eq!(smallest(Repairable, 4, 4, 1), Err(Refusal::Wish));
    // Non-repair. 3*5+1 is 16, and m+10 too at m 6; 3*6+1 is 19. 3*2+3*2+1 is 13 and leaves m 10, at m+6; 3*3+3*3+1 is 19.
    assert_eq!(smallest(NonRepair, 5, 0, 6), Ok((16, 6)));
    assert_eq!(smallest(NonRepair, 5, 0, 7), Err(Refusal::Wish));
    assert_eq!(smallest(NonRepair, 6, 0, 1), Err(Refusal::Wish));
    assert_eq!(smallest(NonRepair, 2, 2, 10), Ok((16, 8)));
    assert_eq!(smallest(NonRepair, 2, 2, 11), Err(Refusal::Wish));
    assert_eq!(smallest(NonRepair, 3, 3, 1), Err(Refusal::Wish));
    // m alone: with t 0 and b 0 it is N for both.
    for member in [Repairable, NonRepair] {
        assert_eq!(smallest(member, 0, 0, 16), Ok((16, 16)));
        assert_eq!(smallest(member, 0, 0, 17), Err(Refusal::Wish));
        assert_eq!(smallest(member, 5, 5, 1), Err(Refusal::Wish));
    }
}

#[test]
fn wishes_that_no_plan_is_for() {
    for member in [Repairable, NonRepair] {
        assert_eq!(smallest(member, 1, 2, 1), Err(Refusal::Plan));
        assert_eq!(smallest(member, 0, 0, 0), Err(Refusal::Plan));
        // 1 comes before 20.
        assert_eq!(smallest(member, 8, 9, 1), Err(Refusal::Plan));
        assert_eq!(smallest(member, 8, 0, 0), Err(Refusal::Plan));
    }
}

#[test]
fn the_greatest_numbers() {
    const MOST: u64 = u64::MAX;
    for member in [Repairable, NonRepair] {
        for wish in [(MOST, 0, 1), (MOST, MOST, 1), (0, 0, MOST), (MOST, MOST, MOST), (1 << 63, 1 << 63, 2)] {
            assert_eq!(smallest(member, wish.0, wish.1, wish.2), Err(Refusal::Wish), "{wish:?}");
        }
        assert_eq!(smallest(member, MOST - 1, MOST, 1), Err(Refusal::Plan));
        assert_eq!(smallest(member, MOST, MOST, 0), Err(Refusal::Plan));
        // What would be small again if a byte alone were looked at.
        assert_eq!(smallest(member, 256, 0, 1), Err(Refusal::Wish));
        assert_eq!(smallest(member, 0, 0, 257), Err(Refusal::Wish));
    }
}

/// 1, 2, 20 in this order, and the bytes stay.
#[test]
fn refusals_leave_the_counts() {
    for (member, t, m, length, refusal) in [
        (2, 1, 2, COUNTS_SIZE, 1),
        (255, 1, 2, COUNTS_SIZE, 1),
        (2, 8, 1, 3, 1),
        (0, 8, 0, 3, 1),
        (0, 1, 2, 0, 2),
        (0, 1, 2, 1, 2),
        (1, 1, 2, 3, 2),
        (1, 8, 1, 3, 2),
        (0, 8, 1, COUNTS_SIZE, 20),
    ] {
        let mut counts = [0xaa; 4];
        let answer = raw::smallest_plan(member, t, 1, m, &mut counts[..length]);
        assert_eq!((answer, counts), (refusal, [0xaa; 4]), "member {member}, t {t}, m {m}, {length} bytes");
    }
    let mut counts = [0xaa; 4];
    assert_eq!((raw::smallest_plan(0, 1, 1, 2, &mut counts[1..3]), counts), (0, [0xaa, 5, 3, 0xaa]));
}

/// The first that is accepted, N by N and for each N Q by Q, by the library's check of plans.
fn first_accepted(member: Member, t: u8, b: u8, m: u8) -> Option<(u8, u8)> {
    let accepted = |n: u8, q: u8| Plan { n, t, b, q, m, member, ..Plan::default() }.check().is_ok();
    (1..=16).flat_map(|n| (0..=17).map(move |q| (n, q))).find(|(n, q)| accepted(*n, *q))
}

/// No plan has t or b above 7, or m above 16; one more of each is tried here.
#[test]
fn the_first_of_all_plans() {
    for (t, b, m) in (0..=8).flat_map(|t| (0..=8).flat_map(move |b| (0..=17).map(move |m| (t, b, m)))) {
        for member in [Repairable, NonRepair] {
            let wanted = match first_accepted(member, t, b, m) {
                Some(counts) => Ok(counts),
                None if b > t || m == 0 => Err(Refusal::Plan),
                None => Err(Refusal::Wish),
            };
            assert_eq!(smallest(member, t.into(), b.into(), m.into()), wanted, "{member:?}, t {t}, b {b}, m {m}");
        }
    }
}

/// A whole plan, which the library accepts; F, clients and W as they are given.
#[test]
fn a_plan_for_a_wish() {
    let wish = Wish { member: NonRepair, t: 2, b: 1, m: 3 };
    let plan = wish.plan(512, Clients::Byzantine, 9).expect("a plan");
    assert_eq!((plan.t, plan.b, plan.m, plan.member), (2, 1, 3, NonRepair));
    assert_eq!((plan.f, plan.clients, plan.w), (512, Clients::Byzantine, 9));
    assert_eq!((Ok((plan.n, plan.q)), plan.check()), (smallest(NonRepair, 2, 1, 3), Ok(())));
    assert_eq!(wish.plan(0, Clients::Crash, 9).map(|plan| plan.check()), Ok(Err(Refusal::Plan)));
    assert_eq!(Wish { m: 0, ..wish }.plan(4, Clients::Crash, 1), Err(Refusal::Plan));
    assert_eq!(Wish { member: Repairable, t: 1, b: 1, m: 2 }.plan(1024, Clients::Crash, 16), Ok(Plan::default()));
}
