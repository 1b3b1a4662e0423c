//! The smallest plan for a wish: document 02, Q-1, and the rows of document 01's table of edges that it goes back to.

use second::wire::{self, plan_bytes, plan_from};

const LAST: u64 = u64::MAX;
const REPAIRABLE: u8 = 0;
const NON_REPAIR: u8 = 1;

/// N and Q, or the refusal, which changes nothing.
fn smallest(member: u8, t: u64, b: u64, m: u64) -> Result<(u8, u8), u32> {
    let mut counts = [0xee; wire::COUNTS];
    match wire::smallest_plan(member, t, b, m, &mut counts) {
        0 => Ok(counts.into()),
        refusal => {
            assert_eq!(counts, [0xee; wire::COUNTS], "a refusal changed a byte");
            Err(refusal)
        }
    }
}

/// Whether a plan's bytes with these counts are accepted where they are used.
fn accepted(member: u8, [n, t, b, q, m]: [u8; 5], f: u16, clients: u8, w: u16) -> bool {
    let [f, w] = [f, w].map(u16::to_be_bytes);
    let plan = [n, t, b, q, m, f[0], f[1], member, clients, w[0], w[1]];
    assert_eq!(plan_from(&plan).map(|plan| plan_bytes(&plan)), Some(plan));
    wire::open_read(&plan, 0, &mut [0; wire::SESSION]) == 0
}

fn small_wishes() -> impl Iterator<Item = (u8, [u8; 3])> {
    let of =
        |member| (0..=20).flat_map(move |t| (0..=20).flat_map(move |b| (0..=20).map(move |m| (member, [t, b, m]))));
    [REPAIRABLE, NON_REPAIR].into_iter().flat_map(of)
}

#[test]
fn plans_of_the_table() {
    assert_eq!(smallest(REPAIRABLE, 1, 1, 2), Ok((5, 3)));
    assert_eq!(smallest(NON_REPAIR, 1, 1, 4), Ok((7, 3)));
    assert_eq!(smallest(REPAIRABLE, 0, 0, 1), Ok((1, 1)));
    assert_eq!(smallest(NON_REPAIR, 0, 0, 1), Ok((1, 1)));
}

/// The table's other sides: m3 of the first plan and m5 of the second need a greater Q, so a greater N.
#[test]
fn one_past_the_plans_of_the_table() {
    assert_eq!(smallest(REPAIRABLE, 1, 1, 3), Ok((6, 4)));
    assert_eq!(smallest(NON_REPAIR, 1, 1, 5), Ok((8, 4)));
    assert_eq!(smallest(REPAIRABLE, 1, 2, 1), Err(1));
    assert_eq!(smallest(NON_REPAIR, 1, 2, 1), Err(1));
}

#[test]
fn wishes_that_are_none() {
    for member in [REPAIRABLE, NON_REPAIR] {
        for (t, b, m) in [(0, 0, 0), (1, 1, 0), (0, 1, 1), (LAST - 1, LAST, 1), (LAST, LAST, 0), (0, LAST, LAST)] {
            assert_eq!(smallest(member, t, b, m), Err(1), "t {t} b {b} m {m}");
        }
    }
    for member in [2, 3, 128, 255] {
        assert_eq!(smallest(member, 1, 1, 2), Err(1), "member {member}");
    }
}

/// Sixteen nodes are the most, by each rule that can ask for a seventeenth.
#[test]
fn the_greatest_plans() {
    for member in [REPAIRABLE, NON_REPAIR] {
        assert_eq!((smallest(member, 0, 0, 16), smallest(member, 0, 0, 17)), (Ok((16, 16)), Err(20)));
        assert_eq!((smallest(member, 2, 1, 11).map(|(n, _)| n), smallest(member, 2, 1, 12)), (Ok(16), Err(20)));
        assert_eq!(smallest(member, 5, 5, 1), Err(20));
    }
    assert_eq!((smallest(REPAIRABLE, 7, 0, 1), smallest(REPAIRABLE, 8, 0, 1)), (Ok((15, 8)), Err(20)));
    assert_eq!((smallest(REPAIRABLE, 7, 0, 2), smallest(REPAIRABLE, 7, 0, 3)), (Ok((16, 9)), Err(20)));
    assert_eq!((smallest(NON_REPAIR, 5, 0, 1), smallest(NON_REPAIR, 6, 0, 1)), (Ok((16, 6)), Err(20)));
    assert_eq!((smallest(NON_REPAIR, 3, 2, 8), smallest(NON_REPAIR, 3, 2, 9)), (Ok((16, 6)), Err(20)));
}

/// Sums that pass 2^64 and would come out small.
#[test]
fn numbers_of_64_bits() {
    let (half, third) = (1 << 63, LAST / 3);
    for member in [REPAIRABLE, NON_REPAIR] {
        for (t, b, m) in [
            (LAST, LAST, LAST),
            (LAST, 0, 1),
            (LAST, 1, 1),
            (0, 0, LAST),
            (1, 1, LAST),
            (half, half, 1),
            (half, 0, 1),
            (third + 1, 0, 1),
            (third + 1, third, 1),
            (1, 0, LAST - 1),
            (half, 0, half),
        ] {
            assert_eq!(smallest(member, t, b, m), Err(20), "t {t} b {b} m {m}");
        }
        for high in [8, 16, 32, 63] {
            assert_eq!(smallest(member, 1 << high | 1, 1, 2), Err(20), "bit {high} of t");
            assert_eq!(smallest(member, 1, 1 << high | 1, 2), Err(1), "bit {high} of b");
            assert_eq!(smallest(member, 1, 1, 1 << high | 2), Err(20), "bit {high} of m");
        }
    }
}

/// 1, 2, 20.
#[test]
fn order_of_refusals() {
    for length in [0, 1, 3, 11] {
        let answer = |member, t, b, m| {
            let mut counts = vec![0xee; length];
            let number = wire::smallest_plan(member, t, b, m, &mut counts);
            assert_eq!(counts, vec![0xee; length], "a refusal changed a byte");
            number
        };
        assert_eq!(answer(REPAIRABLE, 1, 1, 2), 2);
        assert_eq!(answer(REPAIRABLE, 5, 5, 1), 2, "2 before 20");
        assert_eq!(answer(2, 1, 1, 2), 1, "1 before 2");
        assert_eq!(answer(NON_REPAIR, 1, 2, 1), 1);
        assert_eq!(answer(NON_REPAIR, 1, 1, 0), 1);
    }
}

/// What is found is accepted by the other calls, whatever F, the clients and W; nothing smaller is, and nothing at all after 20.
#[test]
fn as_the_other_calls_accept() {
    for (member, [t, b, m]) in small_wishes() {
        let tried = (1..=16).flat_map(|n| (0..=16).map(move |q| (n, q)));
        let first = tried.into_iter().find(|(n, q)| accepted(member, [*n, t, b, *q, m], 1, 0, 1));
        let found = smallest(member, t.into(), b.into(), m.into());
        let expected = if b > t || m == 0 { Err(1) } else { first.ok_or(20) };
        assert_eq!(found, expected, "member {member} t {t} b {b} m {m}");
        let Ok((n, q)) = found else { continue };
        for (f, clients, w) in [(1024, 1, 65_535), (1, 1, 1), (300, 0, 2)] {
            assert!(accepted(member, [n, t, b, q, m], f, clients, w), "F {f} clients {clients} W {w}");
        }
    }
}

/// Q-1's own sentence: for repairable members N is the larger of 2t+2b+1 and m+2t+b.
#[test]
fn repairable_members() {
    let mut found = 0;
    for (member, [t, b, m]) in small_wishes().filter(|(member, [t, b, m])| *member == REPAIRABLE && b <= t && *m > 0) {
        let n = (2 * t + 2 * b + 1).max(m + 2 * t + b);
        let smallest = smallest(member, t.into(), b.into(), m.into()).map(|(n, _)| n);
        assert_eq!(smallest, if n <= 16 { Ok(n) } else { Err(20) }, "t {t} b {b} m {m}");
        found += u32::from(n <= 16);
    }
    assert!(found > 0);
}
