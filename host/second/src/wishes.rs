//! Wishes as calls for the smallest plan: every small one, ones of 64 bits, and those between the histories of a run.

use crate::driver::{Driver, Maker, Stop, ENOUGH};
use crate::library::{Call, Kind, Library};
use crate::random::Random;
use crate::wire::COUNTS;
use crate::wish::Wish;

/// The greatest t, b and m of a small wish.
const SMALL: u64 = 20;
/// The wishes of 64 bits in a comparison.
const WIDE: usize = 10_000;
/// The wishes after each history.
const SOME: usize = 40;

/// The wishes of a comparison, made by a maker.
type Wishes = fn(&mut Random, &mut dyn Maker) -> Result<(), Stop>;

/// Every small wish and then those of 64 bits at both libraries, and a line of how often each answer was met. The error names a wish on
/// which they differ, or an answer met too seldom.
pub fn compare(first: &mut dyn Library, other: &mut dyn Library, seed: u64) -> Result<String, String> {
    let parts: [(&str, Wishes); 2] = [("with t, b, m 0 to 20", small), ("of 64 bits", wide)];
    let mut told = Vec::new();
    for (name, wishes) in parts {
        let mut driver = Driver::new(first, other, seed, u64::MAX);
        if let Err(Stop::Wrong(why)) = wishes(&mut Random::new(seed), &mut driver) {
            return Err(why);
        }
        // each is lent two bytes, so there is no answer 2
        let met = [0, 1, 20].map(|answer| (answer, driver.met(Kind::SmallestPlan, answer)));
        if let Some((answer, met)) = met.iter().find(|(_, met)| *met < ENOUGH) {
            return Err(format!("wishes {name}: answer {answer} met {met} times, fewer than {ENOUGH}"));
        }
        let met = met.map(|(answer, met)| format!("answer {answer} {met} times"));
        told.push(format!("{} {name}: {}", driver.made, met.join(", ")));
    }
    Ok(told.join("; "))
}

/// Every wish of both members with t, b and m from 0 to 20, lent two bytes.
pub fn small(random: &mut Random, maker: &mut dyn Maker) -> Result<(), Stop> {
    let numbers = || 0..=SMALL;
    for member in [0, 1] {
        for t in numbers() {
            for (b, m) in numbers().flat_map(|b| numbers().map(move |m| (b, m))) {
                maker.make(Call::of_wish(Wish { member, t, b, m }, random.bytes(COUNTS)))?;
            }
        }
    }
    Ok(())
}

/// Ten thousand wishes of both members and 64 bits, lent two bytes.
pub fn wide(random: &mut Random, maker: &mut dyn Maker) -> Result<(), Stop> {
    for _ in 0..WIDE {
        let member = random.pick(&[0, 1]);
        let wish = wide_wish(random, member);
        maker.make(Call::of_wish(wish, random.bytes(COUNTS)))?;
    }
    Ok(())
}

/// Wishes of any size and member, lent two bytes or not.
pub fn some(random: &mut Random, maker: &mut dyn Maker) -> Result<(), Stop> {
    for _ in 0..SOME {
        let member = random.pick(&[0, 0, 0, 0, 1, 1, 1, 1, 2, 255]);
        let wish = if random.chance(70) { near_wish(random, member) } else { wide_wish(random, member) };
        let length = if random.chance(80) { COUNTS } else { random.pick(&[0, 1, 3, 11, 16]) };
        maker.make(Call::of_wish(wish, random.bytes(length)))?;
    }
    Ok(())
}

/// A wish near the edges of what sixteen nodes can do.
fn near_wish(random: &mut Random, member: u8) -> Wish {
    let t = random.pick(&[0, 1, 1, 2, 2, 3, 4, 5, 7, 8]);
    let b = if random.chance(20) { t + random.below(2) } else { random.within(0, t.min(2)) };
    let most = random.pick(&[2, 6, 17]);
    let m = if random.chance(10) { 0 } else { random.within(1, most) };
    let [t, b, m] = [t, b, m].map(|number| number as u64);
    Wish { member, t, b, m }
}

/// A wish of 64 bits, often one whose sums pass 2^64 and come out small.
fn wide_wish(random: &mut Random, member: u8) -> Wish {
    let (few, little) = (random.below(18) as u64, random.below(18) as u64);
    let t = wide_number(random);
    let b = match random.below(4) {
        0 => t,
        1 => random.number() % t.max(1),
        2 => few,
        _ => wide_number(random),
    };
    let m = match random.below(5) {
        0 => little.wrapping_sub(t),
        1 => little.wrapping_sub(t.wrapping_mul(2)).wrapping_sub(b),
        2 | 3 => little,
        _ => wide_number(random),
    };
    Wish { member, t, b, m }
}

/// Any number of 64 bits or fewer; or one beside 0, the end, a power of two or a third of the end, where a small multiple passes it.
fn wide_number(random: &mut Random) -> u64 {
    let bits = random.below(64);
    let edge = match random.below(8) {
        0 | 1 => return random.number(),
        2 => return random.number() >> bits,
        3 => return random.within(0, 3) as u64,
        4 => 1 << bits,
        5 => random.pick(&[1 << 63, 1 << 62, 3 << 62]),
        6 => u64::MAX / 3 * random.pick(&[1, 2]),
        _ => 0,
    };
    let away = random.pick(&[2, 16]);
    edge.wrapping_add(random.within(0, 2 * away) as u64).wrapping_sub(away as u64)
}
