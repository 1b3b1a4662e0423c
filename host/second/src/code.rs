//! The fragment code (document 01, "Fragments"): for each byte position one polynomial of degree below m, taken at the points 0 to N-1.

use crate::field::{inverse, product};
use crate::plan::Plan;
use crate::sha256::sha256;

/// A fragment with its number, which is its point.
pub type Share<'a> = (usize, &'a [u8]);

/// Lagrange: what the value at `points[i]` weighs in the value at `point`.
fn weight(points: &[u8], i: usize, point: u8) -> u8 {
    let (mut above, mut below) = (1, 1);
    for (j, &other) in points.iter().enumerate() {
        if j != i {
            above = product(above, point ^ other);
            below = product(below, points[i] ^ other);
        }
    }
    product(above, inverse(below))
}

/// Fragment number `number` of the one item that has these m fragments.
pub fn fragment(shares: &[Share], number: usize) -> Vec<u8> {
    let points: Vec<u8> = shares.iter().map(|share| share.0 as u8).collect();
    let mut sum = vec![0; shares[0].1.len()];
    for (i, (_, bytes)) in shares.iter().enumerate() {
        let weight = weight(&points, i, number as u8);
        for (total, byte) in sum.iter_mut().zip(bytes.iter()) {
            *total ^= product(weight, *byte);
        }
    }
    sum
}

/// All N fragments, from any m of them.
pub fn regenerate(plan: &Plan, shares: &[Share]) -> Vec<Vec<u8>> {
    (0..plan.n).map(|number| fragment(shares, number)).collect()
}

/// All N fragments of an item, whose m runs are fragments 0 to m-1.
pub fn encode(plan: &Plan, item: &[u8]) -> Vec<Vec<u8>> {
    let runs: Vec<Share> = item.chunks_exact(plan.f).enumerate().collect();
    regenerate(plan, &runs)
}

/// The item, from any m fragments.
pub fn decode(plan: &Plan, shares: &[Share]) -> Vec<u8> {
    (0..plan.m).flat_map(|number| fragment(shares, number)).collect()
}

/// The N hashes in node order.
pub fn cross_checksum(fragments: &[Vec<u8>]) -> Vec<u8> {
    fragments.iter().flat_map(|fragment| sha256(fragment)).collect()
}
