//! The field of FIPS 197, section 4.2: bytes as polynomials over two elements, modulo x^8 + x^4 + x^3 + x + 1. No tables: products
//! shift and reduce, inverses are powers. A sum, and a difference, is the exclusive or.

/// FIPS 197 section 4.2.1: times {02}.
pub fn xtime(a: u8) -> u8 {
    let shifted = a << 1;
    if a & 0x80 == 0 {
        shifted
    } else {
        shifted ^ 0x1b
    }
}

pub fn product(a: u8, b: u8) -> u8 {
    let (mut sum, mut shifted) = (0, a);
    for bit in 0..8 {
        if b >> bit & 1 == 1 {
            sum ^= shifted;
        }
        shifted = xtime(shifted);
    }
    sum
}

/// The element whose product with `a` is {01}, for a other than {00}: a^254, since a^255 = {01}.
pub fn inverse(a: u8) -> u8 {
    (0..254).fold(1, |power, _| product(power, a))
}
