//! The published vectors of FIPS 180-4 and the examples of FIPS 197, section 4.

use second::driver::hex;
use second::field::{inverse, product, xtime};
use second::sha256::sha256;

#[test]
fn fips_180_4_one_block() {
    assert_eq!(hex(&sha256(b"abc")), "ba7816bf8f01cfea414140de5dae2223b00361a396177a9cb410ff61f20015ad");
}

#[test]
fn fips_180_4_two_blocks() {
    let message = b"abcdbcdecdefdefgefghfghighijhijkijkljklmklmnlmnomnopnopq";
    assert_eq!(hex(&sha256(message)), "248d6a61d20638b8e5c026930c3e6039a33ce45964ff2167f6ecedd419db06c1");
}

#[test]
fn fips_180_4_a_million_letters() {
    let digest = "cdc76e5c9914fb9281a1c7e284d73e67f1809a48a497200e046d39ccc7112cd0";
    assert_eq!(hex(&sha256(&[b'a'; 1_000_000])), digest);
}

/// The example vectors of the validation system that goes with FIPS 180-4: no byte, one byte.
#[test]
fn short_messages() {
    assert_eq!(hex(&sha256(b"")), "e3b0c44298fc1c149afbf4c8996fb92427ae41e4649b934ca495991b7852b855");
    assert_eq!(hex(&sha256(&[0xbd])), "68325720aabd7c82f30f554b313d0570c95accbb7dc4b5aae11204c08ffe732b");
}

#[test]
fn fips_197_sum_and_products() {
    assert_eq!(0x57 ^ 0x83, 0xd4);
    assert_eq!(product(0x57, 0x83), 0xc1);
    assert_eq!(product(0x57, 0x13), 0xfe);
    assert_eq!([xtime(0x57), xtime(0xae), xtime(0x47), xtime(0x8e)], [0xae, 0x47, 0x8e, 0x07]);
}

/// Section 4.3: {03}x^3 + {01}x^2 + {01}x + {02} and {0b}x^3 + {0d}x^2 + {09}x + {0e} are inverse modulo x^4 + 1.
#[test]
fn fips_197_four_term_inverse() {
    let (a, b) = ([0x02, 0x01, 0x01, 0x03], [0x0e, 0x09, 0x0d, 0x0b]);
    let mut c = [0; 4];
    for (i, a) in a.iter().enumerate() {
        for (j, b) in b.iter().enumerate() {
            c[(i + j) % 4] ^= product(*a, *b);
        }
    }
    assert_eq!(c, [1, 0, 0, 0]);
}

/// Section 5.1.1: the inverse, then an affine map; {53} goes to {ed}, {00} to {63}.
#[test]
fn fips_197_substitution() {
    let map = |b: u8| (1..5).fold(b, |sum, bits| sum ^ b.rotate_left(bits)) ^ 0x63;
    assert_eq!(map(inverse(0x53)), 0xed);
    assert_eq!(map(0), 0x63);
}

#[test]
fn every_inverse() {
    assert!((1..=255).all(|a| product(a, inverse(a)) == 1));
}
