//! SHA-256 in the textbook form (FIPS 180-4, sections 4.1.2, 5.1.1, 5.3.3, 6.2.2). The constants are not typed in: they are computed
//! from their rule, the first 32 bits of the fractional parts of the roots of the first primes.

const PRIMES: [u128; 64] = first_primes();
/// 4.2.2: cube roots of the first sixty-four primes.
const K: [u32; 64] = fractions::<64>(3);
/// 5.3.3: square roots of the first eight primes.
const H0: [u32; 8] = fractions::<8>(2);

const fn first_primes() -> [u128; 64] {
    let mut primes = [0; 64];
    let (mut found, mut number) = (0, 2);
    while found < 64 {
        let mut divisor = 2;
        while number % divisor != 0 {
            divisor += 1;
        }
        if divisor == number {
            primes[found] = number;
            found += 1;
        }
        number += 1;
    }
    primes
}

const fn fractions<const LEN: usize>(degree: u32) -> [u32; LEN] {
    let mut words = [0; LEN];
    let mut i = 0;
    while i < LEN {
        words[i] = root_fraction(PRIMES[i], degree);
        i += 1;
    }
    words
}

/// The greatest r with r^degree <= prime * 2^(32*degree) is the root times 2^32, rounded down; its low 32 bits are the fraction.
const fn root_fraction(prime: u128, degree: u32) -> u32 {
    let target = prime << (32 * degree);
    let (mut low, mut high) = (0u128, 1u128 << 38);
    while high - low > 1 {
        let middle = (low + high) / 2;
        if middle.pow(degree) <= target {
            low = middle;
        } else {
            high = middle;
        }
    }
    low as u32
}

/// 5.1.1: a one bit, zeros, and the length in bits as 64 bits, to a multiple of 64 bytes.
fn padded(message: &[u8]) -> Vec<u8> {
    let mut bytes = message.to_vec();
    bytes.push(0x80);
    while bytes.len() % 64 != 56 {
        bytes.push(0);
    }
    bytes.extend_from_slice(&(8 * message.len() as u64).to_be_bytes());
    bytes
}

/// 6.2.2, step 1.
fn schedule(block: &[u8]) -> [u32; 64] {
    let mut w = [0u32; 64];
    for (word, four) in w.iter_mut().zip(block.chunks_exact(4)) {
        *word = u32::from_be_bytes([four[0], four[1], four[2], four[3]]);
    }
    for t in 16..64 {
        let s0 = w[t - 15].rotate_right(7) ^ w[t - 15].rotate_right(18) ^ (w[t - 15] >> 3);
        let s1 = w[t - 2].rotate_right(17) ^ w[t - 2].rotate_right(19) ^ (w[t - 2] >> 10);
        w[t] = s1.wrapping_add(w[t - 7]).wrapping_add(s0).wrapping_add(w[t - 16]);
    }
    w
}

/// 6.2.2, steps 2 to 4.
fn compress(hash: &mut [u32; 8], block: &[u8]) {
    let w = schedule(block);
    let [mut a, mut b, mut c, mut d, mut e, mut f, mut g, mut h] = *hash;
    for t in 0..64 {
        let sum1 = e.rotate_right(6) ^ e.rotate_right(11) ^ e.rotate_right(25);
        let ch = (e & f) ^ (!e & g);
        let t1 = h.wrapping_add(sum1).wrapping_add(ch).wrapping_add(K[t]).wrapping_add(w[t]);
        let sum0 = a.rotate_right(2) ^ a.rotate_right(13) ^ a.rotate_right(22);
        let maj = (a & b) ^ (a & c) ^ (b & c);
        let t2 = sum0.wrapping_add(maj);
        (h, g, f, e) = (g, f, e, d.wrapping_add(t1));
        (d, c, b, a) = (c, b, a, t1.wrapping_add(t2));
    }
    for (word, add) in hash.iter_mut().zip([a, b, c, d, e, f, g, h]) {
        *word = word.wrapping_add(add);
    }
}

pub fn sha256(message: &[u8]) -> [u8; 32] {
    let mut hash = H0;
    for block in padded(message).chunks_exact(64) {
        compress(&mut hash, block);
    }
    let mut digest = [0; 32];
    for (four, word) in digest.chunks_exact_mut(4).zip(hash) {
        four.copy_from_slice(&word.to_be_bytes());
    }
    digest
}
