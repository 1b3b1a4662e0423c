//! Encoding and decoding of the library against those by elimination, and against each other.
use crate::{done, field, library, refused, Checked};
use second::random::Random;

/// The parts of `bytes`, each of `f` bytes.
fn runs(bytes: &[u8], f: usize) -> Vec<Vec<u8>> {
    bytes.chunks(f).map(<[u8]>::to_vec).collect()
}

/// The numbers below `n` whose bits are set in `set`, in a random order.
fn chosen(random: &mut Random, n: usize, set: usize) -> Vec<u8> {
    let mut nodes: Vec<u8> = (0..n as u8).filter(|&p| set >> p & 1 == 1).collect();
    for i in (1..nodes.len()).rev() {
        nodes.swap(i, random.within(0, i));
    }
    nodes
}

/// A fragment length: short in most cases, up to 1,024 in some.
fn some_length(random: &mut Random) -> usize {
    let most = if random.within(0, 15) == 0 { 1024 } else { 40 };
    random.within(1, most)
}

/// One random item encoded, over a desk of random bytes.
fn encoding(random: &mut Random, n: usize, m: usize, f: usize) -> Result<(), String> {
    let item = random.bytes(m * f);
    let points: Vec<u8> = (0..m as u8).collect();
    let want = field::runs_through(&points, &runs(&item, f), n);
    let what = format!("encode, N {n} m {m} F {f}");
    done(&what, library::encode(&item, n, m, f, &random.bytes(n * f)), &want)
}

/// Random items, for every N and m at random F, and for every F at random N and m: the library's loops take 32, 16, 8 or 1 bytes a turn.
pub fn encodings(random: &mut Random) -> Checked {
    let mut cases = 0;
    for n in 1..=16 {
        for m in 1..=n {
            for _ in 0..20 {
                let f = some_length(random);
                encoding(random, n, m, f)?;
                cases += 1;
            }
        }
    }
    for f in 1..=1024 {
        let n = random.within(1, 16);
        let m = random.within(1, n);
        encoding(random, n, m, f)?;
        cases += 1;
    }
    Ok(cases)
}

/// Every choice of nodes among 16, in a random order, over a desk of random bytes: an encoding or not, m fragments give one item.
pub fn decodings(random: &mut Random) -> Checked {
    let mut cases = 0;
    for set in 1..1 << 16 {
        let f = random.within(1, 4);
        let nodes = chosen(random, 16, set);
        let m = nodes.len();
        let desk = random.bytes(16 * f);
        let sources: Vec<Vec<u8>> = nodes.iter().map(|&p| desk[p as usize * f..][..f].to_vec()).collect();
        let want = field::runs_through(&nodes, &sources, m);
        let what = format!("decode, m {m} F {f} from nodes {nodes:?}");
        done(&what, library::decode(&desk, &nodes, m, f, &random.bytes(m * f)), &want)?;
        cases += 1;
    }
    Ok(cases)
}

/// One item encoded, all but the chosen fragments overwritten, and decoded.
fn returned(random: &mut Random, n: usize, f: usize, nodes: &[u8]) -> Result<(), String> {
    let m = nodes.len();
    let item = random.bytes(m * f);
    let what = format!("encode and decode, N {n} m {m} F {f} from nodes {nodes:?}");
    let (_, encoded) =
        library::encode(&item, n, m, f, &random.bytes(n * f)).map_err(|fault| format!("{what}: {fault}"))?;
    let mut desk = random.bytes(n * f);
    for &p in nodes {
        let at = p as usize * f;
        desk[at..at + f].copy_from_slice(&encoded[at..at + f]);
    }
    done(&what, library::decode(&desk, nodes, m, f, &random.bytes(m * f)), &item)
}

/// Every choice of m nodes for every N up to 8; random choices among more nodes, with longer fragments.
pub fn returns(random: &mut Random) -> Checked {
    let mut cases = 0;
    for n in 1..=8 {
        for set in 1..1 << n {
            let nodes = chosen(random, n, set);
            let f = some_length(random);
            returned(random, n, f, &nodes)?;
            cases += 1;
        }
    }
    for _ in 0..2000 {
        let n = random.within(9, 16);
        let set = random.within(1, (1 << n) - 1);
        let nodes = chosen(random, n, set);
        let f = some_length(random);
        returned(random, n, f, &nodes)?;
        cases += 1;
    }
    Ok(cases)
}

/// Each length one off, numbers outside their ranges, and nodes that are repeated, above 15 or outside the desk.
pub fn refusals(random: &mut Random) -> Checked {
    let mut cases = 0;
    let mut encode = |random: &mut Random, item: usize, n: usize, m: usize, f: usize, desk: usize| {
        cases += 1;
        let (item, desk) = (random.bytes(item), random.bytes(desk));
        let what = format!("encode {} bytes, N {n} m {m} F {f}, into {} bytes", item.len(), desk.len());
        refused(&what, library::encode(&item, n, m, f, &desk), &desk)
    };
    for (n, m, f) in [(1, 1, 1), (5, 2, 4), (16, 8, 1024), (16, 16, 3)] {
        encode(random, m * f - 1, n, m, f, n * f)?;
        encode(random, m * f + 1, n, m, f, n * f)?;
        encode(random, m * f, n, m, f, n * f - 1)?;
        encode(random, m * f, n, m, f, n * f + 1)?;
    }
    for (n, m, f) in [(0, 0, 4), (4, 0, 4), (4, 5, 4), (17, 4, 4), (17, 17, 4), (4, 2, 0), (4, 2, 1025)] {
        encode(random, m * f, n, m, f, n * f)?;
    }
    encode(random, 8, 5, usize::MAX, usize::MAX, 20)?;
    encode(random, 8, usize::MAX, 2, 4, 20)?;
    let mut decode = |random: &mut Random, desk: usize, nodes: &[u8], m: usize, f: usize, item: usize| {
        cases += 1;
        let (desk, item) = (random.bytes(desk), random.bytes(item));
        let what = format!("decode {} bytes, nodes {nodes:?}, m {m} F {f}, into {} bytes", desk.len(), item.len());
        refused(&what, library::decode(&desk, nodes, m, f, &item), &item)
    };
    for nodes in [[3, 3, 1], [1, 3, 3], [3, 1, 3], [16, 1, 2], [0, 1, 255], [0, 1, 5]] {
        decode(random, 20, &nodes, 3, 4, 12)?;
    }
    decode(random, 17 * 4, &[0, 1, 16], 3, 4, 12)?;
    decode(random, 19, &[0, 1, 4], 3, 4, 12)?;
    decode(random, 20, &[0, 1, 4], 3, 4, 11)?;
    decode(random, 20, &[0, 1, 4], 3, 4, 13)?;
    decode(random, 20, &[0, 1, 4], 2, 4, 8)?;
    decode(random, 20, &[0, 1, 4], 4, 4, 16)?;
    decode(random, 20, &[], 0, 4, 0)?;
    decode(random, 20, &[0, 1, 4], 3, 0, 0)?;
    decode(random, 5 * 1025, &[0, 1, 4], 3, 1025, 3 * 1025)?;
    decode(random, 20, &[0, 1, 4], 3, usize::MAX, 12)?;
    Ok(cases)
}
