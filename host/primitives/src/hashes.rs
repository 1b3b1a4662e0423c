//! SHA-256 of the library against the second program and against `sha256sum`.
use crate::{done, library, refused, Checked};
use second::random::Random;
use second::sha256::sha256;
use std::process::Command;

/// Every split into prefix and slice of every length up to 300; longer messages at random lengths and places.
pub fn slices(random: &mut Random) -> Checked {
    let mut cases = 0;
    let mut one = |message: &[u8], split: usize, out: &[u8], want: &[u8]| {
        cases += 1;
        let what = format!("SHA-256 of {} bytes after a prefix of {split}", message.len() - split);
        done(&what, library::sha256(&message[..split], &message[split..], out), want)
    };
    for n in 0..=300 {
        let message = random.bytes(n);
        let want = sha256(&message);
        for split in 0..=n {
            one(&message, split, &random.bytes(32), &want)?;
        }
    }
    let pool = random.bytes(1 << 17);
    for _ in 0..1500 {
        let n = random.within(301, 1 << 16);
        let start = random.within(0, 1 << 16);
        let message = &pool[start..start + n];
        let most = if random.within(0, 1) == 0 { 40 } else { n };
        one(message, random.within(0, most), &random.bytes(32), &sha256(message))?;
    }
    Ok(cases)
}

/// Messages side by side: every number of them up to 16 at every length up to 1,024 by turns, each after a prefix of up to 16 bytes.
pub fn side_by_side(random: &mut Random) -> Checked {
    let mut cases = 0;
    for f in 1..=1024 {
        for count in [1 + f % 16, random.within(1, 16)] {
            let h = if random.within(0, 1) == 0 { 0 } else { random.within(0, 16) };
            let (heads, bodies) = (random.bytes(count * h), random.bytes(count * f));
            let message = |i: usize| [&heads[i * h..(i + 1) * h], &bodies[i * f..(i + 1) * f]].concat();
            let want: Vec<u8> = (0..count).flat_map(|i| sha256(&message(i))).collect();
            let what = format!("{count} hashes of {f} bytes after prefixes of {h}");
            done(&what, library::hashes(&heads, h, &bodies, f, count, &random.bytes(32 * count)), &want)?;
            cases += count;
        }
    }
    Ok(cases)
}

/// The hash that `sha256sum` prints of a file `path` with these bytes.
pub fn by_tool(path: &str, bytes: &[u8]) -> Result<Vec<u8>, String> {
    std::fs::write(path, bytes).map_err(|e| format!("{path}: {e}"))?;
    let told = Command::new("sha256sum").arg(path).output().map_err(|e| format!("sha256sum: {e}"))?;
    let text = String::from_utf8_lossy(&told.stdout).into_owned();
    let hash: Vec<u8> = (0..32).filter_map(|i| u8::from_str_radix(text.get(2 * i..2 * i + 2)?, 16).ok()).collect();
    if hash.len() == 32 {
        Ok(hash)
    } else {
        Err(format!("sha256sum {path} printed no hash"))
    }
}

/// A few files.
pub fn files(random: &mut Random, folder: &str) -> Checked {
    let lengths = [0, 1, 55, 56, 63, 64, 65, 1000, 65536, 1_000_003];
    for n in lengths {
        let path = format!("{folder}/{n}-bytes");
        let bytes = random.bytes(n);
        let want = by_tool(&path, &bytes)?;
        done(&format!("SHA-256 of {path} against sha256sum"), library::sha256(&[], &bytes, &[0; 32]), &want)?;
    }
    Ok(lengths.len())
}

/// Buffers that are not of 32 bytes; of messages side by side, one length too many or too few, and numbers out of their ranges.
pub fn refusals(random: &mut Random) -> Checked {
    let rooms: Vec<usize> = (0..=100).filter(|&room| room != 32).collect();
    for &room in &rooms {
        let out = random.bytes(room);
        refused(&format!("SHA-256 into {room} bytes"), library::sha256(&out, &out, &out), &out)?;
    }
    // heads, h, bodies, f, count, out
    let wrong = [
        (16, 8, 20, 10, 2, 65),
        (16, 8, 20, 10, 2, 63),
        (16, 8, 21, 10, 2, 64),
        (15, 8, 20, 10, 2, 64),
        (34, 17, 20, 10, 2, 64),
        (0, 0, 0, 0, 2, 64),
        (0, 0, 2050, 1025, 2, 64),
        (0, 0, 0, 10, 0, 0),
        (0, 0, 170, 10, 17, 544),
        (0, usize::MAX, 10, 10, 1, 32),
        (0, 0, 10, usize::MAX, 1, 32),
    ];
    for (heads, h, bodies, f, count, room) in wrong {
        let (heads, bodies, out) = (random.bytes(heads), random.bytes(bodies), random.bytes(room));
        let what = format!("{count} hashes of {f} bytes after prefixes of {h} into {room} bytes");
        refused(&what, library::hashes(&heads, h, &bodies, f, count, &out), &out)?;
    }
    Ok(rooms.len() + wrong.len())
}
