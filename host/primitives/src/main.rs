//! Compares the hash and the fragment code of the proved library, as they are linked into a host, with the second program's hash and field
//! (host/second) and a fragment code by elimination, and SHA-256 with the system's `sha256sum`; and so the stored output of the program
//! `vectors`. The first difference ends it with one line and status 1. `primitives STORED FOLDER`: STORED is that output; it writes below
//! FOLDER only.
mod code;
mod field;
mod hashes;
mod library;
mod vectors;

use library::Told;
use second::random::Random;
use std::process::ExitCode;

const SEED: u64 = 0x5eed_0197_0180_0004;

/// How many comparisons came out equal, or the first that did not, in words.
type Checked = Result<usize, String>;

/// `got` is the number 0 and the bytes `want`.
fn done(what: &str, got: Told, want: &[u8]) -> Result<(), String> {
    match got {
        Ok((0, bytes)) if bytes == want => Ok(()),
        Ok((0, bytes)) => {
            let at = (0..want.len()).find(|&i| bytes[i] != want[i]).unwrap_or(0);
            Err(format!("{what}: byte {at} is {:02x}, not {:02x}", bytes[at], want[at]))
        }
        Ok((number, _)) => Err(format!("{what}: answered {number}, not 0")),
        Err(fault) => Err(format!("{what}: {fault}")),
    }
}

/// `got` is refusal 2, and its buffer is as it came.
fn refused(what: &str, got: Told, before: &[u8]) -> Result<(), String> {
    match got {
        Ok((2, bytes)) if bytes == before => Ok(()),
        Ok((2, _)) => Err(format!("{what}: refused, but the buffer changed")),
        Ok((number, _)) => Err(format!("{what}: answered {number}, not 2")),
        Err(fault) => Err(format!("{what}: {fault}")),
    }
}

/// Bytes in hexadecimal.
fn hex(bytes: &[u8]) -> String {
    bytes.iter().map(|byte| format!("{byte:02x}")).collect()
}

fn all(stored: &str, folder: &str) -> Result<(), String> {
    let mut random = Random::new(SEED);
    println!("primitives: seed {SEED:#018x}");
    println!("primitives: SHA-256: {} hashes agree with the second program", hashes::slices(&mut random)?);
    println!("primitives: SHA-256: {} hashes side by side agree with it", hashes::side_by_side(&mut random)?);
    println!("primitives: SHA-256: {} files agree with sha256sum", hashes::files(&mut random, folder)?);
    println!("primitives: SHA-256: {} wrong lengths refused", hashes::refusals(&mut random)?);
    println!("primitives: fragments: {} items encoded as by elimination", code::encodings(&mut random)?);
    println!("primitives: fragments: {} choices of nodes decoded as there", code::decodings(&mut random)?);
    println!("primitives: fragments: {} items given back by m of their fragments", code::returns(&mut random)?);
    println!("primitives: fragments: {} wrong lengths and nodes refused", code::refusals(&mut random)?);
    println!("primitives: vectors: {} stored lines confirmed", vectors::stored(stored, folder)?);
    Ok(())
}

fn main() -> ExitCode {
    let words: Vec<String> = std::env::args().skip(1).collect();
    let [stored, folder] = words.as_slice() else {
        eprintln!("usage: primitives STORED FOLDER");
        return ExitCode::from(2);
    };
    match all(stored, folder) {
        Ok(()) => ExitCode::SUCCESS,
        Err(difference) => {
            eprintln!("primitives: DIFFERS: {difference}");
            ExitCode::FAILURE
        }
    }
}
