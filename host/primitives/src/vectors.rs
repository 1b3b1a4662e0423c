//! The stored output of the program `vectors`, line by line: its hashes against those that `sha256sum` prints, its products and columns
//! against the field of the second program and a fragment code by elimination.
use crate::{field, hashes, hex, Checked};
use second::field::product;

/// The message of each hash that is stored.
fn message(name: &str) -> Option<Vec<u8>> {
    let bits_448 = "abcdbcdecdefdefgefghfghighijhijkijkljklmklmnlmnomnopnopq";
    let bits_896 = "abcdefghbcdefghicdefghijdefghijkefghijklfghijklmghijklmnhijklmnoijklmnopjklmnopqklmnopqrlmnopqrsmnopqrstnopqrstu";
    match name {
        "empty" => Some(Vec::new()),
        "abc" | "abc-after-ab" => Some(b"abc".to_vec()),
        "448-bits" => Some(bits_448.into()),
        "896-bits" => Some(bits_896.into()),
        "million-a" => Some(vec![b'a'; 1_000_000]),
        "55-a-from-the-middle" => Some(vec![b'a'; 55]),
        _ => None,
    }
}

/// What the stored line ought to say after its last space, or nothing where no such line is known.
fn ought(words: &[&str], folder: &str) -> Option<Result<String, String>> {
    let byte = |word: &str| u8::from_str_radix(word, 16).ok();
    match words {
        ["SHA-256", name, stored, "side", "by", "side", count] => {
            let path = format!("{folder}/{name}");
            let hash = hashes::by_tool(&path, &message(name)?).map(|hash| hex(&hash));
            Some(hash.and_then(|hash| match (hash == *stored, *count) {
                (true, "13") => Ok("13".to_string()),
                (true, _) => Err("not all that were hashed side by side are alike".to_string()),
                (false, _) => Err(format!("its hash is {hash}")),
            }))
        }
        [a, "+", b, "=", _] => Some(Ok(hex(&[byte(a)? ^ byte(b)?]))),
        [a, "*", b, "=", _] => Some(Ok(hex(&[product(byte(a)?, byte(b)?)]))),
        ["column", fragments, "back", item] => {
            let column = [vec![byte(item.get(..2)?)?], vec![byte(item.get(2..)?)?]];
            let encoded = hex(&field::runs_through(&[0, 1], &column, 5));
            Some(if encoded == *fragments { Ok(item.to_string()) } else { Err(format!("its fragments are {encoded}")) })
        }
        _ => None,
    }
}

/// Every line of the file `stored`.
pub fn stored(stored: &str, folder: &str) -> Checked {
    let text = std::fs::read_to_string(stored).map_err(|e| format!("{stored}: {e}"))?;
    for line in text.lines() {
        let words: Vec<&str> = line.split(' ').collect();
        let fault = |why: &str| format!("{stored}: \"{line}\": {why}");
        let want = ought(&words, folder).ok_or_else(|| fault("no such line is known"))?.map_err(|e| fault(&e))?;
        if words.last() != Some(&want.as_str()) {
            return Err(fault(&format!("it ought to end in {want}")));
        }
    }
    Ok(text.lines().count())
}
