//! What lies in the books of a site, once nobody writes them.

use crate::{Outcome, Site};
use std::collections::BTreeMap;
use std::fs;

/// The bytes of a timestamp, and those before the first record of a book.
const STAMP: usize = 40;
const HEAD: usize = 11;

/// How many books hold each timestamp.
pub fn holders(site: &Site) -> Outcome<BTreeMap<Vec<u8>, usize>> {
    let mut held = BTreeMap::new();
    for node in 0..site.nodes() {
        let path = site.book(node);
        let book = fs::read(&path).map_err(|error| format!("{}: {error}", path.display()))?;
        let used = book.first_chunk().map_or(0, |length| 4 + u32::from_be_bytes(*length) as usize);
        let records = book.get(HEAD..used).ok_or(format!("{}: this is no book", path.display()))?;
        for record in records.chunks_exact(site.record) {
            *held.entry(record[..STAMP].to_vec()).or_insert(0) += 1;
        }
    }
    Ok(held)
}
