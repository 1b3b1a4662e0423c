//! The numbers that a call can answer, as this program's own table has them, are those of the theorems on the calls for a host.

use std::collections::BTreeSet;
use std::fs;

use second::library::Kind;

const THEOREMS: &str = concat!(env!("CARGO_MANIFEST_DIR"), "/../../crates/demands/proofs/Refusals.antt");

/// The numbers of the list `0 ∷ 1 ∷ []` that follows these words.
fn list(text: &str, words: &str) -> BTreeSet<u32> {
    let (_, rest) = text.split_once(words).unwrap_or_else(|| panic!("no {words}"));
    let (numbers, _) = rest.split_once("∷ []").expect("a list");
    numbers.split('∷').map(|number| number.trim().parse().expect("a number")).collect()
}

#[test]
fn numbers_of_the_theorems() {
    let text = fs::read_to_string(THEOREMS).expect("the theorems");
    for (kind, words) in [
        (Kind::FreshBook, "host_fresh_numbers : one_of r ("),
        (Kind::Node, "host_node_numbers : one_of r ("),
        (Kind::OpenWrite, "host_open_numbers : one_of r ("),
        (Kind::OpenRead, "host_open_numbers : one_of r ("),
        (Kind::Owed, "host_owed_numbers : one_of r ("),
        (Kind::WriteReply, "write_set = "),
        (Kind::ReadReply, "read_set = "),
        (Kind::SmallestPlan, "host_wish_numbers : one_of r ("),
        (Kind::Run, "host_run_numbers : one_of r ("),
    ] {
        let table: BTreeSet<u32> = kind.answers().iter().copied().collect();
        assert_eq!(table, list(&text, words), "{}", kind.name());
    }
}
