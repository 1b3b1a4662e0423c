//! What is asked for on the command line.

use crate::server::Program;
use crate::wrong::{self, Wrong};
use std::ops::RangeInclusive;

pub const USAGE: &str =
    "usage: faults [own] SEEDS OPERATIONS [--still] [--wrong NAME] (--memory | [--serve] FOLDER -- KEEPER...)";

#[derive(Clone)]
pub struct Wanted {
    /// The harness's own test: all that are wrong.
    pub own: bool,
    pub seeds: RangeInclusive<u64>,
    pub operations: usize,
    pub still: bool,
    pub wrong: Option<(&'static str, Wrong)>,
    /// Whether what keeps the books is `sheet serve`.
    pub program: Program,
    /// The folder of the books and the words that run a keeper; none: the nodes are in memory.
    pub keepers: Option<(String, Vec<String>)>,
}

/// One seed, or FIRST-LAST.
fn seeds(word: &str) -> Option<RangeInclusive<u64>> {
    let (first, last) = word.split_once('-').unwrap_or((word, word));
    let seeds = first.parse().ok()?..=last.parse().ok()?;
    (!seeds.is_empty()).then_some(seeds)
}

pub fn wanted(words: &[String]) -> Option<Wanted> {
    let own = words.first()? == "own";
    let [first, operations, rest @ ..] = &words[own as usize..] else { return None };
    let (seeds, operations) = (seeds(first)?, operations.parse().ok()?);
    let program = Program::Keeper;
    let mut wanted = Wanted { own, seeds, operations, still: false, wrong: None, program, keepers: None };
    let mut rest = rest.iter();
    loop {
        match rest.next()?.as_str() {
            "--still" => wanted.still = true,
            "--serve" => wanted.program = Program::Serve,
            "--wrong" => wanted.wrong = Some(wrong::named(rest.next()?)?),
            "--memory" => return rest.next().is_none().then_some(wanted),
            folder => {
                let command: Vec<String> = rest.skip_while(|word| *word == "--").cloned().collect();
                let some = !command.is_empty();
                wanted.keepers = Some((folder.to_string(), command));
                return some.then_some(wanted);
            }
        }
    }
}
