//! Saves and opens over the pipes of N keepers that fail, over a network that fails, beside nodes and a client that lie. One process is all
//! clients and the network. The keepers' books lie in a folder that is there and empty. host/try-faults builds and runs this, docs/FAULTS.md
//! says what is done and what is held against it.

mod block;
mod client;
mod counts;
mod damage;
mod executed;
mod judge;
mod keeper;
mod liar;
mod library;
mod network;
mod nodes;
mod plan;
mod poison;
mod server;
mod tactics;
mod trouble;
mod wanted;
mod wrong;

use block::Setting;
use counts::Counts;
use faults::{histories, register};
use nodes::Faults;
use plan::{Plan, PLANS};
use second::random::Random;
use server::Command;
use std::path::Path;
use std::process::ExitCode;
use std::time::Instant;
use std::{env, io};
use trouble::Trouble;
use wanted::Wanted;

/// The most calls of one run, but for one: the Byzantine client may make two at once. Three more come at its end, and the checker takes 128. A
/// book of every plan has room for as many saves and for what is poisoned.
const CALLS: usize = 120;

/// The operations of one seed as runs, one after another, each with fresh books, its own plan and its own numbers from the seed: one run for
/// each plan, or more where a run would be too long.
fn runs(wanted: &Wanted, seed: u64, counts: &mut Counts) -> Result<usize, Trouble> {
    let most = wanted.operations.div_ceil(PLANS.len()).min(CALLS);
    let mut left = wanted.operations;
    let mut done = 0;
    while left > 0 {
        let mut seeds = Random::new(seed ^ (done as u64) << 32);
        let (random, plan, calls) = (Random::new(seeds.number()), PLANS[done % PLANS.len()], left.min(most));
        let command = command(wanted, seed, done, &plan)?;
        let (command, still, wrong) = (command.as_ref(), wanted.still, wanted.wrong.map(|(_, wrong)| wrong));
        let told = block::run(Setting { plan, command, operations: calls, still, wrong, counts: &mut *counts }, random);
        command.inspect(|command| command.remove());
        told.map_err(|trouble| trouble.at(&format!("seed {seed}, run {done}, {plan:?}")))?;
        left -= calls;
        done += 1;
    }
    Ok(done)
}

/// How the keepers of one run are started; none: its nodes are in memory.
fn command(wanted: &Wanted, seed: u64, run: usize, plan: &Plan) -> io::Result<Option<Command>> {
    let Some((folder, words)) = &wanted.keepers else { return Ok(None) };
    let folder = Path::new(folder).join(format!("seed-{seed}-run-{run}"));
    Command::new(plan, wanted.program, words, folder).map(Some)
}

/// Fewer than these, and the seeds have not tested what they are for.
fn enough(operations: usize, counts: &Counts) -> bool {
    let Counts { saved, opened, faults: Faults { kills, damages, setbacks, lies, stuck, runs, .. }, .. } = counts;
    let nodes = [*damages, *setbacks, *lies, *stuck, *runs, counts.told_last];
    let others = [counts.given_up, counts.repaired, counts.poisoned, counts.partitions, counts.unfinished];
    let some = operations < 600 || nodes.iter().chain(&others).all(|count| *count > 0);
    *saved >= operations / 8 && *opened >= operations / 4 && *kills >= operations / 40 && some
}

/// Each seed, one line; then what came of all of them, and whether that is enough.
fn honest(wanted: &Wanted) -> Result<(), Trouble> {
    let (begun, mut counts) = (Instant::now(), Counts::default());
    let (mut all, mut seeds) = (0, 0);
    for seed in wanted.seeds.clone() {
        counts.digest = 0;
        let runs = runs(wanted, seed, &mut counts)?;
        println!("faults: seed {seed}: {} operations in {runs} runs, digest {:016x}", wanted.operations, counts.digest);
        (all, seeds) = (all + wanted.operations, seeds + 1);
    }
    println!("faults: {seeds} seeds, {all} operations: {}; {} s", counts.line(), begun.elapsed().as_secs());
    enough(all, &counts).then_some(()).ok_or(Trouble::Failed("too little happened".into()))
}

/// One that is wrong is found by one seed at least.
fn found(wanted: &Wanted, name: &str) -> Result<(), Trouble> {
    let mut calls = Vec::new();
    for seed in wanted.seeds.clone() {
        let mut counts = Counts::default();
        match runs(wanted, seed, &mut counts) {
            Ok(_) => continue,
            Err(Trouble::Broken(why)) if !wanted.own => {
                println!("faults: {name} found at call {}: {}", counts.calls, why.lines().next().unwrap_or_default());
            }
            Err(Trouble::Broken(_)) => {}
            Err(trouble) => return Err(trouble),
        }
        calls.push(counts.calls);
    }
    calls.sort_unstable();
    let (by, seeds, most) = (calls.len(), wanted.seeds.clone().count(), wanted.operations);
    let Some(half) = calls.get(by.saturating_sub(1) / 2) else {
        return Err(Trouble::Failed(format!("wrong {name}: found by none of {seeds} seeds, {most} calls each")));
    };
    println!("faults: wrong {name}: found by {by} of {seeds} seeds, by half of these until call {half} of {most}");
    Ok(())
}

/// The harness's own test: all that are wrong are found.
fn own(wanted: &Wanted) -> Result<(), Trouble> {
    for (name, wrong) in wrong::ALL {
        found(&Wanted { wrong: Some((name, wrong)), ..wanted.clone() }, name)?;
    }
    Ok(())
}

fn all(wanted: &Wanted) -> Result<(), Trouble> {
    println!("faults: the checker's own test: {} histories", histories::test_of_the_checker()?);
    match wanted.wrong {
        _ if wanted.own => own(wanted),
        Some((name, _)) => found(wanted, name),
        None => honest(wanted),
    }
}

fn main() -> ExitCode {
    let words: Vec<String> = env::args().skip(1).collect();
    let Some(wanted) = wanted::wanted(&words) else {
        eprintln!("{}", wanted::USAGE);
        return ExitCode::from(2);
    };
    match all(&wanted) {
        Ok(()) => ExitCode::SUCCESS,
        Err(why) => {
            eprintln!("faults: {why}");
            ExitCode::FAILURE
        }
    }
}
