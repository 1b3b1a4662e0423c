//! second run SEED COUNT            random histories, COUNT calls, compared; exit 1 if they differ or an answer was met too seldom
//! second wishes SEED               every small wish and 10,000 of 64 bits, compared; exit 1 if they differ or an answer was met too seldom
//! second runs SEED                 runs of frames, drawn and long ones, compared; exit 1 if they differ or something was met too seldom
//! second older SEED COUNT          COUNT runs of a read after a write, and runs that drop a condition (document 02, Q-5), compared; exit 1 if
//!                                  they differ, if one breaks the sentence or should and does not, or if something was met too seldom
//! second emit SEED COUNT stdin     stored calls on standard output, up to COUNT of each answer of each call (their form: cases.rs)
//! second emit SEED COUNT stdout    the outcomes of the same calls, by the second program
//! second replay                    makes the stored calls on standard input again, and writes their outcomes
//!
//! Built with the feature `archive` the compared library is the proved one, given to the linker; without it there is none.

use std::io::{BufRead, Write};
use std::process::ExitCode;

use second::cases::{self, answered, asked};
use second::craft::Size;
use second::driver::{Driver, Outcome, Stop, ENOUGH};
use second::gen::histories;
use second::library::{Call, Second};
use second::{older, runs, wishes};

#[cfg(feature = "archive")]
use second::archive::Archive as Other;
#[cfg(not(feature = "archive"))]
use second::library::Second as Other;

#[cfg(feature = "archive")]
const COMPARED: &str = "the second program against the archive of the proved library";
#[cfg(not(feature = "archive"))]
const COMPARED: &str =
    "the second program against ITSELF, its slices laid out otherwise: no archive is linked, so this run counts \
                        what the generator meets and says nothing of the proved library";

const USAGE: &str =
    "usage: second run SEED COUNT | second wishes SEED | second runs SEED | second older SEED COUNT | second emit SEED COUNT stdin|stdout | second replay";

fn main() -> ExitCode {
    let words: Vec<String> = std::env::args().skip(1).collect();
    let words: Vec<&str> = words.iter().map(String::as_str).collect();
    let outcome = match words[..] {
        ["run", seed, count] => numbers(seed, count).and_then(|(seed, count)| run(seed, count)),
        ["wishes", seed] => number(seed).and_then(wishes),
        ["runs", seed] => number(seed).and_then(runs),
        ["older", seed, count] => numbers(seed, count).and_then(|(seed, count)| older(seed, count)),
        ["emit", seed, count, "stdin"] => {
            numbers(seed, count).and_then(|(seed, count)| emit(seed, count, |call, _| asked(call)))
        }
        ["emit", seed, count, "stdout"] => numbers(seed, count).and_then(|(seed, count)| emit(seed, count, answered)),
        ["replay"] => replay(),
        _ => Err(USAGE.into()),
    };
    match outcome {
        Ok(()) => ExitCode::SUCCESS,
        Err(why) => {
            eprintln!("second: {why}");
            ExitCode::FAILURE
        }
    }
}

fn number(seed: &str) -> Result<u64, String> {
    seed.parse().map_err(|_| "SEED is a number".into())
}

fn numbers(seed: &str, count: &str) -> Result<(u64, u64), String> {
    match (seed.parse(), count.parse()) {
        (Ok(seed), Ok(count)) => Ok((seed, count)),
        _ => Err("SEED and COUNT are numbers".into()),
    }
}

fn run(seed: u64, count: u64) -> Result<(), String> {
    println!("{COMPARED}\nseed {seed}, {count} calls; how often each answer was met:");
    let (mut first, mut other) = (Second, Other);
    let mut driver = Driver::new(&mut first, &mut other, seed, count);
    let stop = histories(seed, Size::Any, &mut driver);
    println!("{}", driver.table());
    if let Stop::Wrong(why) = stop {
        return Err(why);
    }
    let seldom = driver.seldom();
    if !seldom.is_empty() {
        return Err(format!("met fewer than {ENOUGH} times: {}", seldom.join(", ")));
    }
    println!(
        "{} calls: every answer and every lent byte equal, each answer of each call met {ENOUGH} times or more",
        driver.made
    );
    Ok(())
}

fn wishes(seed: u64) -> Result<(), String> {
    println!("{COMPARED}: wishes, {}", wishes::compare(&mut Second, &mut Other, seed)?);
    Ok(())
}

fn runs(seed: u64) -> Result<(), String> {
    println!("{COMPARED}: {}", runs::compare(&mut Second, &mut Other, seed)?);
    Ok(())
}

fn older(seed: u64, count: u64) -> Result<(), String> {
    println!("{COMPARED}: never an older sheet, {}", older::compare(&mut Second, &mut Other, seed, count)?);
    Ok(())
}

fn emit(seed: u64, count: u64, line: fn(&Call, &Outcome) -> String) -> Result<(), String> {
    let mut lines = String::new();
    match cases::pick(seed, count as usize, &mut |call, outcome| lines += &(line(call, outcome) + "\n")) {
        Stop::Wrong(why) => Err(why),
        Stop::Enough => std::io::stdout().write_all(lines.as_bytes()).map_err(|error| error.to_string()),
    }
}

fn replay() -> Result<(), String> {
    let mut out = std::io::BufWriter::new(std::io::stdout().lock());
    for (i, line) in std::io::stdin().lock().lines().enumerate() {
        let line = line.map_err(|error| error.to_string())?;
        let outcome = cases::replay(&mut Other, &line).ok_or(format!("line {} is no stored call", i + 1))?;
        writeln!(out, "{outcome}").map_err(|error| error.to_string())?;
    }
    out.flush().map_err(|error| error.to_string())
}
