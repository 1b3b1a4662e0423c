//! The words of `serve`.

use super::{number, wrong, Given};
use crate::code::Fault;
use crate::serve::fresh::Fresh;
use crate::serve::{Level, On, Wish};
use std::path::PathBuf;
use std::time::Duration;

pub const VALUED: [&str; 8] =
    ["--listen", "--connections", "--idle", "--idle-stop", "--wait", "--counters", "--new", "--room"];
pub const PLAIN: [&str; 5] = ["--socket", "--beyond-loopback", "--quiet", "--verbose", "--json"];

/// Seconds; 0 is none.
fn seconds(verb: &str, given: &Given, name: &str, else_it_is: u64) -> Result<Option<Duration>, Fault> {
    let seconds = number(verb, given, name)?.unwrap_or(else_it_is).min(MOST_SECONDS);
    Ok((seconds > 0).then(|| Duration::from_secs(seconds)))
}

/// A year: more is as long as ever, and no clock overflows.
const MOST_SECONDS: u64 = 31_536_000;

/// Where a server takes its channels from.
fn on(verb: &str, given: &Given) -> Result<On, Fault> {
    let beyond_loopback = given.option("--beyond-loopback").is_some();
    let given = (given.option("--listen"), given.option("--socket").is_some());
    match given {
        (Some(_), true) => wrong(verb, "--listen and --socket are of two sockets; give one of them".to_string()),
        (None, _) if beyond_loopback => wrong(verb, "--beyond-loopback is of --listen, which is not given".to_string()),
        (Some(address), _) => Ok(On::Listen { address: address.to_string_lossy().into_owned(), beyond_loopback }),
        (None, true) => Ok(On::Socket),
        (None, false) => Ok(On::Standard),
    }
}

/// The most connections that a server may be told to have: each has a thread and a descriptor, and some must be left for the book.
const MOST_CONNECTIONS: usize = 512;

/// A fresh book, which has no part in serving one.
pub fn fresh(verb: &str, given: &Given) -> Result<Fresh, Fault> {
    let other =
        given.options.iter().find(|(name, _)| !["--new", "--room", "--wait", "--json"].contains(&name.as_str()));
    if let Some((name, _)) = other {
        return wrong(verb, format!("--new makes a book and serves nothing, so that {name} has no place beside it"));
    }
    Ok(Fresh {
        plan: PathBuf::from(&given.arguments[0]),
        book: PathBuf::from(&given.arguments[1]),
        node: number(verb, given, "--new")?.unwrap_or_default(),
        room: number(verb, given, "--room")?,
        wait: seconds(verb, given, "--wait", 5)?.unwrap_or_default(),
    })
}

pub fn server(verb: &str, given: &Given) -> Result<Wish, Fault> {
    let on = on(verb, given)?;
    if given.option("--room").is_some() {
        return wrong(verb, "--room is of --new, which is not given".to_string());
    }
    let connections = number(verb, given, "--connections")?.unwrap_or(64);
    if !(1..=MOST_CONNECTIONS).contains(&connections) {
        return wrong(verb, format!("--connections: it may be 1 to {MOST_CONNECTIONS}"));
    }
    let said = |name: &str| given.option(name).is_some();
    let level = match (said("--quiet"), said("--verbose")) {
        (true, true) => return wrong(verb, "--quiet and --verbose are two; give one of them".to_string()),
        (true, false) => Level::Quiet,
        (false, true) => Level::All,
        // Standard error of a piped node is most often a client's screen.
        (false, false) if matches!(on, On::Standard) => Level::Quiet,
        (false, false) => Level::Writes,
    };
    Ok(Wish {
        plan: PathBuf::from(&given.arguments[0]),
        book: PathBuf::from(&given.arguments[1]),
        on,
        connections,
        idle: seconds(verb, given, "--idle", 60)?,
        idle_stop: seconds(verb, given, "--idle-stop", 0)?,
        wait: seconds(verb, given, "--wait", 5)?.unwrap_or_default(),
        counters: given.option("--counters").map(PathBuf::from),
        level,
        json: said("--json"),
    })
}
