//! The part of the command line that says where the nodes are.

use super::{down, number, wrong, Command, Given};
use crate::code::Fault;
use std::path::PathBuf;
use std::time::Duration;

/// Where the nodes are: books in a folder, of which some may be taken as silent, or anywhere.
pub enum At {
    Folder(PathBuf, Vec<usize>),
    Nodes(Net),
}

/// The file that names the nodes, and how long they are waited for.
pub struct Net {
    pub file: PathBuf,
    pub within: Duration,
}

/// The deadline of an operation where none is given.
const WITHIN: Duration = Duration::from_secs(30);

/// Seconds, also a part of one; up to a year.
fn within(verb: &str, given: &Given) -> Result<Duration, Fault> {
    let Some(value) = given.option("--within") else { return Ok(WITHIN) };
    let digits = |text: &&str| text.bytes().all(|byte| byte.is_ascii_digit() || byte == b'.');
    let seconds = value.to_str().filter(digits).and_then(|text| text.parse::<f64>().ok());
    match seconds.filter(|seconds| (0.001..=31_536_000.0).contains(seconds)) {
        Some(seconds) => Ok(Duration::from_secs_f64(seconds)),
        None => wrong(verb, format!("--within: {} is not a number of seconds, as 30 or 0.5", value.display())),
    }
}

/// The options that are of a folder alone, and those that are of nodes alone.
const OF_FOLDER: [&str; 2] = ["--down", "--stop-after"];
const OF_NODES: [&str; 3] = ["--within", "--room-for", "--node"];

/// Where the nodes are: as --nodes says, or else in a folder.
pub fn at(verb: &str, given: &Given) -> Result<At, Fault> {
    let one_of = |names: &[&'static str]| names.iter().copied().find(|name| given.option(name).is_some());
    match (given.option("--nodes"), one_of(&OF_FOLDER), one_of(&OF_NODES)) {
        (Some(_), Some(name), _) => wrong(verb, format!("{name} is of a FOLDER, and does not go with --nodes")),
        (Some(file), None, _) => Ok(At::Nodes(Net { file: PathBuf::from(file), within: within(verb, given)? })),
        (None, _, Some(name)) => wrong(verb, format!("{name} wants --nodes")),
        (None, _, None) => {
            let folder = given.arguments.first().map(PathBuf::from).unwrap_or_default();
            Ok(At::Folder(folder, down(verb, given)?))
        }
    }
}

/// `heal` is over nodes alone.
pub fn heal(verb: &str, given: &Given) -> Result<Command, Fault> {
    match (at(verb, given)?, number(verb, given, "--node")?) {
        (At::Nodes(net), Some(node)) => Ok(Command::Heal { net, node }),
        (At::Nodes(_), None) => wrong(verb, "sheet heal wants --node and the number of a node".to_string()),
        (At::Folder(..), _) => wrong(verb, "sheet heal wants --nodes and a file of nodes".to_string()),
    }
}
