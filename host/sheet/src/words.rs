//! The command line: a verb, its arguments in order, and options anywhere after the verb; `--` ends the options.

mod net;
mod server;

use crate::code::{fault, Code, Fault};
use crate::help;
use crate::serve;
use crate::serve::fresh::Fresh;
use crate::wish::OPTIONS;
use net::at;
pub use net::{At, Net};
use pasis::{Member, Wish};
use std::ffi::{OsStr, OsString};
use std::path::PathBuf;
use std::str::FromStr;

pub enum Command {
    Help(String),
    Plan { wish: Wish },
    New { folder: PathBuf, plan: Chosen, room: Option<usize> },
    Save { at: At, file: OsString, stop_after: Option<usize> },
    Open { at: At, file: OsString },
    Show { at: At, all: bool },
    Check { at: At, room_for: usize },
    Heal { net: Net, node: usize },
    Serve(serve::Wish),
    Fresh(Fresh),
}

/// Where the plan of a new sheet comes from.
pub enum Chosen {
    Default,
    File(OsString),
    Smallest(Wish),
}

/// What a verb takes: its arguments, its options with a value, its options without.
struct Form {
    arguments: &'static [&'static str],
    valued: &'static [&'static str],
    plain: &'static [&'static str],
}

fn form(verb: &str) -> Option<Form> {
    let (arguments, valued, plain): (&[_], &[_], &[_]) = match verb {
        "plan" => (&[], &OPTIONS, &["--non-repair", "--json"]),
        "new" => (&["FOLDER"], &["--plan", "--room", "--lost", "--lying", "--pieces"], &["--non-repair", "--json"]),
        "save" => (&["FOLDER", "FILE"], &["--down", "--stop-after", "--nodes", "--within"], &["--json"]),
        "open" => (&["FOLDER", "FILE"], &["--down", "--nodes", "--within"], &["--json"]),
        "show" => (&["FOLDER"], &["--down", "--nodes", "--within"], &["--all", "--json"]),
        "check" => (&["FOLDER"], &["--nodes", "--within", "--room-for"], &["--json"]),
        "heal" => (&[], &["--nodes", "--within", "--node"], &["--json"]),
        "serve" => (&["PLAN", "BOOK"], &server::VALUED, &server::PLAIN),
        _ => return None,
    };
    Some(Form { arguments, valued, plain })
}

/// What was given, sorted but not yet understood.
#[derive(Default)]
struct Given {
    arguments: Vec<OsString>,
    options: Vec<(String, OsString)>,
}

impl Given {
    fn option(&self, name: &str) -> Option<&OsStr> {
        self.options.iter().find(|(other, _)| other == name).map(|(_, value)| value.as_os_str())
    }
}

fn wrong<T>(verb: &str, line: String) -> Result<T, Fault> {
    let help = if verb.is_empty() { "sheet --help".to_string() } else { format!("sheet {verb} --help") };
    fault(Code::WrongUse, format!("{line} ({help} says more)"))
}

/// Sorts the words after a verb by its form.
fn sort(verb: &str, form: &Form, words: &[OsString]) -> Result<Given, Fault> {
    let mut given = Given::default();
    let mut words = words.iter();
    while let Some(word) = words.next() {
        let text = word.to_string_lossy();
        if word == "--" {
            given.arguments.extend(words.by_ref().cloned());
        } else if word == "-" || !text.starts_with('-') {
            given.arguments.push(word.clone());
        } else {
            let (name, inline) = text.split_once('=').map_or((&*text, None), |(name, value)| (name, Some(value)));
            let value = if form.valued.contains(&name) {
                match inline.map(OsString::from).or_else(|| words.next().cloned()) {
                    Some(value) => value,
                    None => return wrong(verb, format!("{name} wants a value")),
                }
            } else if form.plain.contains(&name) && inline.is_none() {
                OsString::new()
            } else {
                return wrong(verb, format!("sheet {verb} has no option {text}"));
            };
            if given.option(name).is_some() {
                return wrong(verb, format!("{name} is given twice"));
            }
            given.options.push((name.to_string(), value));
        }
    }
    Ok(given)
}

fn number<T: FromStr>(verb: &str, given: &Given, name: &str) -> Result<Option<T>, Fault> {
    let Some(value) = given.option(name) else { return Ok(None) };
    let digits = value.to_str().filter(|text| !text.is_empty() && text.bytes().all(|byte| byte.is_ascii_digit()));
    match digits.map(str::parse) {
        Some(Ok(number)) => Ok(Some(number)),
        Some(Err(_)) => {
            wrong(verb, format!("{name}: {} is above 2^64-1, the most that a number may be", value.display()))
        }
        None => wrong(verb, format!("{name}: {} is not a number", value.display())),
    }
}

/// The wish: all three numbers belong to it.
fn wish(verb: &str, given: &Given) -> Result<Wish, Fault> {
    let [t, b, m] = OPTIONS.map(|name| number(verb, given, name));
    let (Some(t), Some(b), Some(m)) = (t?, b?, m?) else {
        let missing: Vec<&str> = OPTIONS.into_iter().filter(|name| given.option(name).is_none()).collect();
        let all = "a wish has --lost, --lying and --pieces";
        return wrong(verb, format!("{all}; not given: {}", missing.join(", ")));
    };
    let member = if given.option("--non-repair").is_some() { Member::NonRepair } else { Member::Repairable };
    Ok(Wish { member, t, b, m })
}

/// The plan of a new sheet: of a file, for a wish, or neither; not both.
fn chosen(verb: &str, given: &Given) -> Result<Chosen, Fault> {
    let wished = OPTIONS.into_iter().chain(["--non-repair"]).find(|name| given.option(name).is_some());
    match (given.option("--plan"), wished) {
        (Some(_), Some(name)) => wrong(verb, format!("--plan and {name} are of two plans; give one of them")),
        (Some(file), None) => Ok(Chosen::File(file.to_os_string())),
        (None, Some(_)) => wish(verb, given).map(Chosen::Smallest),
        (None, None) => Ok(Chosen::Default),
    }
}

/// Node numbers with commas between them.
fn down(verb: &str, given: &Given) -> Result<Vec<usize>, Fault> {
    let Some(value) = given.option("--down") else { return Ok(Vec::new()) };
    let node = |word: &str| word.bytes().all(|byte| byte.is_ascii_digit()).then(|| word.parse().ok()).flatten();
    match value.to_str().map(|text| text.split(',').map(node).collect::<Option<Vec<usize>>>()) {
        Some(Some(nodes)) => Ok(nodes),
        _ => wrong(verb, format!("--down: {} is not a list of nodes, as 0,3", value.display())),
    }
}

/// Whether the arguments are as many as the verb has; with --nodes there is no FOLDER.
fn counted(verb: &str, form: &Form, given: &Given) -> Result<(), Fault> {
    let over_nodes = given.option("--nodes").is_some();
    let arguments: Vec<&str> = form.arguments.iter().copied().filter(|name| !over_nodes || *name != "FOLDER").collect();
    if let Some(name) = arguments.get(given.arguments.len()) {
        return wrong(verb, format!("sheet {verb} wants a {name}"));
    }
    if let Some(word) = given.arguments.get(arguments.len()) {
        return wrong(verb, format!("{} is one argument too many", word.display()));
    }
    match given.arguments.iter().position(|word| word.is_empty()) {
        Some(place) => wrong(verb, format!("the {} has no name", arguments[place])),
        None => Ok(()),
    }
}

fn command(verb: &str, form: &Form, words: &[OsString]) -> Result<Command, Fault> {
    let given = sort(verb, form, words)?;
    counted(verb, form, &given)?;
    let folder = given.arguments.first().map(PathBuf::from).unwrap_or_default();
    let file = given.arguments.last().cloned().unwrap_or_default();
    Ok(match verb {
        "plan" => Command::Plan { wish: wish(verb, &given)? },
        "new" => Command::New { folder, plan: chosen(verb, &given)?, room: number(verb, &given, "--room")? },
        "save" => Command::Save { at: at(verb, &given)?, file, stop_after: number(verb, &given, "--stop-after")? },
        "open" => Command::Open { at: at(verb, &given)?, file },
        "show" => Command::Show { at: at(verb, &given)?, all: given.option("--all").is_some() },
        "heal" => net::heal(verb, &given)?,
        "serve" if given.option("--new").is_some() => Command::Fresh(server::fresh(verb, &given)?),
        "serve" => Command::Serve(server::server(verb, &given)?),
        _ => Command::Check { at: at(verb, &given)?, room_for: number(verb, &given, "--room-for")?.unwrap_or(3) },
    })
}

pub fn read(words: &[OsString]) -> Result<Command, Fault> {
    let Some((verb, rest)) = words.split_first() else {
        return wrong("", "sheet wants a verb: plan, new, save, open, show, check, heal or serve".to_string());
    };
    let asks = |word: &OsString| word == "--help" || word == "-h";
    let verb = verb.to_string_lossy();
    Ok(match form(&verb) {
        Some(_) if rest.iter().take_while(|word| *word != "--").any(asks) => Command::Help(help::verb(&verb)),
        Some(form) => command(&verb, &form, rest)?,
        None if verb == "--help" || verb == "-h" => Command::Help(help::all()),
        None if verb == "--version" => Command::Help(help::version()),
        None => return wrong("", format!("there is no verb {verb}")),
    })
}
