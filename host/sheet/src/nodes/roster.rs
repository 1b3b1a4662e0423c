//! The file that `--nodes` names: the plan, and a line a node in the order of their numbers, how it is reached. What follows a `#` is a comment; blank
//! lines are nothing. All paths, and the commands, are of the folder that the file lies in.
//!
//!     plan PATH
//!     client K                          this client's number, 0 to 65535; 0 without this line
//!     node 0 tcp 127.0.0.1:7000
//!     node 1 exec ssh host1 sheet serve PLAN BOOK
//!     node 2 bare exec keeper-locked PLAN BOOK

use crate::code::{fault, Code, Fault};
use crate::files::{self, beside};
use crate::folder::{missing, read_plan};
use pasis::Plan;
use std::ffi::OsStr;
use std::path::{Path, PathBuf};

/// More than any such file has.
const MOST: usize = 65_536;

/// How a node is reached.
#[derive(Clone, Debug)]
pub enum Reach {
    /// An address and a port.
    Tcp(String),
    /// A command whose pipes carry the frames; never empty.
    Exec(Vec<String>),
}

#[derive(Clone, Debug)]
pub struct Place {
    /// It knows no greeting, as `keeper`.
    pub bare: bool,
    pub reach: Reach,
}

impl Place {
    /// Whether what serves there may be for one client at a time: a program for each channel, which has the lock of its book.
    pub fn serves_one(&self) -> bool {
        self.bare || matches!(self.reach, Reach::Exec(_))
    }
}

pub struct Roster {
    pub path: PathBuf,
    plan_path: PathBuf,
    pub folder: PathBuf,
    pub plan: Plan,
    pub client: u16,
    pub nodes: Vec<Place>,
}

/// What has been read of the file so far.
struct Reading<'a> {
    folder: &'a Path,
    plan: Option<(Plan, PathBuf)>,
    client: Option<u16>,
    nodes: Vec<Place>,
}

/// Why a line is wrong, or a fault of the plan that it names.
enum Wrong {
    Line(String),
    Plan(Fault),
}

/// A decimal number of digits alone.
fn number<T: std::str::FromStr>(word: &str) -> Option<T> {
    word.bytes().all(|byte| byte.is_ascii_digit()).then(|| word.parse().ok()).flatten()
}

/// ADDRESS:PORT.
fn address(word: &str) -> Option<Reach> {
    let (host, port) = word.rsplit_once(':')?;
    let port = number::<u16>(port)?;
    (!host.is_empty() && port > 0).then(|| Reach::Tcp(word.to_string()))
}

impl Reading<'_> {
    /// What the next line may be.
    fn next(&self) -> String {
        match self.plan.as_ref().map(|(plan, _)| plan) {
            None => "here belongs plan and the path of a plan".to_string(),
            Some(plan) if self.nodes.len() == usize::from(plan.n) => {
                format!("nothing more belongs here, the plan has N {}", plan.n)
            }
            Some(_) => {
                let way = "tcp ADDRESS:PORT or exec COMMAND, with bare before it where it is a keeper";
                format!("here belongs node {} and how it is reached: {way}", self.nodes.len())
            }
        }
    }

    fn client(&mut self, words: &[&str]) -> Result<(), Wrong> {
        if self.client.is_some() {
            return Err(Wrong::Line("the client is named already".to_string()));
        }
        let client = if let [word] = words { number(word) } else { None };
        let wrong = || Wrong::Line("here belongs client and a number, 0 to 65535".to_string());
        self.client = Some(client.ok_or_else(wrong)?);
        Ok(())
    }

    fn node(&mut self, words: &[&str]) -> Result<(), Wrong> {
        let wrong = || Wrong::Line(self.next());
        let room = self.plan.as_ref().is_some_and(|(plan, _)| self.nodes.len() < usize::from(plan.n));
        let (bare, way) = match words {
            [node, "bare", way @ ..] if number(node) == Some(self.nodes.len()) => (true, way),
            [node, way @ ..] if number(node) == Some(self.nodes.len()) => (false, way),
            _ => return Err(wrong()),
        };
        let reach = match way {
            ["tcp", word] => address(word),
            ["exec", command @ ..] if !command.is_empty() => {
                Some(Reach::Exec(command.iter().map(|word| word.to_string()).collect()))
            }
            _ => None,
        };
        let reach = reach.filter(|_| room).ok_or_else(wrong)?;
        self.nodes.push(Place { bare, reach });
        Ok(())
    }

    fn line(&mut self, line: &str) -> Result<(), Wrong> {
        let line = line.split('#').next().unwrap_or_default();
        let words: Vec<&str> = line.split_ascii_whitespace().collect();
        match words.as_slice() {
            [] => Ok(()),
            ["client", words @ ..] => self.client(words),
            ["plan", path] if self.plan.is_none() => {
                let path = self.folder.join(path);
                let plan = read_plan(path.as_os_str(), Code::WrongUse).map_err(Wrong::Plan)?;
                self.plan = Some((plan, path));
                Ok(())
            }
            ["node", words @ ..] => self.node(words),
            _ => Err(Wrong::Line(self.next())),
        }
    }
}

fn text(path: &Path) -> Result<String, Fault> {
    let shown = path.display();
    match files::read_file(path, MOST) {
        Ok(bytes) if bytes.len() > MOST => fault(Code::WrongUse, format!("{shown}: longer than such a file may be")),
        Ok(bytes) => String::from_utf8(bytes).or_else(|_| fault(Code::WrongUse, format!("{shown}: this is no text"))),
        Err(error) if missing(&error) => fault(Code::WrongUse, format!("{shown}: no such file")),
        Err(error) => fault(Code::System, format!("{shown}: {error}")),
    }
}

impl Roster {
    pub fn read(path: &Path) -> Result<Roster, Fault> {
        let text = text(path)?;
        let (path, folder) = (path.to_path_buf(), files::folder_of(path).to_path_buf());
        let mut reading = Reading { folder: &folder, plan: None, client: None, nodes: Vec::new() };
        for (place, line) in text.lines().enumerate() {
            match reading.line(line) {
                Ok(()) => {}
                Err(Wrong::Plan(fault)) => return Err(fault),
                Err(Wrong::Line(why)) => {
                    return fault(Code::WrongUse, format!("{}, line {}: {why}", path.display(), place + 1))
                }
            }
        }
        let (client, next) = (reading.client.unwrap_or(0), reading.next());
        match (reading.plan, reading.nodes) {
            (Some((plan, plan_path)), nodes) if nodes.len() == usize::from(plan.n) => {
                Ok(Roster { path, plan_path, folder, plan, client, nodes })
            }
            _ => {
                let (shown, last) = (path.display(), text.lines().count().max(1));
                fault(Code::WrongUse, format!("{shown}, line {last}, the last: after it {next}"))
            }
        }
    }

    /// Refuses to have a block written over the file, its plan, or what lies beside it.
    pub fn apart_from(&self, file: &OsStr) -> Result<(), Fault> {
        let (file, path) = (files::followed(Path::new(file)), files::followed(&self.path));
        let ours = [files::followed(&self.plan_path), beside(&path, ".ask"), beside(&path, ".lock"), path];
        match ours.iter().any(|own| *own == file || files::same(own, &file)) {
            true => {
                fault(Code::WrongUse, format!("{}: this file of the nodes is no place for a block", file.display()))
            }
            false => Ok(()),
        }
    }
}
