//! Power cuts: what a program asked of the system, as `trace.c` takes it down, and the disks that a cut may leave.
//!
//! The disk is as weak as POSIX allows. What was written to a file since its last fsync may be there, be zeros, be there in part, or be lost,
//! and so may an emptying. Each name of the folder may stand as it did at any moment since the folder's last fsync, each by itself: a
//! rename may be there at one of its names alone, and a later one may be there without an earlier one.

use crate::unhex;
use std::collections::{BTreeMap, BTreeSet, HashMap};
use std::fs;
use std::path::Path;

/// One call, in the order in which they took effect.
#[derive(Clone, Debug)]
pub struct Call {
    pub process: u32,
    pub name: String,
    pub answer: i64,
    /// The descriptor, or of an open what it asks for.
    pub number: i64,
    pub one: String,
    pub two: String,
    pub bytes: Vec<u8>,
}

/// The calls of a log, by whichever programs.
pub fn calls(log: &Path) -> Vec<Call> {
    let text = fs::read_to_string(log).unwrap_or_default();
    text.lines().map(call).collect()
}

fn call(line: &str) -> Call {
    let mut words = line.split(' ');
    let mut next = || words.next().expect("a word").to_string();
    let (process, name, answer, number) = (next(), next(), next(), next());
    let (one, two) = (next(), next());
    let bytes = if name == "write" { unhex(two.trim_start_matches('-')) } else { Vec::new() };
    let answer: i64 = answer.parse().expect("a number");
    Call {
        process: process.parse().expect("a number"),
        answer,
        number: number.parse().expect("a number"),
        name,
        one,
        two,
        bytes,
    }
}

const CREATE: i64 = 0o100;
const EMPTIES: i64 = 0o1000;

/// What a cut leaves: the folder's files.
pub type Left = BTreeMap<String, Content>;

/// A file that a cut leaves.
#[derive(Clone, Debug, PartialEq, Eq, PartialOrd, Ord)]
pub struct Content {
    pub bytes: Vec<u8>,
    /// An earlier name of the same file.
    pub twin: Option<String>,
}

/// The files of a folder. Two names of one file are taken for two files.
pub fn files(folder: &Path) -> Left {
    let entries = fs::read_dir(folder).expect("a folder").map(|entry| entry.expect("an entry").path());
    let files = entries.filter(|path| fs::symlink_metadata(path).is_ok_and(|is| is.is_file()));
    let named = files.map(|path| (path.file_name().expect("a name").to_string_lossy().into_owned(), path));
    named.map(|(name, path)| (name, Content { bytes: fs::read(path).expect("a file"), twin: None })).collect()
}

/// These files in the place of those of a folder; links stay.
pub fn set_files(folder: &Path, left: &Left) {
    for name in files(folder).keys() {
        fs::remove_file(folder.join(name)).expect("removed");
    }
    for (name, content) in left {
        match &content.twin {
            Some(twin) => fs::hard_link(folder.join(twin), folder.join(name)).expect("a second name"),
            None => fs::write(folder.join(name), &content.bytes).expect("a file"),
        }
    }
}

/// A file: its bytes, and what a cut may leave of it.
struct File {
    bytes: Vec<u8>,
    may_be: BTreeSet<Vec<u8>>,
}

impl File {
    fn new(bytes: &[u8]) -> File {
        File { bytes: bytes.to_vec(), may_be: BTreeSet::from([bytes.to_vec()]) }
    }

    fn write(&mut self, at: usize, bytes: &[u8]) {
        let end = at + bytes.len();
        self.bytes.resize(self.bytes.len().max(end), 0);
        self.may_be.insert(self.bytes.clone());
        self.bytes[at..end].copy_from_slice(bytes);
        self.may_be.insert(self.bytes[..at + bytes.len() / 2].to_vec());
        self.may_be.insert(self.bytes.clone());
    }
}

enum Open {
    Folder,
    File(usize, usize),
}

/// A folder, while programs change it.
pub struct Disk {
    folder: String,
    files: Vec<File>,
    /// Which file each name is of: as it was when the folder was last made safe, then as it was changed since.
    names: BTreeMap<String, Vec<Option<usize>>>,
    open: HashMap<(u32, i64), Open>,
}

impl Disk {
    /// These files, all on the disk.
    pub fn new(folder: &Path, left: &Left) -> Disk {
        let mut disk = Disk {
            folder: folder.display().to_string(),
            files: Vec::new(),
            names: BTreeMap::new(),
            open: HashMap::new(),
        };
        for (name, content) in left {
            disk.names.insert(name.clone(), vec![Some(disk.files.len())]);
            disk.files.push(File::new(&content.bytes));
        }
        disk
    }

    /// A name of this folder; the folder itself is the empty one.
    fn name(&self, path: &str) -> Option<String> {
        let name = path.strip_prefix(&self.folder).map_or(path, |rest| rest.trim_start_matches('/'));
        match name {
            "." => Some(String::new()),
            name if name.contains('/') => None,
            name => Some(name.to_string()),
        }
    }

    fn file(&self, name: &str) -> Option<usize> {
        self.names.get(name).and_then(|states| *states.last().expect("a state"))
    }

    fn set(&mut self, name: String, file: Option<usize>) {
        self.names.entry(name).or_insert_with(|| vec![None]).push(file);
    }

    fn opened(&mut self, call: &Call) -> Option<Open> {
        let name = self.name(&call.one)?;
        if name.is_empty() {
            return Some(Open::Folder);
        }
        if self.file(&name).is_none() && call.number & CREATE != 0 {
            self.files.push(File::new(b""));
            self.set(name.clone(), Some(self.files.len() - 1));
        }
        let file = self.file(&name)?;
        if call.number & EMPTIES != 0 {
            self.files[file].bytes.clear();
            self.files[file].may_be.insert(Vec::new());
        }
        Some(Open::File(file, 0))
    }

    /// A call that was made, and did what it was to do or failed; a failed fsync makes nothing safe.
    pub fn make(&mut self, call: &Call) {
        let key = (call.process, call.number);
        if call.answer < 0 {
            return;
        }
        match call.name.as_str() {
            "open" => match self.opened(call) {
                Some(open) => drop(self.open.insert((call.process, call.answer), open)),
                None => drop(self.open.remove(&(call.process, call.answer))),
            },
            "close" => drop(self.open.remove(&key)),
            "write" => {
                if let Some(Open::File(file, at)) = self.open.get_mut(&key) {
                    self.files[*file].write(*at, &call.bytes);
                    *at += call.bytes.len();
                }
            }
            "fsync" => match self.open.get(&key) {
                Some(Open::File(file, _)) => {
                    self.files[*file].may_be = BTreeSet::from([self.files[*file].bytes.clone()]);
                }
                Some(Open::Folder) => self.names.values_mut().for_each(|states| drop(states.drain(..states.len() - 1))),
                None => {}
            },
            "rename" | "link" => {
                let (from, to) = (self.name(&call.one), self.name(&call.two));
                let (Some(from), Some(to)) = (from, to) else { return };
                let file = self.file(&from);
                self.set(to, file);
                if call.name == "rename" {
                    self.set(from, None);
                }
            }
            "unlink" => {
                if let Some(name) = self.name(&call.one) {
                    self.set(name, None);
                }
            }
            other => panic!("a call of no kind: {other}"),
        }
    }

    /// The bytes that a reader finds under a name now.
    pub fn shows(&self, name: &str) -> Option<&[u8]> {
        self.file(name).map(|file| self.files[file].bytes.as_slice())
    }

    /// What a cut may leave under a name, whatever it leaves elsewhere.
    pub fn may_be(&self, name: &str) -> BTreeSet<Option<Vec<u8>>> {
        let states: BTreeSet<Option<usize>> = self.names.get(name).into_iter().flatten().copied().collect();
        let of = |state: Option<usize>| match state {
            None => vec![None],
            Some(file) => self.files[file].may_be.iter().cloned().map(Some).collect(),
        };
        states.into_iter().flat_map(of).collect()
    }

    /// Every disk that a cut may leave now.
    pub fn cuts(&self) -> BTreeSet<Left> {
        let mut choices: Vec<BTreeMap<&str, usize>> = vec![BTreeMap::new()];
        for (name, states) in &self.names {
            let states: BTreeSet<Option<usize>> = states.iter().copied().collect();
            let mut next = Vec::new();
            for choice in &choices {
                for state in &states {
                    let mut choice = choice.clone();
                    choice.extend(state.map(|file| (name.as_str(), file)));
                    next.push(choice);
                }
            }
            choices = next;
        }
        choices.iter().flat_map(|choice| self.filled(choice)).collect()
    }

    /// The disks with these names, by what the files may be.
    fn filled(&self, names: &BTreeMap<&str, usize>) -> Vec<Left> {
        let mut all = vec![Left::new()];
        for file in names.values().copied().collect::<BTreeSet<usize>>() {
            let of: Vec<&str> = names.iter().filter(|(_, is)| **is == file).map(|(name, _)| *name).collect();
            let mut next = Vec::new();
            for left in &all {
                for bytes in &self.files[file].may_be {
                    let mut left = left.clone();
                    for name in &of {
                        let twin = (*name != of[0]).then(|| of[0].to_string());
                        left.insert(name.to_string(), Content { bytes: bytes.clone(), twin });
                    }
                    next.push(left);
                }
            }
            all = next;
        }
        all
    }
}
