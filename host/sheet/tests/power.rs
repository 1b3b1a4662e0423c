//! Power cuts and errors: what `sheet` asks of the system is taken down by host/keeper/trace/trace.c, and after every call each book is looked at as
//! every disk has it that a cut may leave (`keeper_trials::disk`). A book is whole, and holds each record that a command has told of.

use keeper_trials::disk::{calls, files, set_files, Call, Disk, Left};
use second::book::Book;
use second::plan::{Clients, Member, Plan};
use std::collections::btree_map::Entry;
use std::collections::{BTreeMap, BTreeSet};
use std::fs;
use std::io;
use std::os::unix::fs::symlink;
use std::path::{Path, PathBuf};
use std::process::{Command, Output, Stdio};
use std::sync::OnceLock;

const TEXT: &str = "N 3\nt 1\nb 0\nQ 2\nm 1\nF 16\nmember repairable\nclients crash\nW 4\n";
const NODES: usize = 3;

fn plan() -> Plan {
    Plan { n: NODES, t: 1, b: 0, q: 2, m: 1, f: 16, member: Member::Repairable, clients: Clients::Crash, w: 4 }
}

/// The library that takes the calls down, compiled once.
fn trace() -> &'static Path {
    static TRACE: OnceLock<PathBuf> = OnceLock::new();
    TRACE.get_or_init(|| {
        let source = Path::new(env!("CARGO_MANIFEST_DIR")).join("../keeper/trace/trace.c");
        let library = Path::new(env!("CARGO_TARGET_TMPDIR")).join("trace.so");
        let mut cc = Command::new("cc");
        cc.args(["-shared", "-O1", "-fPIC", "-ffreestanding", "-o"]).arg(&library).arg(source);
        assert!(cc.status().expect("a C compiler").success());
        library
    })
}

/// A sheet with one block saved; its books lie in a folder of their own, and are links in the sheet's, or they are its own files.
struct Place {
    path: PathBuf,
    books: PathBuf,
}

impl Place {
    fn new(name: &str, links: bool) -> Place {
        let at = |parent: &Path| -> io::Result<PathBuf> {
            let path = fs::canonicalize(parent)?.join(format!("sheet-power-{}-{name}", std::process::id()));
            fs::create_dir(&path).map(|()| path)
        };
        // In memory, where there is such a place: no disk is waited for.
        let path = at(Path::new("/dev/shm")).or_else(|_| at(&std::env::temp_dir())).expect("a folder");
        let place = Place { books: path.join(if links { "books" } else { "s" }), path };
        fs::write(place.path.join("plan"), TEXT).expect("a plan");
        for (name, byte) in [("a", b'a'), ("b", b'b')] {
            fs::write(place.path.join(name), [byte; 16]).expect("a block");
        }
        let plan = place.path.join("plan");
        assert!(place
            .sheet(&["new", "s", "--plan", &plan.display().to_string(), "--room", "1024"], &[])
            .status
            .success());
        assert!(place.sheet(&["save", "s", "a"], &[]).status.success());
        if links {
            fs::create_dir(&place.books).expect("a folder");
            for name in place.names() {
                fs::rename(place.path.join("s").join(&name), place.books.join(&name)).expect("moved");
                symlink(place.books.join(&name), place.path.join("s").join(&name)).expect("a link");
            }
        }
        place
    }

    fn names(&self) -> Vec<String> {
        (0..NODES).map(|node| format!("book-{node}")).collect()
    }

    /// A command of the sheet, with words for trace.c; without any, its calls are not taken down.
    fn sheet(&self, words: &[&str], set: &[(&str, String)]) -> Output {
        let mut command = Command::new(env!("CARGO_BIN_EXE_sheet"));
        command.args(words).current_dir(&self.path).stdin(Stdio::null());
        if !set.is_empty() {
            command.env("LD_PRELOAD", trace()).env("TRACE_LOG", self.log());
            command.envs(set.iter().map(|(name, value)| (name, value)));
        }
        command.output().expect("sheet")
    }

    fn log(&self) -> PathBuf {
        self.path.join("LOG")
    }

    /// The words that name the sheet so that trace.c has whole paths.
    fn folder(&self) -> String {
        self.path.join("s").display().to_string()
    }
}

impl Drop for Place {
    fn drop(&mut self) {
        let _ = fs::remove_dir_all(&self.path);
    }
}

type Stamps = BTreeSet<[u8; 40]>;

/// The records of a book, which must be whole.
fn held(book: &[u8]) -> Result<Stamps, String> {
    let book = Book::read(&plan(), book).ok_or("a book is not whole")?;
    Ok(book.records.iter().map(|record| record.stamp.bytes()).collect())
}

/// The sheet as it was before its commands, and what is asked of every disk.
struct Cuts<'a> {
    place: &'a Place,
    files: Left,
    /// The sheet's folder, where the books are links.
    rest: Left,
}

impl Cuts<'_> {
    fn of(place: &Place) -> Cuts<'_> {
        Cuts { place, files: files(&place.books), rest: files(&place.path.join("s")) }
    }

    /// The sheet as it was, with no calls taken down.
    fn again(&self) {
        set_files(&self.place.path.join("s"), &self.rest);
        set_files(&self.place.books, &self.files);
        let _ = fs::remove_file(self.place.log());
    }

    /// After each call from the one of this number on: each book of each disk that a cut may leave is whole and holds what it held at the start
    /// of a command, once that command has told something, and what a save that was told has stored. How many books were looked at.
    fn hold(&self, from: usize) -> Result<usize, String> {
        let made = calls(&self.place.log());
        let mut disk = Disk::new(&self.place.books, &self.files);
        let mut seen: BTreeMap<u32, BTreeMap<String, Stamps>> = BTreeMap::new();
        let mut told = self.shown(&disk)?;
        let mut looked = 0;
        for (i, call) in made.iter().enumerate() {
            if let Entry::Vacant(place) = seen.entry(call.process) {
                place.insert(self.shown(&disk)?);
            }
            disk.make(call);
            if call.name == "write" && call.number == 1 {
                told = seen[&call.process].clone();
                let shown = self.shown(&disk)?;
                told.extend(stored_at(&call.bytes).into_iter().map(|name| (name.clone(), shown[&name].clone())));
            }
            if i < from {
                continue;
            }
            for name in self.place.names() {
                for book in disk.may_be(&name) {
                    let at = || format!("after call {i} of {} a cut: {name}:", shown(call));
                    let book = book.ok_or_else(|| format!("{} missing", at()))?;
                    let held = held(&book).map_err(|why| format!("{} {why}", at()))?;
                    if !told[&name].is_subset(&held) {
                        return Err(format!("{} a record that was told of is missing", at()));
                    }
                    looked += 1;
                }
            }
        }
        Ok(looked)
    }

    /// The records that a reader finds now.
    fn shown(&self, disk: &Disk) -> Result<BTreeMap<String, Stamps>, String> {
        let book = |name: String| Ok((name.clone(), held(disk.shows(&name).ok_or("a book is missing")?)?));
        self.place.names().into_iter().map(book).collect()
    }

    /// Each of the disks that a cut may leave after the last call is opened by the next start, at another place, and has the one block or the other.
    fn open_all(&self, next: &Place, found: &mut BTreeMap<Left, Vec<u8>>) {
        let mut disk = Disk::new(&self.place.books, &self.files);
        calls(&self.place.log()).iter().for_each(|call| disk.make(call));
        for left in disk.cuts() {
            if found.contains_key(&left) {
                continue;
            }
            set_files(&next.books, &left);
            let output = next.sheet(&["open", "s", "-"], &[]);
            assert!([[b'a'; 16], [b'b'; 16]].iter().any(|block| output.stdout == block), "{output:?}");
            let save = next.sheet(&["save", "s", "b"], &[]);
            assert!(save.status.success() && save.stderr.is_empty(), "{save:?} {:?}", left.keys());
            found.insert(left, output.stdout);
        }
    }
}

/// The books of the nodes at which a save that was told has stored.
fn stored_at(line: &[u8]) -> Vec<String> {
    let line = String::from_utf8_lossy(line).into_owned();
    let nodes = line.strip_prefix("saved: ").and_then(|rest| rest.trim_end().split_once("stored at node"));
    let (_, nodes) = nodes.unwrap_or_default();
    nodes.trim_start_matches('s').split_whitespace().map(|node| format!("book-{node}")).collect()
}

fn shown(call: &Call) -> String {
    format!("{} ({} {} {} = {})", call.process, call.name, call.one, call.number, call.answer)
}

const ON: (&str, String) = ("TRACE_ON", String::new());

/// A save that is killed before each of its calls, and then an open.
fn killed_and_opened(name: &str, links: bool) {
    let (place, next) = (Place::new(name, links), Place::new(&format!("{name}-next"), links));
    let cuts = Cuts::of(&place);
    let (folder, mut found, mut looked) = (place.folder(), BTreeMap::new(), 0);
    for n in 1.. {
        cuts.again();
        let save = place.sheet(&["save", &folder, "b"], &[("TRACE_KILL", n.to_string())]);
        if save.status.success() {
            println!("{name}: {} kills, {looked} books looked at, {} disks opened", n - 1, found.len());
            break;
        }
        let before = calls(&place.log()).len();
        cuts.open_all(&next, &mut found);
        let open = place.sheet(&["open", &folder, "-"], &[ON]);
        assert!(open.status.success(), "killed before call {n}: {open:?}");
        looked += cuts.hold(before.saturating_sub(1)).unwrap_or_else(|why| panic!("killed before call {n}, {why}"));
    }
    for block in [[b'a'; 16], [b'b'; 16]] {
        assert!(found.values().any(|found| *found == block));
    }
}

#[test]
fn cuts_in_a_save() {
    killed_and_opened("cut", false);
}

#[test]
fn cuts_in_a_save_of_linked_books() {
    killed_and_opened("cut-links", true);
}

/// A `new` that is killed before each of its calls: on each disk that a cut may leave the next `new` makes the sheet, or it is made.
#[test]
fn cuts_in_a_new_sheet() {
    let (place, next) = (Place::new("new", false), Place::new("new-next", false));
    let (folder, mut found) = (place.folder(), BTreeSet::new());
    for n in 1.. {
        set_files(&place.books, &Left::new());
        let _ = fs::remove_file(place.log());
        let new = place.sheet(&["new", &folder, "--plan", "plan", "--room", "1024"], &[("TRACE_KILL", n.to_string())]);
        let mut disk = Disk::new(&place.books, &Left::new());
        calls(&place.log()).iter().for_each(|call| disk.make(call));
        for left in disk.cuts().into_iter().filter(|left| !found.contains(left)).collect::<Vec<_>>() {
            set_files(&next.books, &left);
            let made = next.sheet(&["new", "s", "--plan", "plan", "--room", "1024"], &[]);
            let open = next.sheet(&["open", "s", "-"], &[]);
            let never = open.stderr.starts_with(b"never written") || open.stdout.starts_with(b"never written");
            assert!(never && made.status.success() != left.contains_key("plan"), "{made:?} {open:?} {:?}", left.keys());
            found.insert(left);
        }
        if new.status.success() {
            println!("new: {} kills, {} disks", n - 1, found.len());
            break;
        }
    }
}

/// ENOSPC, EIO, EINTR, EMFILE, EROFS.
const ALL: &[u32] = &[28, 5, 4, 24, 30];

const CALLS: [(&str, &[u32]); 6] =
    [("open", ALL), ("read", &[5, 4]), ("write", ALL), ("fsync", ALL), ("rename", ALL), ("link", ALL)];

/// Each call of a save fails once, for each reason: the save is told, or a line says why it is not; the next one is, and an open has it.
#[test]
fn errors_in_a_save() {
    let place = Place::new("errors", false);
    let cuts = Cuts::of(&place);
    let (folder, mut faults) = (place.folder(), 0);
    for (call, error) in CALLS.iter().flat_map(|(call, errors)| errors.iter().map(move |error| (call, error))) {
        for n in 1.. {
            cuts.again();
            let what = format!("{call} {n} fails with {error}");
            let save = place.sheet(&["save", &folder, "b"], &[("TRACE_FAIL", format!("{call}.{n}.{error}"))]);
            if !calls(&place.log()).iter().any(|call| call.name == "failed") {
                break;
            }
            let lines = String::from_utf8_lossy(&save.stderr).lines().count();
            assert!(lines <= 1 && (save.status.success() || lines + save.stdout.len() > 0), "{what}: {save:?}");
            let again = place.sheet(&["save", &folder, "b"], &[ON]);
            assert!(again.status.success() && again.stderr.is_empty(), "{what}, and then: {again:?}");
            let open = place.sheet(&["open", &folder, "-"], &[ON]);
            assert!(open.stdout == [b'b'; 16], "{what}, and then: {open:?}");
            cuts.hold(0).unwrap_or_else(|why| panic!("{what}, {why}"));
            faults += 1;
        }
    }
    assert!(faults >= 200, "{faults} faults");
    println!("errors: {faults} faults");
}
