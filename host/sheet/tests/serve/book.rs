//! The book and its files: who may have it, what it must be, and what a server does about those who touch it.

use crate::node::{ask, serve, until, Node};
use keeper_trials::disk::{calls, Call, Disk};
use keeper_trials::{acknowledged, fed, looks, plan, records, replies, writes, Place, TEXT};
use second::book::Book;
use std::collections::BTreeSet;
use std::fs;
use std::io::Write;
use std::os::unix::fs::symlink;
use std::path::{Path, PathBuf};
use std::process::{Command, Output};
use std::sync::OnceLock;

fn fresh(name: &str) -> Place {
    let place = Place::new(name);
    place.fresh();
    place
}

/// Its code, and its one line without the word before it.
fn told(output: &Output) -> (Option<i32>, String) {
    let text = String::from_utf8_lossy(&output.stderr).into_owned();
    assert_eq!((text.lines().count(), output.stdout.len()), (1, 0), "{output:?}");
    (output.status.code(), text.trim_end().trim_start_matches("sheet: ").to_string())
}

#[test]
fn a_second_server_of_one_book() {
    let place = fresh("serve-second");
    let node = Node::start(&place, &[]);
    let (code, line) = told(&fed(serve(&place, &["--wait", "1"]), &looks()));
    assert_eq!(code, Some(9));
    assert!(line.ends_with("BOOK.lock: another program keeps this book, and has its lock"), "{line}");
    assert_eq!(replies(&ask(&mut node.connect(), &looks())), 2);
    // One that waits has it when the first ends.
    let next = serve(&place, &["--wait", "30"]);
    let next = std::thread::spawn(move || fed(next, &looks()));
    std::thread::sleep(std::time::Duration::from_millis(100));
    drop(node);
    assert_eq!(replies(&next.join().expect("its end").stdout), 2);
}

#[test]
fn books_and_plans_that_cannot_be_served() {
    let place = fresh("serve-not");
    let whole = fs::read(place.file("BOOK")).expect("BOOK");
    let with = |book: &[u8], plan: &str, code: i32, words: &str| {
        fs::write(place.file("BOOK"), book).expect("BOOK");
        fs::write(place.file("PLAN"), plan).expect("PLAN");
        let told = told(&fed(serve(&place, &[]), &looks()));
        assert!(told.0 == Some(code) && told.1.contains(words), "{told:?}");
        assert_eq!(fs::read(place.file("BOOK")).expect("BOOK"), book);
    };
    with(&whole[..10], TEXT, 8, "BOOK: damaged: 10 bytes, and a book has 11 to 65,536");
    with(&vec![0; 65_537], TEXT, 8, "BOOK: damaged: 65537 bytes");
    with(&vec![0; 2048], TEXT, 8, "BOOK: damaged (refusal 3: ");
    with(
        &whole,
        &TEXT.replace("F 16", "F 17"),
        8,
        "PLAN: this is not the plan that the book was made with: F 16, now F 17",
    );
    with(&whole, &TEXT.replace("Q 3", "Q 9"), 2, "PLAN: refusal 1");
    with(&whole, &TEXT.replace("t 1\n", ""), 2, "PLAN: line 2: here belongs t and its value");
    fs::remove_file(place.file("BOOK")).expect("removed");
    assert_eq!(told(&fed(serve(&place, &[]), b"")), (Some(2), "BOOK: no such file".to_string()));
    fs::create_dir(place.file("BOOK")).expect("a folder");
    assert_eq!(told(&fed(serve(&place, &[]), b"")), (Some(2), "BOOK: this is not a file".to_string()));
}

/// The counters are a file of their own.
#[test]
fn counters_that_are_not_written_over_the_book() {
    let place = fresh("serve-over");
    let before = place.files();
    for name in ["BOOK", "PLAN", "BOOK.plan", "./BOOK"] {
        let told = told(&fed(serve(&place, &["--counters", name]), &looks()));
        assert_eq!(told, (Some(2), format!("--counters: {name}: this file is the node's own")));
        assert!(place.files() == before, "{name}: something was written");
    }
}

/// W is the reader's alone, and may differ; without BOOK.plan a line says so, and the book is served.
#[test]
fn plans_that_may_differ() {
    let place = fresh("serve-w");
    fs::write(place.file("PLAN"), TEXT.replace("W 16", "W 4")).expect("PLAN");
    let output = fed(serve(&place, &[]), &looks());
    assert_eq!((replies(&output.stdout), output.stderr.len()), (2, 0));
    fs::remove_file(place.file("BOOK.plan")).expect("removed");
    let output = fed(serve(&place, &[]), &looks());
    let line = String::from_utf8_lossy(&output.stderr).into_owned();
    assert!(replies(&output.stdout) == 2 && line.contains("BOOK.plan: is not there, so that an edit"), "{line}");
}

#[test]
fn addresses_that_others_reach() {
    let place = fresh("serve-loopback");
    for (words, line) in [
        (&["--listen", "0.0.0.0:0"][..], "--listen: 0.0.0.0:0: 0.0.0.0 is reached from other machines"),
        (&["--listen", "[::]:0"], "--listen: [::]:0: :: is reached from other machines"),
        (&["--listen", "7003"], "--listen: 7003: this is not an address and a port"),
        (&["--socket"], "--socket: no socket was handed over"),
        (&["--beyond-loopback"], "--beyond-loopback is of --listen"),
        (&["--connections", "0", "--quiet"], "--connections: it may be 1 to 512"),
        (&["--quiet", "--verbose"], "--quiet and --verbose are two"),
    ] {
        let (code, told) = told(&fed(serve(&place, words), b""));
        assert!(code == Some(2) && told.starts_with(line), "{told}");
    }
    let node = Node::of(serve(&place, &["--listen", "0.0.0.0:0", "--beyond-loopback"]));
    assert!(node.address.starts_with("0.0.0.0:"), "{}", node.address);
}

/// A new book that a crash left is taken away; a link is followed, and stays one.
#[test]
fn what_a_crash_left_and_links() {
    let place = fresh("serve-link");
    fs::rename(place.file("BOOK"), place.file("AWAY")).expect("moved");
    fs::rename(place.file("BOOK.plan"), place.file("AWAY.plan")).expect("moved");
    symlink(place.file("AWAY"), place.file("BOOK")).expect("a link");
    fs::write(place.file("AWAY.new"), b"half").expect("a file");
    let output = fed(serve(&place, &[]), &writes(&records(1, 2)));
    assert_eq!((acknowledged(&output.stdout), output.stderr.len()), (place.held(), 0));
    assert!(fs::symlink_metadata(place.file("BOOK")).expect("BOOK").is_symlink());
    assert!(!place.file("AWAY.new").exists() && place.file("AWAY.lock").exists());
}

/// Another book in the place of ours, or ours changed, by who does not ask for the lock: nothing is written over it, and nothing is told.
#[test]
fn a_book_that_another_changes() {
    for put in [
        |book: &Path, bytes: &[u8]| fs::write(book, bytes),
        |book: &Path, bytes: &[u8]| {
            let new = book.with_extension("other");
            fs::write(&new, bytes).and_then(|()| fs::rename(&new, book))
        },
    ] {
        let place = fresh("serve-changed");
        let mut node = Node::start(&place, &[]);
        let before = fs::read(place.file("BOOK")).expect("BOOK");
        ask(&mut node.connect(), &writes(&records(1, 1)));
        put(&place.file("BOOK"), &before).expect("BOOK");
        let mut stream = node.connect();
        stream.write_all(&writes(&records(2, 1))).expect("sent");
        assert!(crate::node::closed(&mut stream));
        assert_eq!(node.code(), Some(8));
        until("it says why", || node.says("BOOK: another program has put a book in its place or changed it"));
        assert_eq!(fs::read(place.file("BOOK")).expect("BOOK"), before);
    }
}

/// A fresh book is the second program's, has the plan beside it, is served, and never takes the place of anything.
#[test]
fn a_fresh_book() {
    let place = Place::new("serve-fresh");
    let output = fed(serve(&place, &["--new", "3"]), b"");
    assert_eq!(output.stdout, b"made: BOOK, a fresh book for node 3, with room for 303 saves\n", "{output:?}");
    let made = fs::read(place.file("BOOK")).expect("BOOK");
    assert_eq!(fs::read_to_string(place.file("BOOK.plan")).expect("BOOK.plan"), TEXT);
    place.fresh();
    assert_eq!(made, fs::read(place.file("BOOK")).expect("BOOK"));
    assert_eq!(replies(&fed(serve(&place, &[]), &looks()).stdout), 2);
    assert_eq!(told(&fed(serve(&place, &["--new", "3"]), b"")).1, "BOOK: is there already, and stays as it is");
    fs::remove_file(place.file("BOOK")).expect("removed");
    symlink("nothing", place.file("BOOK")).expect("a link");
    assert_eq!(told(&fed(serve(&place, &["--new", "3"]), b"")).1, "BOOK: is there already, and stays as it is");
    fs::remove_file(place.file("BOOK")).expect("removed");
    for (words, line) in [
        (&["--new", "5"][..], "--new: there is no node 5, the plan has 0 to 4"),
        (&["--new", "3", "--room", "100"], "--room: a book of this plan has 227 to 65536 bytes"),
        (&["--new", "3", "--socket"], "--new makes a book and serves nothing, so that --socket has no place beside it"),
        (&["--room", "300"], "--room is of --new, which is not given"),
    ] {
        let (code, told) = told(&fed(serve(&place, words), b""));
        assert!(code == Some(2) && told.starts_with(line) && !place.file("BOOK").exists(), "{told}");
    }
}

/// A cut while it is made, before each of its calls, leaves none or a whole one beside its plan; one that was told is there. The next `--new` makes it.
#[test]
fn a_cut_in_a_fresh_book() {
    let place = Place::in_memory("serve-fresh-cut");
    let files = place.files();
    let mut command = serve(&place, &["--new", "3", "--room", "2048"]);
    command.env("LD_PRELOAD", trace()).env("TRACE_LOG", place.file("LOG"));
    fed(command, b"");
    let (mut disk, mut made, mut disks) = (Disk::new(&place.folder, &files), false, BTreeSet::new());
    for call in calls(&place.file("LOG")) {
        disk.make(&call);
        made = made || call.bytes.starts_with(b"made: ");
        for left in disk.cuts() {
            let Some(book) = left.get("BOOK") else {
                assert!(!made, "made, and lost");
                disks.insert(left);
                continue;
            };
            let whole = Book::read(&plan(), &book.bytes).is_some_and(|book| book.records.is_empty());
            assert!(whole && book.bytes.len() == 2048, "not whole");
            assert_eq!(left.get("BOOK.plan").map(|plan| plan.bytes.as_slice()), Some(TEXT.as_bytes()));
            disks.insert(left);
        }
    }
    assert!(made && disks.len() > 5, "{} disks", disks.len());
    for left in disks {
        place.set_files(&left);
        let output = fed(serve(&place, &["--new", "3", "--room", "2048"]), b"");
        assert_eq!(output.status.success(), !left.contains_key("BOOK"), "{output:?}");
        assert_eq!(replies(&fed(serve(&place, &[]), &[looks(), writes(&records(1, 1))].concat()).stdout), 3);
    }
}

/// host/keeper/trace/trace.c, compiled once.
fn trace() -> &'static Path {
    static TRACE: OnceLock<PathBuf> = OnceLock::new();
    TRACE.get_or_init(|| {
        let source = Path::new(env!("CARGO_MANIFEST_DIR")).join("../keeper/trace/trace.c");
        let library = Path::new(env!("CARGO_TARGET_TMPDIR")).join("trace-serve.so");
        let mut cc = Command::new("cc");
        cc.args(["-shared", "-O1", "-fPIC", "-ffreestanding", "-o"]).arg(&library).arg(source);
        assert!(cc.status().expect("a C compiler").success());
        library
    })
}

/// A store that fails: no reply of its run on any connection, one line, code 9, and the book as it was; the next start stores.
#[test]
fn a_disk_that_fails() {
    for (fails, words) in [("fsync.3.5", "BOOK.new: Input/output error"), ("rename.1.28", "BOOK.new: No space left")] {
        let place = fresh("serve-fails");
        let before = fs::read(place.file("BOOK")).expect("BOOK");
        let mut command = serve(&place, &["--listen", "127.0.0.1:0", "--quiet"]);
        command.env("LD_PRELOAD", trace()).env("TRACE_FAIL", fails);
        let mut node = Node::of(command);
        let (mut one, mut other) = (node.connect(), node.connect());
        assert_eq!(replies(&ask(&mut other, &looks())), 2);
        one.write_all(&[looks(), writes(&records(1, 1))].concat()).expect("sent");
        assert!(crate::node::closed(&mut one), "{:?}", node.lines());
        assert!(crate::node::closed(&mut other), "{:?}", node.lines());
        assert_eq!(node.code(), Some(9));
        until("it says why", || node.says(words));
        assert_eq!(fs::read(place.file("BOOK")).expect("BOOK"), before);
        assert!(!place.file("BOOK.new").exists());
        assert_eq!(acknowledged(&fed(serve(&place, &[]), &writes(&records(1, 1))).stdout), place.held());
    }
}

/// While one write is on its way to the disk, fifteen more come on connections of their own: they are one run, stored once.
#[test]
fn what_comes_meanwhile_is_one_run() {
    let place = fresh("serve-meanwhile");
    let mut command = serve(&place, &["--listen", "127.0.0.1:0", "--quiet"]);
    // It is held up where it makes BOOK.new for the first time: PLAN, BOOK.lock, BOOK.plan, BOOK and the waits for the disk come before.
    let calls = calls_before_the_first_store(&place);
    command.env("LD_PRELOAD", trace()).env("TRACE_LOG", place.file("LOG")).env("TRACE_WAIT", calls.to_string());
    let node = Node::of(command);
    let mut first = node.connect();
    first.write_all(&writes(&records(1, 1))).expect("sent");
    until("it is held up", || place.file("LOG.waits").exists());
    let mut others: Vec<_> = (2..=16).map(|time| (time, node.connect())).collect();
    for (time, stream) in &mut others {
        stream.write_all(&writes(&records(*time, 1))).expect("sent");
    }
    let all = format!("bytes_in {}, ", 16 * writes(&records(1, 1)).len());
    until("all have come", || counted(&node).contains(&all));
    until("all wait for the book", || at_rest(&node));
    fs::write(place.file("LOG.goes"), b"").expect("LOG.goes");
    crate::node::hear(&mut first, 1);
    others.iter_mut().for_each(|(_, stream)| drop(crate::node::hear(stream, 1)));
    assert_eq!(place.held().len(), 16);
    let line = counted(&node);
    assert!(line.contains(", runs 2, stores 2, fsyncs 6, connections 16, "), "{line}");
}

/// Whether no thread of it runs or is about to: what has come is then on its way to the thread that has the book.
fn at_rest(node: &Node) -> bool {
    let tasks = fs::read_dir(format!("/proc/{}/task", node.child.id())).expect("its threads");
    let stats = tasks.map(|task| fs::read_to_string(task.expect("a thread").path().join("stat")).unwrap_or_default());
    let states: Vec<String> = stats.map(|stat| stat.rsplit(") ").next().unwrap_or_default().to_string()).collect();
    states.iter().all(|state| state.starts_with('S'))
}

/// The counters, when they are asked for.
fn counted(node: &Node) -> String {
    let all = || node.lines().into_iter().filter(|line| line.contains("counters: ")).collect::<Vec<_>>();
    let before = all().len();
    node.signal("USR1");
    until("the counters are told", || all().len() > before);
    all().pop().expect("a line")
}

/// The number of the call by which a server makes its first BOOK.new, of those that trace.c takes down.
fn calls_before_the_first_store(place: &Place) -> usize {
    let other = fresh("serve-meanwhile-counted");
    let mut command = serve(&other, &["--listen", "127.0.0.1:0", "--quiet"]);
    command.env("LD_PRELOAD", trace()).env("TRACE_LOG", other.file("LOG"));
    let node = Node::of(command);
    ask(&mut node.connect(), &writes(&records(1, 1)));
    let made = calls(&other.file("LOG"));
    assert!(!place.file("LOG").exists());
    let makes = |call: &Call| call.name == "open" && call.one.ends_with("BOOK.new");
    1 + made.iter().position(makes).expect("BOOK.new")
}
