//! The command as people meet it: each exit code, wrong use, damaged books, and that nothing is lost.

use std::fs;
use std::io::Write;
use std::path::{Path, PathBuf};
use std::process::{Command, Stdio};

/// A folder for one test, taken away at its end.
struct Place(PathBuf);

impl Place {
    fn new(name: &str) -> Place {
        let path = std::env::temp_dir().join(format!("sheet-test-{}-{name}", std::process::id()));
        let _ = fs::remove_dir_all(&path);
        fs::create_dir(&path).expect("a temporary folder");
        Place(path)
    }

    fn file(&self, name: &str) -> PathBuf {
        self.0.join(name)
    }

    fn put(&self, name: &str, bytes: impl AsRef<[u8]>) {
        fs::write(self.file(name), bytes).expect("a file");
    }

    fn get(&self, name: &str) -> Vec<u8> {
        fs::read(self.file(name)).expect("a file")
    }

    /// `sheet` with these words, in this folder: exit code, standard output, standard error.
    fn sheet(&self, words: &str) -> (i32, String, String) {
        self.sheet_with(words, b"")
    }

    fn sheet_with(&self, words: &str, input: &[u8]) -> (i32, String, String) {
        let mut command = Command::new(env!("CARGO_BIN_EXE_sheet"));
        command.args(words.split_whitespace()).current_dir(&self.0);
        command.stdin(Stdio::piped()).stdout(Stdio::piped()).stderr(Stdio::piped());
        let mut child = command.spawn().expect("it starts");
        let _ = child.stdin.take().expect("a pipe").write_all(input);
        let output = child.wait_with_output().expect("it ends");
        let text = |bytes: Vec<u8>| String::from_utf8_lossy(&bytes).into_owned();
        (output.status.code().expect("a code"), text(output.stdout), text(output.stderr))
    }

    fn code(&self, words: &str) -> i32 {
        self.sheet(words).0
    }

    /// All bytes of the sheet `s`.
    fn bytes(&self) -> Vec<(PathBuf, Vec<u8>)> {
        let files = fs::read_dir(self.file("s")).expect("a folder").map(|entry| entry.expect("an entry").path());
        let mut all: Vec<_> = files.map(|path| (path.clone(), fs::read(&path).expect("a file"))).collect();
        all.sort();
        all
    }

    /// Changes one byte of a file.
    fn damage(&self, name: &str, at: usize) {
        let mut bytes = self.get(name);
        bytes[at] ^= 0xff;
        self.put(name, bytes);
    }
}

impl Drop for Place {
    fn drop(&mut self) {
        let _ = fs::remove_dir_all(&self.0);
    }
}

fn plan(n: u8, t: u8, b: u8, q: u8, m: u8, member: &str, w: u16) -> String {
    format!("# a plan\nN {n}\nt {t}\nb {b}\nQ {q}\nm {m}\nF 4  # small\nmember {member}\nclients crash\n\nW {w}\n")
}

/// A sheet `s` of five nodes and blocks of 8 bytes, and two blocks `one` and `two`.
fn five(name: &str) -> Place {
    let place = Place::new(name);
    place.put("p", plan(5, 1, 1, 3, 2, "repairable", 3));
    place.put("one", "one leaf");
    place.put("two", "two leaf");
    assert_eq!(place.code("new s --plan p"), 0);
    place
}

/// One clear line on standard error.
fn one_line(text: &str) -> bool {
    text.starts_with("sheet: ") && text.ends_with('\n') && text.lines().count() == 1
}

#[test]
fn a_save_and_an_open() {
    let place = five("save");
    assert_eq!(place.code("open s out"), 3);
    assert!(!place.file("out").exists());
    let (code, out, err) = place.sheet("save s one");
    assert_eq!((code, err.as_str()), (0, ""));
    assert!(out.starts_with("saved: 1:") && out.ends_with("stored at nodes 0 1 2 3 4\n"), "{out}");
    assert_eq!(place.code("save s two --down 3"), 0);
    assert_eq!(place.code("open s out --down=0"), 0);
    assert_eq!(place.get("out"), b"two leaf");
    assert_eq!(place.get("s/ask"), b"17\n");
    assert_eq!(place.code("check s"), 0);
}

#[test]
fn standard_input_and_output() {
    let place = five("pipes");
    assert_eq!(place.sheet_with("save s -", b"by pipe.").0, 0);
    let (code, out, err) = place.sheet("open s -");
    assert_eq!((code, out.as_str()), (0, "by pipe."));
    assert!(err.starts_with("done: 1:"), "{err}");
    assert_eq!(place.sheet_with("save s -", b"too long for it").0, 2);
    assert_eq!(place.sheet_with("new q --plan -", plan(1, 0, 0, 1, 1, "non-repair", 1).as_bytes()).0, 0);
}

#[test]
fn a_save_in_part_is_passed_or_repaired() {
    let place = five("part");
    assert_eq!(place.code("save s one"), 0);
    let (code, out, _) = place.sheet("save s two --stop-after 2");
    assert!(code == 1 && out.starts_with("cut off: 2:") && out.ends_with("stored at nodes 0 1\n"), "{out}");
    assert_eq!(place.code("open s out --down 1"), 0);
    assert_eq!(place.get("out"), b"one leaf");
    let before = place.bytes();
    let (_, out, _) = place.sheet("show s");
    assert!(out.contains("its set nodes 0 1: unclassifiable, repair\n"), "{out}");
    assert_eq!(place.bytes(), before, "show wrote");
    assert_eq!(place.code("open s out"), 0);
    assert_eq!(place.get("out"), b"two leaf");
    let (_, out, _) = place.sheet("show s");
    assert!(out.contains("its set nodes 0 1 2 3: complete\n"), "{out}");
}

#[test]
fn endings_without_a_value() {
    let place = Place::new("endings");
    place.put("p", plan(7, 1, 1, 3, 4, "non-repair", 3));
    place.put("block", "four by four run");
    assert_eq!(place.code("new s --plan p"), 0);
    assert_eq!(place.code("save s block --stop-after 3"), 1);
    assert_eq!(place.code("open s out"), 4);
    place.put("p", plan(5, 1, 1, 3, 2, "repairable", 1));
    place.put("one", "one leaf");
    assert_eq!(place.code("new w --plan p"), 0);
    assert_eq!(place.code("save w one --stop-after 1"), 1);
    assert_eq!(place.code("open w out"), 5);
    assert!(!place.file("out").exists());
}

#[test]
fn clock_spent_and_full_books() {
    let place = Place::new("clock");
    place.put("p", plan(1, 0, 0, 1, 1, "repairable", 1));
    place.put("leaf", "leaf");
    assert_eq!(place.code("new s --plan p --room 87"), 0);
    assert_eq!(place.code("save s leaf"), 0);
    let (code, out, err) = place.sheet("save s leaf");
    assert_eq!((code, err.as_str()), (7, "sheet: book-0: full; node 0 counts as silent\n"));
    assert!(out.ends_with("nothing was stored\n"), "{out}");
    let mut book = place.get("s/book-0");
    book[11..19].fill(0xff);
    place.put("s/book-0", book);
    assert_eq!(place.code("save s leaf"), 6);
}

/// Document 02, Q-2: the plan has b 1, so that one book that tells the last time stops no save, and two do.
#[test]
fn one_book_does_not_spend_the_clock() {
    let place = five("last");
    assert_eq!(place.code("save s one"), 0);
    let last = |node: usize| {
        let name = format!("s/book-{node}");
        let mut book = place.get(&name);
        let at = 11 + 204 * (usize::from(book[10]) - 1);
        book[at..at + 8].fill(0xff);
        place.put(&name, book);
    };
    last(0);
    let (code, out, _) = place.sheet("save s two");
    assert!(code == 0 && out.starts_with("saved: 2:"), "{out}");
    assert_eq!(place.code("open s out --down 0"), 0);
    assert_eq!(place.get("out"), b"two leaf");
    last(1);
    let (code, out, _) = place.sheet("save s one");
    assert_eq!((code, out.as_str()), (6, "clock spent: 2 or more nodes say that the last time is reached\n"));
}

#[test]
fn too_few_nodes() {
    let place = five("few");
    assert_eq!(place.code("save s one"), 0);
    let (code, out, _) = place.sheet("save s two --down 0,4");
    assert_eq!(code, 7);
    assert!(out.starts_with("no end: the time round heard nodes 1 2 3, and 4 replies end it"), "{out}");
    assert_eq!(place.code("open s out --down 0,4"), 7);
    let (_, out, _) = place.sheet("show s --down 0,4");
    assert!(out.contains("round 1  heard nodes 1 2 3: not closed\nverdict  no end: the read round heard"), "{out}");
}

#[test]
fn damaged_books_count_as_silent() {
    let place = five("damage");
    assert_eq!(place.code("save s one"), 0);
    let last = 11 + 204 - 1;
    place.damage("s/book-1", last);
    let (code, out, _) = place.sheet("check s");
    assert_eq!(code, 8);
    assert!(out.contains("book-1: damaged: a hash check fails in 1:"), "{out}");
    assert!(
        out.ends_with("1 of 5 books not good, 1 of them serving: within what the plan allows (t 1, b 1)\n"),
        "{out}"
    );
    let (code, _, err) = place.sheet("open s out");
    assert!(code == 0 && one_line(&err) && err.contains("refusal 6"), "{err}");
    assert_eq!(place.get("out"), b"one leaf");
    place.damage("s/book-1", 4);
    assert!(place.sheet("check s").1.contains("book-1: damaged (refusal 3: "));
    fs::remove_file(place.file("s/book-1")).expect("removed");
    let (code, _, err) = place.sheet("save s two");
    assert_eq!((code, err.as_str()), (0, "sheet: book-1: missing; node 1 counts as silent\n"));
    assert!(!place.file("s/book-1").exists());
    fs::copy(place.file("s/book-0"), place.file("s/book-1")).expect("copied");
    assert!(place.sheet("check s").1.contains("book-1: damaged: it is the book of another node"));
    place.put("s/book-1", vec![0; 65_537]);
    assert!(place.sheet("check s").1.contains("book-1: damaged: 65537 bytes"));
    fs::remove_file(place.file("s/book-2")).expect("removed");
    assert!(place.sheet("check s").1.contains("MORE than what the plan allows"));
    assert_eq!(place.code("open s out"), 7);
}

#[test]
fn wrong_use_is_one_line_and_loses_nothing() {
    let place = five("wrong");
    assert_eq!(place.code("save s one"), 0);
    let before = place.bytes();
    place.put("bad", plan(5, 1, 1, 4, 2, "repairable", 3));
    place.put("worse", "N 5\nt one\n");
    std::os::unix::fs::symlink("s/book-1", place.file("link")).expect("a link");
    #[rustfmt::skip]
    let wrong = [
        "", "paint s", "save", "save s", "save s one two", "save s nothing", "save s p", "save s one --down 5",
        "save s one --down 1,", "save s one --down", "save s one --down=0 --down=1", "save s one --stop-after 6",
        "save s one --stop-after few", "open s", "open s out --stop-after 1", "show", "show nowhere", "show one", "check s s",
        "check s --json=yes", "new s", "new one", "new q --plan bad", "new q --plan worse", "new q --plan nothing",
        "new q --room 10", "new q --room 65537", "show s --al", "open s s/plan", "open s s/out", "open s link",
        "plan", "plan s --lost 1 --lying 1 --pieces 2", "plan --lost 1 --lying 1", "plan --lost 1 --lying 1 --pieces",
        "plan --lost 1 --lying 1 --pieces 2 --room 9", "new q --lost 1", "new q --non-repair", "new q --plan p --lost 1",
        "new q --lost 5 --lying 5 --pieces 1", "new q --lost 1 --lying 1 --pieces 2 --room 10",
    ];
    for words in wrong {
        let (code, out, err) = place.sheet(words);
        assert_eq!((code, out.as_str()), (2, ""), "sheet {words}: {err}");
        assert!(one_line(&err), "sheet {words}: {err}");
    }
    assert_eq!(place.bytes(), before);
    assert!(!place.file("q").exists());
    let empty = Command::new(env!("CARGO_BIN_EXE_sheet")).args(["new", ""]).output().expect("it ends");
    assert_eq!((empty.status.code(), one_line(&String::from_utf8_lossy(&empty.stderr))), (Some(2), true));
    assert!(place.sheet("new q --plan worse").2.contains("worse: line 2: t is a number, at most 255"));
}

#[test]
fn a_damaged_folder_and_a_failing_system() {
    let place = five("folder");
    assert_eq!(place.code("save s one"), 0);
    let (ask, plan) = (place.get("s/ask"), place.get("s/plan"));
    for bad in ["", "x\n", "-1\n", "18446744073709551616\n", "18446744073709551615\n"] {
        place.put("s/ask", bad);
        let before = place.bytes();
        let (code, _, err) = place.sheet("open s out");
        assert!(code == 8 && one_line(&err), "{bad}: {err}");
        assert_eq!(place.bytes(), before);
    }
    place.put("s/ask", ask);
    place.put("s/plan", "N 5\n");
    let (code, _, err) = place.sheet("check s");
    assert_eq!((code, err.as_str()), (8, "sheet: s/plan: there is no line t and its value\n"));
    place.put("s/plan", plan);
    let (code, _, err) = place.sheet("open s nowhere/out");
    assert!(code == 9 && one_line(&err), "{err}");
    place.put("out", "old");
    assert_eq!(place.code("open s out --down 0,1"), 7);
    assert_eq!(place.get("out"), b"old");
}

#[test]
fn what_a_crash_left_behind_is_not_read() {
    let place = five("crash");
    assert_eq!(place.code("save s one"), 0);
    place.put("s/book-0.sheet", "half a b");
    assert_eq!(place.code("save s two"), 0);
    assert!(!place.file("s/book-0.sheet").exists());
    assert_eq!(place.code("open s out"), 0);
    assert_eq!(place.get("out"), b"two leaf");
}

/// Saves that are killed at moments spread over the time that a save takes: every book stays good, and an open ends with one of the blocks.
/// Each may leave a save at one node, which costs every later open a round, so W is above their number.
#[test]
fn killed_at_any_moment() {
    let place = five("killed");
    place.put("p", plan(5, 1, 1, 3, 2, "repairable", 64));
    fs::remove_dir_all(place.file("s")).expect("removed");
    assert_eq!(place.code("new s --plan p"), 0);
    assert_eq!(place.code("save s one"), 0);
    for turn in 0..25 {
        let mut command = Command::new(env!("CARGO_BIN_EXE_sheet"));
        command.args(["save", "s", "two"]).current_dir(&place.0).stdout(Stdio::null()).stderr(Stdio::null());
        let mut child = command.spawn().expect("it starts");
        std::thread::sleep(std::time::Duration::from_micros(700 * turn));
        let _ = child.kill();
        child.wait().expect("it ends");
        let (code, out, _) = place.sheet("check s");
        assert_eq!(code, 0, "{out}");
        assert_eq!(place.code("open s out"), 0);
        assert!([b"one leaf", b"two leaf"].contains(&place.get("out").as_slice().try_into().expect("8 bytes")));
    }
}

/// A disk that takes no more: the node whose book cannot be written is silent, and no file is lost.
#[test]
fn a_book_that_cannot_be_written() {
    let place = five("disk");
    assert_eq!(place.code("save s one"), 0);
    for node in 0..5 {
        fs::create_dir(place.file(&format!("s/book-{node}.sheet"))).expect("in the way of the new file");
    }
    let books = |place: &Place| (0..5).map(|node| place.get(&format!("s/book-{node}"))).collect::<Vec<_>>();
    let before = books(&place);
    let (code, out, err) = place.sheet("save s two");
    assert!(code == 7 && out.ends_with("nothing was stored\n"), "{out}");
    assert_eq!(err.lines().filter(|line| line.contains("cannot be written: ")).count(), 5, "{err}");
    assert_eq!(books(&place), before);
}

#[test]
fn two_at_once_take_turns() {
    let place = five("turns");
    std::thread::scope(|scope| {
        let saves: Vec<_> = (0..4).map(|_| scope.spawn(|| place.code("save s one"))).collect();
        for save in saves {
            assert_eq!(save.join().expect("no panic"), 0);
        }
    });
    assert_eq!(place.get("s/ask"), b"17\n");
    assert!(place.sheet("open s out").1.starts_with("done: 4:"));
}

#[test]
fn json_is_one_object() {
    let place = five("json");
    let object = |words: &str| {
        let (_, out, _) = place.sheet(words);
        assert!(out.starts_with("{\"code\":") && out.ends_with("}\n") && out.lines().count() == 1, "{out}");
        out
    };
    assert!(object("save s one --json").contains("\"outcome\":\"done\",\"timestamp\":\"1:"));
    assert!(object("show s --json").contains("\"set\":[0,1,2,3],\"verdict\":\"complete\""));
    assert!(object("check s --json").contains("\"bad\":0,\"within\":true"));
    assert!(object("open s out --json").contains("\"rounds\":1"));
    assert!(object("open s --json").contains("\"outcome\":\"wrong use\",\"error\":\"sheet open wants a FILE"));
}

#[test]
fn help_at_each_verb() {
    let place = Place::new("help");
    for words in
        ["--help", "plan --help", "new --help", "save --help", "open s -h", "show --help", "check --help --json"]
    {
        let (code, out, err) = place.sheet(words);
        assert_eq!((code, err.as_str()), (0, ""), "{words}");
        assert!(out.contains("Exit codes:\n  0  done\n") && out.contains("  9  system"), "{words}");
    }
    assert_eq!(place.sheet("--version").1, "sheet 1.0.0, interface 4 of libpasis\n");
    assert!(Path::new(env!("CARGO_BIN_EXE_sheet")).is_file());
}

// ---- plans for a wish

/// What `plan` prints is a plan file as it is, with its sentences as comments.
#[test]
fn a_printed_plan_is_a_plan_file() {
    let place = Place::new("wish");
    let (code, text, err) = place.sheet("plan --lost 2 --lying 1 --pieces 3");
    assert_eq!((code, err.as_str()), (0, ""));
    assert_eq!(
        text,
        "# The smallest plan for --lost 2 --lying 1 --pieces 3.\n\
         # Survives: any 2 of the 8 nodes lost or silent, even if 1 of these lies; any 3 good pieces of a save give its block back.\n\
         # Costs: a save of a block of 3072 bytes takes 8192 bytes of pieces on all nodes, about 2.67 times its size; with the heads of \
         the records, 296 bytes a node, 10560 in all.\n\
         # More: the same nodes allow nothing more; one more node would buy --lying 2 or --pieces 4.\n\
         # F, clients and W have no part in N and Q and may be changed; clients is byzantine where one may lie.\n\
         N 8\nt 2\nb 1\nQ 5\nm 3\nF 1024\nmember repairable\nclients crash\nW 16\n"
    );
    place.put("wished", &text);
    place.put("block", [7; 3072]);
    assert_eq!(place.code("new s --plan wished"), 0);
    assert_eq!(place.sheet_with("new piped --plan -", text.as_bytes()).0, 0);
    assert_eq!(place.get("piped/plan"), place.get("s/plan"));
    assert_eq!(place.code("save s block --down 0,7"), 0);
    assert_eq!(place.code("open s out --down 3,4"), 0);
    assert_eq!(place.get("out"), [7; 3072]);
    // The file itself serves as the folder's plan too: comments are no edit.
    place.put("s/plan", &text);
    assert_eq!(place.code("check s"), 0);
}

/// The bytes that `plan` tells of are those that a save takes: the used bytes of all books, less their 11 each.
#[test]
fn a_save_costs_what_is_told() {
    let place = Place::new("cost");
    let (_, out, _) = place.sheet("plan --lost 1 --lying 1 --pieces 4 --non-repair --json");
    assert!(
        out.contains("\"block\":4096,\"bytes\":{\"pieces\":7168,\"heads\":1848,\"all\":9016},\"times\":1.75,"),
        "{out}"
    );
    place.put("block", [7; 4096]);
    assert_eq!(place.code("new s --lost 1 --lying 1 --pieces 4 --non-repair"), 0);
    assert_eq!(place.code("save s block"), 0);
    let used = |node: usize| {
        let book = place.get(&format!("s/book-{node}"));
        u32::from_be_bytes(*book.first_chunk().expect("a length")) as usize + 4 - 11
    };
    assert_eq!((0..7).map(used).sum::<usize>(), 9016);
}

#[test]
fn a_sheet_for_a_wish() {
    let place = five("wished");
    let (code, out, err) = place.sheet("new w --lost 1 --lying 1 --pieces 2 --room 3000");
    assert_eq!((code, err.as_str()), (0, ""));
    assert_eq!(out, "w: 5 books, each with room for 2 saves of 2048 bytes\n");
    assert_eq!(place.code("new default"), 0);
    assert_eq!(place.get("w/plan"), place.get("default/plan"));
    let (_, out, _) = place.sheet("new n --non-repair --pieces=4 --lying=1 --lost=1 --json");
    assert!(
        out.contains("\"plan\":{\"N\":7,\"t\":1,\"b\":1,\"Q\":3,\"m\":4,\"F\":1024,\"member\":\"non-repair\""),
        "{out}"
    );
    place.put("block", [9; 2048]);
    assert_eq!(place.code("save w block --down 2"), 0);
    assert_eq!(place.code("open w out --down 0"), 0);
    assert_eq!(place.get("out"), [9; 2048]);
}

/// Each kind of bad wish gets its own line, of `plan` and of `new` alike, and nothing is made.
#[test]
fn bad_wishes_are_one_line() {
    let place = five("bad-wish");
    let over = "no plan of up to 16 nodes serves";
    for (wish, line) in [
        ("--lost 2 --lying 3 --pieces 1", "--lying 3 is above --lost 2, of which they are a part (refusal 1): lower --lying to 2"),
        ("--lost 1 --lying 1 --pieces 0", "--pieces 0 gives no block back (refusal 1): raise --pieces to 1"),
        (
            "--lost 1 --lying 2 --pieces 0",
            "--lying 2 is above --lost 1, of which they are a part, and --pieces 0 gives no block back (refusal 1): \
             lower --lying to 1 and raise --pieces to 1",
        ),
        (
            "--lost 10 --lying 12 --pieces 1",
            "--lying 12 is above --lost 10, of which they are a part, and 16 nodes are too few for the rest (refusal 1): \
             lower --lost to 3 and lower --lying to 3",
        ),
        ("--lost 5 --lying 5 --pieces 1", &format!("{over} --lost 5 --lying 5 --pieces 1 (refusal 20): lower --lying to 2")),
        (
            "--lost 4 --lying 1 --pieces 9",
            &format!("{over} --lost 4 --lying 1 --pieces 9 (refusal 20): lower --lost to 3, or lower --pieces to 7"),
        ),
        (
            "--lost 9 --lying 9 --pieces 2 --non-repair",
            &format!("{over} --lost 9 --lying 9 --pieces 2 --non-repair (refusal 20): lower --lost to 2 and lower --lying to 2"),
        ),
        (
            "--lost 9 --lying 9 --pieces 18446744073709551615",
            &format!("{over} --lost 9 --lying 9 --pieces 18446744073709551615 (refusal 20): \
                 lower --lost to 3 and lower --lying to 3 and lower --pieces to 7"),
        ),
    ] {
        for verb in ["plan", "new q"] {
            let (code, out, err) = place.sheet(&format!("{verb} {wish}"));
            assert_eq!((code, out.as_str(), err), (2, "", format!("sheet: {line}\n")), "{verb}");
        }
        let (code, out, _) = place.sheet(&format!("plan {wish} --json"));
        assert_eq!((code, out), (2, format!("{{\"code\":2,\"outcome\":\"wrong use\",\"error\":\"{line}\",\"notes\":[\"{line}\"]}}\n")));
    }
    assert!(!place.file("q").exists());
}

/// What is no wish at all.
#[test]
fn wishes_that_are_not_whole() {
    let place = five("half-wish");
    for (words, line) in [
        ("plan", "a wish has --lost, --lying and --pieces; not given: --lost, --lying, --pieces (sheet plan"),
        ("plan --lost 1 --pieces 2", "a wish has --lost, --lying and --pieces; not given: --lying (sheet plan"),
        (
            "new q --non-repair --lost 1",
            "a wish has --lost, --lying and --pieces; not given: --lying, --pieces (sheet new",
        ),
        ("new q --plan p --pieces 2", "--plan and --pieces are of two plans; give one of them (sheet new"),
        ("new q --plan p --non-repair", "--plan and --non-repair are of two plans; give one of them (sheet new"),
        ("plan --lost 1 --lying one --pieces 2", "--lying: one is not a number (sheet plan"),
        ("plan --lost= --lying 1 --pieces 2", "--lost:  is not a number (sheet plan"),
        ("plan --lost -1 --lying 1 --pieces 2", "--lost: -1 is not a number (sheet plan"),
        (
            "plan --lost 1 --lying 1 --pieces 18446744073709551616",
            "--pieces: 18446744073709551616 is above 2^64-1, the most that a number may be (sheet plan",
        ),
        ("plan 5 --lost 1 --lying 1 --pieces 2", "5 is one argument too many (sheet plan"),
    ] {
        let (code, out, err) = place.sheet(words);
        assert_eq!((code, out.as_str(), err), (2, "", format!("sheet: {line} --help says more)\n")));
    }
    assert!(!place.file("q").exists());
}

// ---- beside others

/// A write request of node 0 under time 1, by another client that asks nobody else.
fn request_of_another(number: u64) -> Vec<u8> {
    let plan = pasis::Plan { f: 4, w: 3, ..pasis::Plan::default() };
    let mut desk = vec![0; plan.desk_size()];
    let (mut request, mut reply) = (vec![0; plan.frame_size()], vec![0; plan.frame_size()]);
    let mut session = pasis::open_write(&plan, 1_000_000 + 10 * number).expect("a write");
    for node in 0..plan.replies() as u64 {
        let mut book = vec![0; 11];
        pasis::fresh_book(&plan, node, &mut book).expect("a book");
        let asked = pasis::owed(&plan, &session, node, &desk, &mut request).expect("a request");
        let told = pasis::node(&plan, &request[..asked], &mut book, &mut reply).expect("a reply");
        session = pasis::write_reply(&plan, session, &reply[..told], &mut desk, &number.to_be_bytes()).0;
    }
    let asked = pasis::owed(&plan, &session, 0, &desk, &mut request).expect("a request");
    request.truncate(asked);
    request
}

/// Stores as a keeper does: one that has the lock writes over BOOK.new, one that has none makes it where it is not there.
fn store_as_a_keeper(book: &Path, request: &[u8], locked: bool) -> Vec<u8> {
    let beside = |ending: &str| PathBuf::from(format!("{}{ending}", book.display()));
    let lock = fs::File::create(beside(".lock")).expect("a lock");
    let mut options = fs::OpenOptions::new();
    options.write(true);
    let mut new = if locked {
        lock.lock().expect("the lock");
        options.create(true).truncate(true).open(beside(".new")).expect("BOOK.new")
    } else {
        loop {
            match options.create_new(true).open(beside(".new")) {
                Ok(new) => break new,
                Err(_) => std::thread::yield_now(),
            }
        }
    };
    let plan = pasis::Plan { f: 4, w: 3, ..pasis::Plan::default() };
    let (mut bytes, mut reply) = (fs::read(book).expect("a book"), vec![0; plan.frame_size()]);
    pasis::node(&plan, request, &mut bytes, &mut reply).expect("a reply");
    std::thread::sleep(std::time::Duration::from_millis(2));
    new.write_all(&bytes).expect("written");
    fs::rename(beside(".new"), book).expect("renamed");
    reply[15..55].to_vec()
}

/// What a keeper has acknowledged stays, whatever is saved beside it.
#[test]
fn loses_no_record_of_a_keeper() {
    for locked in [true, false] {
        let place = five(if locked { "beside-locked" } else { "beside" });
        let book = place.file("s/book-0");
        let keeper = std::thread::spawn(move || {
            (0..30).map(|i| store_as_a_keeper(&book, &request_of_another(i), locked)).collect::<Vec<_>>()
        });
        let mut saves = 0;
        while !keeper.is_finished() {
            assert_eq!(place.code(if saves % 2 == 0 { "save s one" } else { "save s two" }), 0);
            saves += 1;
        }
        let acknowledged = keeper.join().expect("a keeper");
        let bytes = place.get("s/book-0");
        let held: Vec<&[u8]> = bytes[11..].chunks(204).map(|record| &record[..40]).collect();
        let lost = acknowledged.iter().filter(|stamp| !held.contains(&stamp.as_slice())).count();
        assert_eq!(lost, 0, "of 30 records beside {saves} saves, by the lock: {locked}");
        assert_eq!(place.code("check s"), 0);
    }
}

/// What a keeper without the lock left is not touched; what our own crash left is.
#[test]
fn knows_its_own_from_a_keepers() {
    let place = five("own");
    place.put("s/book-0.sheet", "half");
    fs::hard_link(place.file("s/book-0.sheet"), place.file("s/book-0.new")).expect("a second name");
    assert_eq!(place.code("save s one"), 0);
    assert!(!place.file("s/book-0.new").exists() && !place.file("s/book-0.sheet").exists());
    place.put("s/book-1.new", "a keeper's");
    let (code, _, errors) = place.sheet("save s two");
    assert!(code == 0 && errors.contains("book-1.new: a keeper is writing"), "{errors}");
    assert_eq!(place.get("s/book-1.new"), b"a keeper's");
}

#[test]
fn follows_linked_books() {
    let place = five("linked");
    fs::create_dir(place.file("disk")).expect("a folder");
    fs::rename(place.file("s/book-2"), place.file("disk/b")).expect("moved");
    std::os::unix::fs::symlink("../disk/b", place.file("s/book-2")).expect("a link");
    let before = place.get("disk/b");
    assert_eq!(place.code("save s one"), 0);
    assert!(fs::symlink_metadata(place.file("s/book-2")).expect("a link").is_symlink());
    assert_ne!(place.get("disk/b"), before);
}

/// Cut off, `new` leaves a folder that `new` takes; one with books and no sign of that it leaves alone.
#[test]
fn makes_anew_what_was_cut_off() {
    let place = five("anew");
    fs::create_dir(place.file("cut")).expect("a folder");
    for name in ["making", "book-0", "book-1", "book-2.sheet"] {
        place.put(&format!("cut/{name}"), "half");
    }
    assert_eq!(place.code("new cut --plan p"), 0);
    assert_eq!(place.code("save cut one"), 0);
    assert!(!place.file("cut/making").exists());
    fs::remove_file(place.file("cut/plan")).expect("a plan");
    let before = place.get("cut/book-0");
    assert_eq!(place.code("new cut --plan p"), 2);
    assert_eq!(place.get("cut/book-0"), before);
}

/// Of two at once one makes the sheet, and a save beside them stays.
#[test]
fn makes_one_sheet_at_a_time() {
    let place = five("at-once");
    for i in 0..10 {
        let name = format!("t{i}");
        let new = || place.code(&format!("new {name} --plan p"));
        let codes = std::thread::scope(|scope| {
            let both = [scope.spawn(new), scope.spawn(new)];
            both.map(|one| one.join().expect("a code"))
        });
        assert_eq!(codes.iter().filter(|code| **code == 0).count(), 1, "{codes:?}");
        assert_eq!(place.code(&format!("save {name} one")), 0);
    }
}

// ---- small things

/// A plan's text says the same here as to keeper: blanks are spaces, tabs and carriage returns alone, zeros before a number count for nothing,
/// and a comment may hold any bytes.
#[test]
fn reads_a_plan_as_keeper_does() {
    let place = Place::new("text");
    let text = |n: &[u8]| [n, b"\nt 1\nb 1\nQ 3\nm 2\nF 4\nmember repairable\nclients crash\nW 3\n"].concat();
    for (name, line, code) in [
        ("plain", b"N 5".as_slice(), 0),
        ("blanks", b" \tN\t 5 \r", 0),
        ("zeros", b"N 00000000000000000005", 0),
        ("comment", b"N 5 # \xff\xfe caf\xe9", 0),
        ("space", b"N\xc2\xa05", 2),
        ("behind", b"N 5\xc2\xa0", 2),
        ("long", b"N 1000000005", 2),
        ("sign", b"N +5", 2),
    ] {
        place.put("p", text(line));
        assert_eq!(place.code(&format!("new {name} --plan p")), code, "{name}");
    }
}

#[test]
fn a_save_cut_off_before_any_node_holds_it() {
    let place = five("none");
    let before = place.get("s/book-0");
    let (code, out, _) = place.sheet("save s one --stop-after 0");
    assert!(code == 7 && out.ends_with("nothing was stored\n"), "{out}");
    assert_eq!(place.get("s/book-0"), before);
}

/// A book that is no file is a silent node, and nothing waits for it.
#[test]
fn a_pipe_is_no_book() {
    let place = five("pipe");
    assert_eq!(place.code("save s one"), 0);
    fs::remove_file(place.file("s/book-3")).expect("a book");
    assert!(Command::new("mkfifo").arg(place.file("s/book-3")).status().expect("mkfifo").success());
    let (code, _, err) = place.sheet("open s out");
    assert!(code == 0 && err.contains("book-3: cannot be read: "), "{err}");
    assert_eq!(place.get("out"), b"one leaf");
}

/// A snapshot that cannot be written is read all the same.
#[test]
fn opens_from_a_folder_that_may_not_be_written() {
    let place = five("snapshot");
    assert_eq!(place.code("save s one"), 0);
    let before = place.bytes();
    // The superuser writes everywhere, but not over a folder that is in the way.
    fs::create_dir(place.file("s/ask.sheet")).expect("in the way of the new ask number");
    let (code, _, err) = place.sheet("open s out");
    assert!(code == 0 && err.contains("ask: "), "{err}");
    assert_eq!(place.get("out"), b"one leaf");
    fs::remove_dir(place.file("s/ask.sheet")).expect("out of the way");
    assert_eq!(place.bytes(), before);
}

/// Full books are told by `check`, and by the save that does not end.
#[test]
fn full_books_are_told() {
    let place = five("full");
    assert_eq!(place.code("new f --plan p --room 215"), 0);
    assert_eq!(place.code("save f one"), 0);
    let (code, out, _) = place.sheet("check f");
    assert!(code == 0 && out.contains("full: 0 of 5 books have room for another save, which needs 4"), "{out}");
    let (code, out, _) = place.sheet("save f two");
    assert!(code == 7 && out.contains("; 5 books are full"), "{out}");
}

#[test]
fn json_has_whole_timestamps() {
    let place = five("whole");
    let (_, out, _) = place.sheet("save s one --json");
    let stamp = out.split("\"timestamp\":\"1:").nth(1).expect("a timestamp");
    assert_eq!(stamp.find('"'), Some(64), "{out}");
    let stamp = format!("1:{}", &stamp[..64]);
    let (_, out, _) = place.sheet("show s --json");
    assert_eq!(out.matches(&stamp).count(), 3, "saves, eye and candidate: {out}");
}

#[test]
fn options_are_indented() {
    let place = Place::new("indent");
    for verb in ["plan", "new", "save", "open", "show", "check", "heal"] {
        let (_, out, _) = place.sheet(&format!("{verb} --help"));
        let options = out.split("Options:\n").nth(1).and_then(|rest| rest.split("\n\n").next()).expect("options");
        assert!(options.lines().all(|line| line.starts_with("  --")), "{options}");
    }
}

/// A save whose result cannot be written says on standard error what came of it.
#[test]
fn a_result_that_cannot_be_written() {
    let place = five("result");
    let full = fs::OpenOptions::new().write(true).open("/dev/full").expect("/dev/full");
    let mut command = Command::new(env!("CARGO_BIN_EXE_sheet"));
    let output = command.args(["save", "s", "one"]).current_dir(&place.0).stdout(full).output().expect("it ends");
    let err = String::from_utf8_lossy(&output.stderr);
    assert!(output.status.code() == Some(9) && err.starts_with("sheet: done, but "), "{err}");
}

/// A plan that was edited is told by every verb, and nothing is given by it; W may change. A sheet that remembers no plan is told and served.
#[test]
fn a_folder_knows_its_plan() {
    let place = five("knows");
    assert_eq!(place.code("save s one"), 0);
    let plan = String::from_utf8(place.get("s/plan")).expect("a text");
    for (from, to) in [("m 2", "m 1"), ("clients crash", "clients byzantine"), ("b 1", "b 0")] {
        place.put("s/plan", plan.replace(from, to));
        for words in ["save s one", "open s out", "show s", "check s"] {
            let (code, out, err) = place.sheet(words);
            assert!(code == 8 && out.is_empty() && one_line(&err), "{words}: {out}{err}");
            assert!(err.contains(&format!("{from}, now {to}")), "{err}");
        }
    }
    place.put("s/plan", format!("# ours\n{}", plan.replace("W 3", "W 9")));
    assert_eq!(place.code("open s out"), 0);
    fs::remove_file(place.file("s/plan.made")).expect("what it was made with");
    for words in ["save s one", "open s out", "show s", "check s"] {
        let (code, _, err) = place.sheet(words);
        assert!(code == 0 && one_line(&err) && err.contains("plan.made"), "{words}: {err}");
    }
}
