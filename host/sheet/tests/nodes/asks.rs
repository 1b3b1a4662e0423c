//! Ask numbers: none is ever used by two operations, though the client is killed at any moment, and the power is cut.

use crate::node::Way;
use crate::place::{Place, PATIENCE, PLAN};
use keeper_trials::disk::{calls, files, Disk};
use std::collections::BTreeSet;
use std::fs::File;
use std::path::{Path, PathBuf};
use std::process::Command;
use std::sync::mpsc::{channel, Sender};
use std::thread;
use std::time::{Duration, Instant};

/// The ask numbers of all requests that came to any node.
fn used(place: &Place) -> BTreeSet<u64> {
    place.nodes.iter().flat_map(|node| node.asked()).map(|(_, ask)| ask).collect()
}

fn next(place: &Place) -> u64 {
    place.text("nodes.ask").trim_end().parse().expect("a number")
}

/// A save that is done, whose numbers are all above those that were used before.
fn saves_above(place: &Place, before: &BTreeSet<u64>) {
    place.save("two");
    let after = used(place);
    let new: Vec<u64> = after.difference(before).copied().collect();
    // A request of an earlier one, which was killed, may come late.
    assert!(new.len() >= 2, "a save has a time round and a write round");
    assert!(before.iter().all(|old| *old < new[0]), "{before:?}, then {new:?}");
}

#[test]
fn they_rise_by_operation_and_name_the_client() {
    let place = Place::five("rise");
    place.put("nodes", format!("client 7\n{}", place.text("nodes")));
    place.put("nodes.ask", "100\n");
    place.save("one");
    assert_eq!(used(&place), BTreeSet::from([7 << 48 | 100, 7 << 48 | 101]));
    assert_eq!(next(&place), 104);
    place.opens("one");
    assert_eq!(used(&place).last(), Some(&(7 << 48 | 104)));
    for (text, code) in [("", 8), ("12x\n", 8), ("-1\n", 8), ("281474976710653\n", 8), ("999999999999999999999\n", 8)] {
        place.put("nodes.ask", text);
        let said = place.sheet("save one --nodes nodes");
        assert!(
            said.code == code && said.err.starts_with("sheet: ") && said.err.lines().count() == 1,
            "{text}: {}",
            said.err
        );
        assert_eq!(place.text("nodes.ask"), text);
    }
    place.put("nodes.ask", "281474976710651\n");
    place.save("one");
    assert_eq!(used(&place).last(), Some(&(7 << 48 | 281_474_976_710_652)));
}

/// A counter that is lost begins above what it was.
#[test]
fn a_lost_counter() {
    let place = Place::five("lost");
    place.save("one");
    let before = used(&place);
    std::fs::remove_file(place.folder.join("nodes.ask")).expect("it was there");
    thread::sleep(Duration::from_millis(5));
    saves_above(&place, &before);
}

/// Another program that has the lock of the file, until what this gives is dropped; and not for ever, so that a trial ends.
fn held(place: &Place, most: Duration) -> Sender<()> {
    let file = File::create(place.folder.join("nodes.lock")).expect("a file");
    file.lock().expect("its lock");
    let (release, released) = channel();
    thread::spawn(move || {
        let _ = released.recv_timeout(most);
        drop(file);
    });
    release
}

/// Who meets the lock held is not kept longer than the deadline says; one line, and no node was asked.
#[test]
fn a_lock_that_is_not_given_back() {
    let place = Place::five("held");
    let release = held(&place, PATIENCE);
    for words in ["save one", "open out", "show", "check", "heal --node 3"] {
        let said = place.sheet(&format!("{words} --nodes nodes --within 0.8"));
        let line = "nodes.lock: another program has this lock, and did not give it back before the deadline\n";
        assert_eq!((said.code, said.out.as_str(), said.err.lines().count()), (9, "", 1), "{words}: {}", said.err);
        assert!(said.err.starts_with("sheet: ") && said.err.ends_with(line), "{words}: {}", said.err);
        said.within(0.8, 20.0);
    }
    assert!(place.nodes.iter().all(|node| node.came() == 0));
    drop(release);
    place.save("one");
}

/// One that is given back before the deadline is taken then.
#[test]
fn a_lock_that_is_given_back_in_time() {
    let place = Place::five("given-back");
    let (begun, most) = (Instant::now(), Duration::from_secs(1));
    let _release = held(&place, most);
    place.save("one");
    assert!(begun.elapsed() >= most, "it did not wait");
}

/// The library that takes the calls down, compiled into this folder.
fn trace(folder: &Path) -> PathBuf {
    let source = Path::new(env!("CARGO_MANIFEST_DIR")).join("../keeper/trace/trace.c");
    let library = folder.join("trace.so");
    let mut cc = Command::new("cc");
    cc.args(["-shared", "-O1", "-fPIC", "-ffreestanding", "-o"]).arg(&library).arg(source);
    assert!(cc.status().expect("a C compiler").success());
    library
}

/// A save whose calls are taken down, and which is killed before one of them, if it comes so far.
fn traced(place: &Place, trace: &Path, log: &Path, kill: usize) -> Option<i32> {
    let nodes = place.folder.join("nodes");
    let mut command = place.command("save one");
    command.arg("--nodes").arg(nodes).env("LD_PRELOAD", trace).env("TRACE_LOG", log);
    command.env("TRACE_KILL", kill.to_string());
    command.status().expect("it starts").code()
}

/// Killed before each call that changes the disk, and cut off from power after each: when a node has been asked, the counter is above that on every disk.
#[test]
fn killed_and_cut_at_every_call() {
    let place = Place::with("cut", &PLAN, 60);
    let away = Place::bare("cut-log", &PLAN);
    let trace = trace(&away.folder);
    place.save("one");
    let mut killed = 0;
    for line in 1.. {
        let (log, from, before) = (away.folder.join(format!("LOG-{line}")), files(&place.folder), used(&place));
        let code = traced(&place, &trace, &log, line);
        let after = used(&place);
        let mut disk = Disk::new(&place.folder, &from);
        calls(&log).iter().for_each(|call| disk.make(call));
        for counter in disk.may_be("nodes.ask") {
            let text = String::from_utf8(counter.expect("there is always a counter")).expect("text");
            let next: u64 = text.trim_end().parse().expect("a whole number");
            assert!(after.iter().all(|ask| *ask < next), "killed before call {line}: {next}, and {after:?} are used");
        }
        if code.is_some() {
            break;
        }
        killed += usize::from(before == after);
        saves_above(&place, &after);
    }
    assert!(
        killed >= 5,
        "{killed} kills before a node was asked: a new file, its bytes, fsync, rename, fsync of the folder"
    );
}

/// Killed at any moment of an operation.
#[test]
fn killed_in_the_middle() {
    let place = Place::with("middle", &PLAN, 60);
    place.nodes.iter().for_each(|node| node.turn(Way::Slow(4)));
    place.save("one");
    for pause in 0..14 {
        let before = used(&place);
        let mut child = place.command("save one --nodes nodes").spawn().expect("it starts");
        thread::sleep(Duration::from_millis(2 * pause));
        child.kill().expect("it is killed");
        child.wait().expect("it ends");
        thread::sleep(Duration::from_millis(20));
        let after = used(&place);
        assert!(after.difference(&before).all(|new| before.iter().all(|old| old < new)), "{before:?}, {after:?}");
    }
    let before = used(&place);
    saves_above(&place, &before);
}
