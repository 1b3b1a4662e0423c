//! Five nodes that serve: by TCP, by commands, by both; what is said, in words and as JSON.

use crate::node::Way;
use crate::place::{text, Place, PLAN, SHEET};
use std::fs;

#[test]
fn a_save_and_an_open() {
    let place = Place::five("save");
    let said = place.sheet("open out --nodes nodes");
    assert_eq!((said.code, said.err.as_str()), (3, ""), "{}", said.out);
    assert!(said.out.starts_with("never written: ") && !place.folder.join("out").exists());
    let said = place.save("one");
    assert!(said.out.starts_with("saved: 1:") && said.out.contains(", stored at nodes "), "{}", said.out);
    place.all_hold(1);
    let said = place.sheet_until("save one --nodes nodes", |said| said.out.contains(", stored at nodes 0 1 2 3 4\n"));
    for node in 0..5 {
        let line = said.line(&format!("node {node}: stored, "));
        assert!(line.ends_with(" ms"), "{line}");
    }
    assert_eq!(said.out.lines().count(), 6);
    let said = place.save("two");
    let stamp = said.out.split([' ', ',']).nth(1).expect("a timestamp").to_string();
    let said = place.opens("two");
    assert!(said.out.starts_with(&format!("done: {stamp}")) && said.out.contains(", in 1 round\n"), "{}", said.out);
}

#[test]
fn standard_input_and_output() {
    let place = Place::five("pipes");
    let mut command = place.command("save - --nodes nodes");
    command.stdin(fs::File::open(place.folder.join("one")).expect("a file"));
    assert_eq!(command.output().expect("it starts").status.code(), Some(0));
    let said = place.sheet("open - --nodes nodes");
    assert_eq!((said.code, said.out.as_str()), (0, "one leaf"));
    assert!(said.err.starts_with("done: 1:") && said.err.contains("\nnode 0: "), "{}", said.err);
}

#[test]
fn as_json() {
    let place = Place::five("json");
    place.nodes[4].turn(Way::Closes);
    let words = "closed the channel at the greeting; if it is a keeper, its line begins with bare";
    let said = place.sheet_until("save one --nodes nodes --json", |said| said.out.contains(words));
    assert_eq!((said.code, said.err.as_str(), said.out.lines().count()), (0, "", 1));
    assert!(said.out.starts_with("{\"code\":0,\"outcome\":\"done\",\"timestamp\":\""), "{}", said.out);
    assert!(
        said.out.contains("\"stored\":[0,1,2,3],\"nodes\":[{\"node\":0,\"did\":\"stored\",\"ms\":"),
        "{}",
        said.out
    );
    let silent =
        format!("{{\"node\":4,\"did\":\"silent\",\"ms\":null,\"words\":\"silent: {words}\"}}],\"notes\":[]}}\n");
    assert!(said.out.ends_with(&silent), "{}", said.out);
    let said = place.sheet("open out --nodes nodes --json");
    assert!(said.out.contains("\"rounds\":1,\"notes\":[]}"), "{}", said.out);
    let said = place.sheet("save one --nodes none --json");
    assert_eq!(
        said.out,
        "{\"code\":2,\"outcome\":\"wrong use\",\"error\":\"none: no such file\",\"notes\":[\"none: no such file\"]}\n"
    );
}

/// Fresh books book-0 to book-4 and their plans, for programs that keep files.
pub fn books(place: &Place) {
    assert_eq!(place.sheet("new s --plan plan").code, 0);
    for node in 0..5 {
        fs::rename(place.folder.join(format!("s/book-{node}")), place.folder.join(format!("book-{node}")))
            .expect("moved");
        place.put(&format!("book-{node}.plan"), text(&PLAN));
    }
}

#[test]
fn commands_whose_pipes_carry_the_frames() {
    let place = Place::bare("exec", &PLAN);
    books(&place);
    let bare = |node: usize| if node % 2 == 0 { "bare " } else { "" };
    let line = |node: usize| format!("node {node} {}exec {SHEET} serve plan book-{node}\n", bare(node));
    place.put("nodes", format!("plan plan\n{}", (0..5).map(line).collect::<String>()));
    place.save("one");
    place.opens("one");
    let said = place.sheet("check --nodes nodes");
    assert_eq!(said.code, 0, "{}{}", said.out, said.err);
    assert!(said.line("node 0: ").ends_with(" held, its room is not told"), "{}", said.out);
    assert!(said.line("node 1: ").contains(" held, room for "), "{}", said.out);
    assert!(said.line("room: ").ends_with(" more saves fit; not every node tells its room"), "{}", said.out);
    // From another folder the file means the same.
    let mut command = place.command("open --nodes");
    command.arg(place.folder.join("nodes")).arg(place.folder.join("elsewhere")).current_dir("/");
    assert_eq!(command.output().expect("it starts").status.code(), Some(0));
    assert_eq!(place.get("elsewhere"), b"one leaf");
}

/// Programs that have the lock of their book serve one client at a time: clients that each have a part of the nodes give way to one another.
#[test]
fn many_clients_of_commands() {
    let place = Place::bare("give-way", &PLAN);
    books(&place);
    let line = |node: usize| format!("node {node} exec {SHEET} serve plan book-{node}\n");
    place.put("nodes", format!("plan plan\n{}", (0..5).map(line).collect::<String>()));
    let saves = || (0..2).map(|_| place.sheet("save one --nodes nodes --within 120")).find(|said| said.code != 0);
    std::thread::scope(|scope| {
        let clients: Vec<_> = (0..4).map(|_| scope.spawn(saves)).collect();
        for client in clients {
            let failed = client.join().expect("no panic").map(|said| said.out + &said.err);
            assert!(failed.is_none(), "{failed:?}");
        }
    });
    place.opens("one");
}

#[test]
fn a_command_is_never_left_behind() {
    let place = Place::five("left");
    place.put("stuck", "#!/bin/sh\necho $$ > pid\necho I am stuck >&2\nexec sleep 1000\n");
    fs::set_permissions(place.folder.join("stuck"), std::os::unix::fs::PermissionsExt::from_mode(0o755))
        .expect("a mode");
    let nodes = place.text("nodes").replace(&format!("tcp {}", place.nodes[4].address), "exec ./stuck");
    place.put("nodes", nodes);
    let said = place.sheet_until("save one --nodes nodes", |said| !said.err.is_empty());
    assert_eq!(said.code, 0, "{}", said.out);
    assert_eq!(said.err, "sheet: node 4: I am stuck\n");
    let pid = place.text("pid");
    assert!(!fs::exists(format!("/proc/{}", pid.trim())).expect("/proc"), "it lives");
    place.put("nodes", place.text("nodes").replace("./stuck", "./not-there"));
    let said = place.sheet("save one --nodes nodes");
    assert_eq!(said.line("node 4: "), "node 4: silent: cannot run ./not-there: no such file or directory");
}

#[test]
fn a_command_that_talks_without_end() {
    let place = Place::five("talks");
    place
        .put("talker", "#!/bin/sh\ni=0\nwhile [ $i -lt 3000 ]; do echo \"line $i\" >&2; i=$((i+1)); done\nread line\n");
    fs::set_permissions(place.folder.join("talker"), std::os::unix::fs::PermissionsExt::from_mode(0o755))
        .expect("a mode");
    let nodes = place.text("nodes").replace(&format!("tcp {}", place.nodes[4].address), "exec ./talker");
    place.put("nodes", nodes);
    let said = place.sheet_until("save one --nodes nodes", |said| !said.err.is_empty());
    assert_eq!(said.code, 0, "{}", said.out);
    assert!((1..=24).contains(&said.err.lines().count()), "{}", said.err);
    assert!(said.err.lines().all(|line| line.starts_with("sheet: node 4: ")), "{}", said.err);
}

#[test]
fn many_clients_of_one_file() {
    let place = Place::with("many", &PLAN, 40);
    let saves = |client: usize| {
        let block = ["one", "two"][client % 2];
        (0..4).map(|_| place.sheet(&format!("save {block} --nodes nodes"))).all(|said| said.code == 0)
    };
    std::thread::scope(|scope| {
        let clients: Vec<_> = (0..8).map(|client| scope.spawn(move || saves(client))).collect();
        assert!(clients.into_iter().all(|client| client.join().expect("no panic")), "a save was not done");
    });
    for node in &place.nodes {
        let times = node.asked().into_iter().filter(|(kind, _)| *kind == 1);
        let mut asks: Vec<u64> = times.map(|(_, ask)| ask).collect();
        asks.sort_unstable();
        asks.dedup();
        assert!(
            asks.windows(2).all(|two| two[1] - two[0] > u64::from(PLAN.w)),
            "ask numbers of two operations overlap"
        );
    }
    let said = place.sheet("open out --nodes nodes");
    assert_eq!(said.code, 0, "{}", said.out);
}
