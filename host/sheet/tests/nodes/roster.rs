//! The file of nodes, and the command line: each wrong one gets one line, and nothing is written.

use crate::place::{Place, PLAN};

/// Files, and the line that each gets behind its own name.
const WRONG: [(&str, &str); 20] = [
    ("", ", line 1, the last: after it here belongs plan and the path of a plan"),
    ("# nothing\n\n", ", line 2, the last: after it here belongs plan and the path of a plan"),
    ("node 0 tcp a:1\n", ", line 1: here belongs plan and the path of a plan"),
    ("plan\n", ", line 1: here belongs plan and the path of a plan"),
    ("plan a b\n", ", line 1: here belongs plan and the path of a plan"),
    ("plan plan\nplan plan\n", ", line 2: here belongs node 0 and how it is reached: tcp ADDRESS:PORT or exec COMMAND, with bare before it where it is a keeper"),
    ("plan plan\n\nnode 1 tcp a:1\n", ", line 3: here belongs node 0 and"),
    ("plan plan\nnode 0\n", ", line 2: here belongs node 0 and"),
    ("plan plan\nnode 0 tcp\n", ", line 2: here belongs node 0 and"),
    ("plan plan\nnode 0 tcp a\n", ", line 2: here belongs node 0 and"),
    ("plan plan\nnode 0 tcp a:0\n", ", line 2: here belongs node 0 and"),
    ("plan plan\nnode 0 tcp a:65536\n", ", line 2: here belongs node 0 and"),
    ("plan plan\nnode 0 tcp :7000\n", ", line 2: here belongs node 0 and"),
    ("plan plan\nnode 0 exec\n", ", line 2: here belongs node 0 and"),
    ("plan plan\nnode 0 exec a\nnode 0 exec a\n", ", line 3: here belongs node 1 and"),
    ("plan plan\nnode 0 bare\n", ", line 2: here belongs node 0 and"),
    ("plan plan\nclient 65536\n", ", line 2: here belongs client and a number, 0 to 65535"),
    ("client 1\nplan plan\nclient 2\n", ", line 3: the client is named already"),
    ("plan plan\nnode 0 exec a\nnode 1 exec a\nnode 2 exec a\nnode 3 exec a\n", ", line 5, the last: after it here belongs node 4 and"),
    ("plan plan\nnode 0 exec a\nnode 1 exec a\nnode 2 exec a\nnode 3 exec a\nnode 4 exec a\nnode 5 exec a\n", ", line 7: nothing more belongs here, the plan has N 5"),
];

#[test]
fn a_wrong_file_is_told_by_its_line() {
    let place = Place::bare("wrong", &PLAN);
    for (file, line) in WRONG {
        place.put("nodes", file);
        let said = place.sheet("save one --nodes nodes");
        let begin = format!("sheet: nodes{line}");
        assert!(said.code == 2 && said.out.is_empty() && said.err.starts_with(&begin), "{file:?}: {}", said.err);
        assert_eq!(said.err.lines().count(), 1);
    }
    assert!(!place.folder.join("nodes.ask").exists(), "a wrong file used ask numbers");
}

#[test]
fn a_file_that_names_no_plan_of_its_own() {
    let place = Place::bare("planless", &PLAN);
    let line = |place: &Place| place.sheet("open out --nodes nodes").err;
    assert_eq!(line(&place), "sheet: nodes: no such file\n");
    place.put("nodes", "plan other\n");
    assert_eq!(line(&place), "sheet: ./other: no such file\n");
    place.put("other", "N 5\nt 1\nX 1\n");
    assert_eq!(line(&place), "sheet: ./other: line 3: here belongs b and its value\n");
    place.put("other", "N 5\nt 1\nb 2\nQ 3\nm 2\nF 4\nmember repairable\nclients crash\nW 3\n");
    assert!(line(&place).starts_with("sheet: ./other: refusal 1: plan outside its rules"), "{}", line(&place));
    place.put("nodes", [0xff, 0xfe]);
    assert_eq!(line(&place), "sheet: nodes: this is no text\n");
    place.put("nodes", vec![b'#'; 70_000]);
    assert_eq!(line(&place), "sheet: nodes: longer than such a file may be\n");
}

/// A block is not written over what the client itself needs.
#[test]
fn no_place_for_a_block() {
    let place = Place::five("over");
    place.save("one");
    std::os::unix::fs::symlink("nodes", place.folder.join("link")).expect("a link");
    let own = ["nodes", "plan", "nodes.ask", "nodes.lock", "./nodes", "link"];
    let bytes = || own.map(|name| place.get(name));
    let before = bytes();
    for name in own {
        let said = place.sheet(&format!("open {name} --nodes nodes"));
        assert!(
            said.code == 2 && said.err.ends_with("this file of the nodes is no place for a block\n"),
            "{name}: {}",
            said.err
        );
    }
    assert_eq!(bytes(), before);
    assert_eq!(place.sheet("open other --nodes link").code, 0, "a link to the file is the file");
}

#[test]
fn wrong_words() {
    let place = Place::five("words");
    let wrong = [
        ("save one", "sheet save wants a FILE"),
        ("save --nodes nodes", "sheet save wants a FILE"),
        ("save s one --nodes nodes", "one is one argument too many"),
        ("save one --nodes nodes --down 1", "--down is of a FOLDER, and does not go with --nodes"),
        ("save one --nodes nodes --stop-after 1", "--stop-after is of a FOLDER, and does not go with --nodes"),
        ("open s out --within 3", "--within wants --nodes"),
        ("check s --room-for 3", "--room-for wants --nodes"),
        ("save one --nodes nodes --within 0", "--within: 0 is not a number of seconds, as 30 or 0.5"),
        ("save one --nodes nodes --within -1", "--within: -1 is not a number of seconds, as 30 or 0.5"),
        ("save one --nodes nodes --within 1.2.3", "--within: 1.2.3 is not a number of seconds, as 30 or 0.5"),
        (
            "save one --nodes nodes --within 99999999999",
            "--within: 99999999999 is not a number of seconds, as 30 or 0.5",
        ),
        ("heal --node 3", "--node wants --nodes"),
        ("heal", "sheet heal wants --nodes and a file of nodes"),
        ("heal --nodes nodes", "sheet heal wants --node and the number of a node"),
        ("heal --nodes nodes --node x", "--node: x is not a number"),
        ("heal --nodes nodes --node 5", "--node: there is no node 5, the plan has 0 to 4"),
        ("save plan --nodes nodes", "plan: a block of this plan has exactly 8 bytes, and this has more"),
    ];
    for (words, line) in wrong {
        let said = place.sheet(words);
        assert!(said.code == 2 && said.err.starts_with(&format!("sheet: {line}")), "{words}: {}", said.err);
        assert!(said.out.is_empty() && said.err.lines().count() == 1, "{words}: {}{}", said.out, said.err);
    }
    assert!(place.nodes.iter().all(|node| node.asked().is_empty()), "a node was asked");
}
