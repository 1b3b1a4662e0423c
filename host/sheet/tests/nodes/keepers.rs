//! The same over the program keeper, by its pipes. KEEPER has the words that run it, one a line; host/try-keeper sets them and runs this.

use crate::place::{Place, PLAN};
use crate::together::books;
use std::env;

#[test]
#[ignore = "wants KEEPER, the words that run keeper: host/try-keeper runs it"]
fn five_keepers() {
    let words = env::var("KEEPER").expect("KEEPER: the words that run keeper, one a line");
    let keeper: Vec<&str> = words.lines().collect();
    let place = Place::bare("keepers", &PLAN);
    books(&place);
    let line = |node: usize, bare: &str| format!("node {node} {bare}exec {} plan book-{node}\n", keeper.join(" "));
    let lines = |bare: &str| (0..5).map(|node| line(node, bare)).collect::<String>();
    place.put("nodes", format!("plan plan\n{}", lines("bare ")));
    place.save("one");
    place.opens("one");
    let said = place.sheet("check --nodes nodes");
    assert_eq!((said.code, said.err.as_str()), (0, ""), "{}", said.out);
    assert!(said.line("node 3: ").ends_with(" held, its room is not told"), "{}", said.out);
    assert_eq!(place.sheet("heal --nodes nodes --node 3").code, 0);
    // A keeper that is greeted, and what it says itself.
    place.put("nodes", format!("plan plan\n{}", lines("bare ").replace("node 4 bare", "node 4")));
    let words = "node 4: silent: closed the channel at the greeting; if it is a keeper, its line begins with bare";
    let said = place.sheet_until("save two --nodes nodes", |said| said.out.contains(words));
    assert_eq!(said.code, 0, "{}", said.out);
    assert!(
        said.err.starts_with("sheet: node 4: standard input, after 0 bytes: no request has the length "),
        "{}",
        said.err
    );
}

/// keeper-locked serves one client at a time, and the others wait: clients that come together are all served.
#[test]
#[ignore = "wants KEEPER, the words that run keeper: host/try-keeper runs it"]
fn clients_at_once_over_keepers_with_the_lock() {
    assert!(env::var_os("KEEPER").is_some(), "KEEPER: the words that run keeper, which keeper-locked takes too");
    let place = Place::bare("locked", &PLAN);
    books(&place);
    let locked = concat!(env!("CARGO_MANIFEST_DIR"), "/../keeper-locked");
    let line = |node: usize| format!("node {node} bare exec {locked} plan book-{node}\n");
    place.put("nodes", format!("plan plan\n{}", (0..5).map(line).collect::<String>()));
    std::thread::scope(|scope| {
        let clients: Vec<_> =
            (0..3).map(|_| scope.spawn(|| place.sheet("save one --nodes nodes --within 120"))).collect();
        for client in clients {
            let said = client.join().expect("no panic");
            assert_eq!(said.code, 0, "{}{}", said.out, said.err);
        }
    });
    place.opens("one");
}
