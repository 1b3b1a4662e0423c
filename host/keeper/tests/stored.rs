//! The stored run of the crate keeper, which the gate makes: its replies are those of the second program.

use second::plan::{Clients, Member, Plan};
use second::wire;
use std::fs;
use std::path::Path;

/// The plan of crates/keeper/data/PLAN; t and b differ, so that it would be outside its rules with the two exchanged.
fn plan() -> Plan {
    Plan { n: 7, t: 2, b: 1, q: 4, m: 2, f: 16, member: Member::Repairable, clients: Clients::Byzantine, w: 16 }
}

#[test]
fn stored_replies_are_those_of_the_second_program() {
    let from = Path::new(env!("CARGO_MANIFEST_DIR")).join("../../crates/keeper");
    let read = |name: &str| fs::read(from.join(name)).expect("a stored file");
    let text = String::from_utf8(read("data/PLAN")).expect("a text");
    let values: Vec<&str> = text.lines().filter_map(|line| line.split('#').next()?.split_whitespace().nth(1)).collect();
    assert_eq!(values, ["7", "2", "1", "4", "2", "16", "repairable", "byzantine", "16"]);

    let (input, mut book, mut replies) = (read("stdin"), read("data/BOOK"), Vec::new());
    let (mut rest, mut met) = (input.as_slice(), [0; 9]);
    while let Some(length) = rest.first_chunk::<4>() {
        let length = u32::from_be_bytes(*length) as usize;
        if !(11..=1587).contains(&length) {
            break;
        }
        let end = length + 4;
        let request = &rest[..end];
        let mut reply = vec![0; plan().frame_room()];
        let number = wire::node(&wire::plan_bytes(&plan()), request, &mut book, &mut reply);
        if number == 0 {
            let told = u32::from_be_bytes(*reply.first_chunk().expect("a frame")) as usize + 4;
            replies.extend_from_slice(&reply[..told]);
        }
        met[number as usize] += 1;
        rest = &rest[end..];
    }
    assert_eq!(replies, read("stdout"));
    assert_eq!(rest[..4], [0, 0, 0, 10], "a length that no request has");
    assert_eq!(rest[14..18], [0, 0, 0, 11], "a request after it, which is not read");
    assert!([0, 4, 5, 6, 8].iter().all(|number| met[*number] > 0), "refusals met: {met:?}");
}
