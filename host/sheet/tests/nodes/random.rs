//! Saves, saves that are cut off, opens, machines that are lost and healed, in any order, with up to t nodes out of reach at each: no open goes back behind
//! what was done before it, or gives what nobody saved.

use crate::node::Way;
use crate::place::{Place, Said, PLAN};
use pasis::Plan;
use second::random::Random;

/// The timestamp that a command told: its time, then its verifier.
fn stamp(said: &Said) -> Option<(u64, String)> {
    let text = said.out.split("\"timestamp\":\"").nth(1)?.split('"').next()?;
    let (time, verifier) = text.split_once(':')?;
    Some((time.parse().expect("a time"), verifier.to_string()))
}

struct Trial {
    place: Place,
    random: Random,
    nodes: usize,
    /// The greatest that was done, and all blocks that were saved.
    done: Option<(u64, String)>,
    blocks: Vec<Vec<u8>>,
    healed: usize,
}

impl Trial {
    fn node(&mut self) -> usize {
        self.random.below(self.nodes)
    }

    fn save(&mut self, within: &str) -> Said {
        let block = format!("{:08}", self.blocks.len()).into_bytes();
        self.place.put("block", &block);
        self.blocks.push(block);
        self.place.sheet(&format!("save block --nodes nodes --json --within {within}"))
    }

    /// What is done is never below what was done before.
    fn comes_after(&mut self, said: &Said) {
        let stamp = stamp(said).expect("a timestamp");
        assert!(self.done.as_ref().is_none_or(|done| *done <= stamp), "{:?}, then {stamp:?}", self.done);
        self.done = Some(stamp);
    }

    /// One node is out of reach, or none.
    fn step(&mut self) {
        let (out, of) = (self.node(), self.random.below(8));
        if of > 1 {
            self.place.nodes[out].turn(Way::Closes);
        }
        match of {
            0 => {
                let lost = self.node();
                self.place.nodes[lost].lose_book();
                let said = self.place.sheet(&format!("heal --nodes nodes --node {lost} --json"));
                assert_eq!(said.code, 0, "{}", said.out);
                self.healed += 1;
            }
            1 | 2 => {
                let (one, other) = (self.node(), self.node());
                self.place.nodes[one].turn(Way::SilentToWrites);
                self.place.nodes[other].turn(Way::SilentToWrites);
                let said = self.save("0.2");
                assert!([0, 1, 7].contains(&said.code), "{}", said.out);
                if said.code == 0 {
                    self.comes_after(&said);
                }
            }
            3 | 4 => {
                let said = self.save("30");
                assert_eq!(said.code, 0, "{}", said.out);
                self.comes_after(&said);
            }
            _ => {
                let said = self.place.sheet("open out --nodes nodes --json");
                assert!(said.code == 0 || said.code == 3 && self.done.is_none(), "{}", said.out);
                if said.code == 0 {
                    self.comes_after(&said);
                    assert!(self.blocks.contains(&self.place.get("out")), "nobody saved this");
                }
            }
        }
        self.place.nodes.iter().for_each(|node| node.turn(Way::Serves));
    }
}

fn trial(name: &str, plan: Plan, seed: u64, steps: usize) {
    let place = Place::with(name, &plan, 100);
    let (nodes, random) = (usize::from(plan.n), Random::new(seed));
    let mut trial = Trial { place, random, nodes, done: None, blocks: Vec::new(), healed: 0 };
    (0..steps).for_each(|_| trial.step());
    assert!(
        trial.healed > 2 && trial.blocks.len() > steps / 4,
        "{} healed, {} saved",
        trial.healed,
        trial.blocks.len()
    );
}

#[test]
fn never_an_older_sheet_where_none_may_lie() {
    trial("none-lie", Plan { n: 4, t: 1, b: 0, q: 3, m: 2, w: 16, ..PLAN }, 1, 60);
}

#[test]
fn never_an_older_sheet_where_one_may_lie() {
    trial("one-lies", Plan { w: 16, ..PLAN }, 2, 60);
}
