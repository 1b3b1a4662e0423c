//! A folder for one test: a plan, blocks, a file of nodes; and the nodes, if they are the test's own.

use crate::node::Node;
use pasis::{Clients, Member, Plan};
use std::fs;
use std::path::PathBuf;
use std::process::{Command, Stdio};
use std::thread;
use std::time::{Duration, Instant};

pub const SHEET: &str = env!("CARGO_BIN_EXE_sheet");

/// Five nodes, blocks of 8 bytes.
pub const PLAN: Plan =
    Plan { n: 5, t: 1, b: 1, q: 3, m: 2, f: 4, member: Member::Repairable, clients: Clients::Crash, w: 3 };

/// No wait of a trial is longer, on a busy machine either.
pub const PATIENCE: Duration = Duration::from_secs(30);

/// Looks again and again, until it is so.
pub fn until(what: &str, is: impl Fn() -> bool) {
    let begun = Instant::now();
    while !is() {
        assert!(begun.elapsed() < PATIENCE, "{what}: it does not come to this");
        thread::sleep(Duration::from_millis(5));
    }
}

/// What a command came to.
pub struct Said {
    pub code: i32,
    pub out: String,
    pub err: String,
    pub took: Duration,
}

pub struct Place {
    pub folder: PathBuf,
    pub nodes: Vec<Node>,
}

pub fn text(plan: &Plan) -> String {
    let Plan { n, t, b, q, m, f, w, .. } = plan;
    let member = if plan.member == Member::Repairable { "repairable" } else { "non-repair" };
    format!("N {n}\nt {t}\nb {b}\nQ {q}\nm {m}\nF {f}\nmember {member}\nclients crash\nW {w}\n")
}

impl Place {
    /// A folder with the plan and two blocks, `one` and `two`, and no nodes.
    pub fn bare(name: &str, plan: &Plan) -> Place {
        let folder = std::env::temp_dir().join(format!("nodes-test-{}-{name}", std::process::id()));
        let _ = fs::remove_dir_all(&folder);
        fs::create_dir(&folder).expect("a temporary folder");
        let place = Place { folder, nodes: Vec::new() };
        place.put("plan", text(plan));
        place.put("one", "one leaf");
        place.put("two", "two leaf");
        place
    }

    /// Nodes of the test's own, each with room for so many saves, and the file `nodes` of them.
    pub fn with(name: &str, plan: &Plan, room: usize) -> Place {
        let mut place = Place::bare(name, plan);
        place.nodes = (0..plan.n).map(|node| Node::start(plan, node, room)).collect();
        let line = |(node, of): (usize, &Node)| format!("node {node} tcp {}\n", of.address);
        let lines: String = place.nodes.iter().enumerate().map(line).collect();
        place.put("nodes", format!("# a test\nplan plan\n\n{lines}"));
        place
    }

    pub fn five(name: &str) -> Place {
        Place::with(name, &PLAN, 20)
    }

    pub fn put(&self, name: &str, bytes: impl AsRef<[u8]>) {
        fs::write(self.folder.join(name), bytes).expect("a file");
    }

    pub fn get(&self, name: &str) -> Vec<u8> {
        fs::read(self.folder.join(name)).expect("a file")
    }

    pub fn text(&self, name: &str) -> String {
        String::from_utf8(self.get(name)).expect("text")
    }

    pub fn command(&self, words: &str) -> Command {
        let mut command = Command::new(SHEET);
        command.args(words.split_whitespace()).current_dir(&self.folder);
        command.stdin(Stdio::null()).stdout(Stdio::piped()).stderr(Stdio::piped());
        command
    }

    pub fn sheet(&self, words: &str) -> Said {
        let begun = Instant::now();
        let output = self.command(words).output().expect("it starts");
        let text = |bytes: Vec<u8>| String::from_utf8_lossy(&bytes).into_owned();
        let (out, err) = (text(output.stdout), text(output.stderr));
        Said { code: output.status.code().expect("a code"), out, err, took: begun.elapsed() }
    }

    /// The same again and again, until what it says is so: on a busy machine a node that is not waited for may be told of otherwise.
    pub fn sheet_until(&self, words: &str, so: impl Fn(&Said) -> bool) -> Said {
        let begun = Instant::now();
        loop {
            let said = self.sheet(words);
            if so(&said) {
                return said;
            }
            assert!(begun.elapsed() < PATIENCE, "{words}: {}{}", said.out, said.err);
        }
    }

    /// Every node of the test's own holds so many records, or will soon: one that was not waited for got its request.
    pub fn all_hold(&self, count: usize) {
        until("all hold it", || self.nodes.iter().all(|node| node.held() == count));
    }

    /// A save that is done.
    pub fn save(&self, block: &str) -> Said {
        let said = self.sheet(&format!("save {block} --nodes nodes"));
        assert_eq!((said.code, said.err.as_str()), (0, ""), "{}", said.out);
        said
    }

    /// An open gives this block.
    pub fn opens(&self, block: &str) -> Said {
        let said = self.sheet("open out --nodes nodes");
        assert_eq!(said.code, 0, "{}{}", said.out, said.err);
        assert_eq!(self.get("out"), self.get(block), "{}", said.out);
        said
    }
}

impl Said {
    /// The line that begins so.
    pub fn line(&self, begin: &str) -> &str {
        let lines = self.out.lines().chain(self.err.lines());
        lines
            .clone()
            .find(|line| line.starts_with(begin))
            .unwrap_or_else(|| panic!("no {begin}: {}{}", self.out, self.err))
    }

    pub fn within(&self, least: f64, most: f64) {
        let took = self.took.as_secs_f64();
        assert!((least..=most).contains(&took), "{took} s: {}{}", self.out, self.err);
    }
}

impl Drop for Place {
    fn drop(&mut self) {
        let _ = fs::remove_dir_all(&self.folder);
    }
}
