//! The nodes of one plan: a folder that `sheet new` made, and a process of `sheet serve` for each of its books.

use crate::Outcome;
use std::fs;
use std::io::{BufRead, BufReader, Read};
use std::path::{self, Path, PathBuf};
use std::process::{Child, Command, Stdio};
use std::thread;

/// Loopback, and not the address that connections come from: one to a port where nobody listens could else meet itself.
const ADDRESS: &str = "127.0.0.2";

struct Node {
    /// Known once it has served for the first time; it is started there again.
    port: u16,
    process: Option<Child>,
}

pub struct Site {
    program: PathBuf,
    folder: PathBuf,
    /// The length of a record.
    pub record: usize,
    nodes: Vec<Node>,
}

impl Site {
    /// Makes the folder with a plan of this text and fresh books; no node is started.
    pub fn made(program: &Path, folder: &Path, n: usize, fragment: usize, plan: &str) -> Outcome<Site> {
        let folder = &path::absolute(folder).map_err(|error| format!("{}: {error}", folder.display()))?;
        let text = folder.with_extension("plan");
        fs::write(&text, plan).map_err(|error| format!("{}: {error}", text.display()))?;
        let made = Command::new(program).arg("new").arg(folder).arg("--plan").arg(&text).output();
        let made = made.map_err(|error| format!("{}: {error}", program.display()))?;
        if !made.status.success() {
            return Err(format!("sheet new: {}", String::from_utf8_lossy(&made.stderr).trim_end()));
        }
        let nodes = (0..n).map(|_| Node { port: 0, process: None }).collect();
        let (program, folder) = (program.to_path_buf(), folder.to_path_buf());
        Ok(Site { program, folder, record: 40 + 32 * n + fragment, nodes })
    }

    /// Makes the folder, and starts a node for each book.
    pub fn new(program: &Path, folder: &Path, n: usize, fragment: usize, plan: &str) -> Outcome<Site> {
        let mut site = Site::made(program, folder, n, fragment, plan)?;
        (0..n).try_for_each(|node| site.start(node))?;
        Ok(site)
    }

    pub fn nodes(&self) -> usize {
        self.nodes.len()
    }

    pub fn book(&self, node: usize) -> PathBuf {
        self.folder.join(format!("book-{node}"))
    }

    /// Starts a node, and waits until it serves.
    pub fn start(&mut self, node: usize) -> Outcome<()> {
        let mut command = Command::new(&self.program);
        command.arg("serve").arg(self.folder.join("plan")).arg(self.book(node));
        command.arg("--listen").arg(format!("{ADDRESS}:{}", self.nodes[node].port)).arg("--quiet");
        command.arg("--counters").arg(self.counters(node));
        command.stdin(Stdio::null()).stdout(Stdio::null()).stderr(Stdio::piped());
        let mut process = command.spawn().map_err(|error| format!("{}: {error}", self.program.display()))?;
        let mut said = BufReader::new(process.stderr.take().ok_or("sheet serve has no standard error")?);
        self.nodes[node].process = Some(process);
        let mut line = String::new();
        let port = loop {
            line.clear();
            match said.read_line(&mut line) {
                Ok(1..) => {}
                _ => return Err(format!("node {node} ended before it served")),
            }
            if let Some((_, port)) = line.split_once(&format!(" on {ADDRESS}:")) {
                break port.trim_end().parse().map_err(|_| format!("node {node} says: {line}"))?;
            }
        };
        self.nodes[node].port = port;
        // What it says later is read and dropped, so that it never waits.
        thread::spawn(move || said.read_to_end(&mut Vec::new()));
        Ok(())
    }

    /// Kills a node by SIGKILL.
    pub fn kill(&mut self, node: usize) {
        if let Some(mut process) = self.nodes[node].process.take() {
            let _ = process.kill();
            let _ = process.wait();
        }
    }

    /// Ends a node by SIGTERM, and waits until it has ended; its counters then lie in a file.
    pub fn end(&mut self, node: usize) -> Outcome<()> {
        let Some(mut process) = self.nodes[node].process.take() else { return Ok(()) };
        let told = Command::new("kill").arg(process.id().to_string()).status();
        told.map_err(|error| format!("kill: {error}"))?;
        let status = process.wait().map_err(|error| format!("node {node}: {error}"))?;
        status.success().then_some(()).ok_or(format!("node {node} ended with {status}"))
    }

    fn counters(&self, node: usize) -> PathBuf {
        self.folder.with_extension(format!("counters-{node}"))
    }

    /// How often a node that has ended stored its book.
    pub fn stores(&self, node: usize) -> Outcome<u64> {
        let path = self.counters(node);
        let text = fs::read_to_string(&path).map_err(|error| format!("{}: {error}", path.display()))?;
        let words: Vec<&str> =
            text.split(|letter: char| !letter.is_ascii_alphanumeric()).filter(|word| !word.is_empty()).collect();
        let place = words.iter().position(|word| *word == "stores");
        let number = place.and_then(|place| words.get(place + 1)).and_then(|word| word.parse().ok());
        number.ok_or(format!("{}: says no number of stores", path.display()))
    }

    /// The file of nodes of one client, which has its own ask numbers: `way` says how a node is reached.
    fn written(&self, client: usize, way: impl Fn(usize) -> String) -> Outcome<PathBuf> {
        let path = self.folder.with_extension(format!("nodes-{client}"));
        let mut text = format!("plan {}\nclient {client}\n", self.folder.join("plan").display());
        for node in 0..self.nodes() {
            text += &format!("node {node} {}\n", way(node));
        }
        fs::write(&path, text).map_err(|error| format!("{}: {error}", path.display()))?;
        Ok(path)
    }

    /// A client of the nodes that were started.
    pub fn file(&self, client: usize) -> Outcome<PathBuf> {
        self.written(client, |node| format!("tcp {ADDRESS}:{}", self.nodes[node].port))
    }

    /// A client that starts a keeper for each node, by these words.
    pub fn file_of_keepers(&self, words: &[String]) -> Outcome<PathBuf> {
        let (words, plan) = (words.join(" "), self.folder.join("plan"));
        let way = |node| format!("bare exec {words} {} {} locked", plan.display(), self.book(node).display());
        self.written(0, way)
    }
}

impl Drop for Site {
    /// No process is left behind.
    fn drop(&mut self) {
        for node in 0..self.nodes() {
            self.kill(node);
        }
    }
}
