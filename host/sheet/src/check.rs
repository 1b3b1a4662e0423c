//! `check`: which nodes are good, by the hashes of every record that they hold; and whether there is room for more.

use crate::book;
use crate::code::{Code, Fault, Report};
use crate::folder::Folder;
use crate::json::Json;
use pasis::Plan;
use std::path::Path;

/// What a book is to the plan: a book that still serves, but with a damaged record, is one of those that lie.
#[derive(PartialEq)]
pub enum Standing {
    Good,
    Silent,
    Lying,
}

/// A book's standing, and why, in words.
fn judged(folder: &Folder, node: usize) -> (Standing, String) {
    let plan = &folder.plan;
    let looked = folder.book(node).and_then(|book| book::records(plan, node, &book).map(|held| (held, book.len())));
    let (held, room) = match looked {
        Err(why) => return (Standing::Silent, why),
        Ok(looked) => looked,
    };
    let bad: Vec<String> = held.iter().filter(|held| !held.good).map(|held| held.stamp.to_string()).collect();
    if !bad.is_empty() {
        return (Standing::Lying, damaged_words(&bad));
    }
    let more = (room - 11) / plan.record_size() - held.len();
    (Standing::Good, good_words(held.len(), more))
}

/// How many good books have room for a record more.
fn roomy(folder: &Folder, books: &[(Standing, String)]) -> usize {
    let plan = &folder.plan;
    let room = |node: usize| {
        let book = folder.book(node).unwrap_or_default();
        book::records(plan, node, &book).is_ok_and(|held| plan.book_size(held.len() + 1) <= book.len())
    };
    (0..books.len()).filter(|node| books[*node].0 == Standing::Good && room(*node)).count()
}

/// What is said of all nodes, each of which is called so by its number: a line each, `more`, and whether there are too many that are not good.
pub fn tell(
    report: &mut Report,
    plan: &Plan,
    called: (&str, &'static str),
    judged: &[(Standing, String)],
    more: Vec<String>,
) {
    let bad = judged.iter().filter(|(standing, _)| *standing != Standing::Good).count();
    let lying = judged.iter().filter(|(standing, _)| *standing == Standing::Lying).count();
    let within = bad <= usize::from(plan.t) && lying <= usize::from(plan.b);
    if bad > 0 {
        report.code = Code::Damaged;
    }
    let (one, all) = called;
    for (node, (_, words)) in judged.iter().enumerate() {
        report.line(format!("{one}{node}: {words}"));
    }
    for line in more {
        report.line(line);
    }
    let (how, n, t, b) = (if within { "within" } else { "MORE than" }, plan.n, plan.t, plan.b);
    report.line(format!(
        "{bad} of {n} {all} not good, {lying} of them serving: {how} what the plan allows (t {t}, b {b})"
    ));
    let object = |(node, (standing, words)): (usize, &(Standing, String))| {
        let good = Json::Bool(*standing == Standing::Good);
        Json::Object(vec![("node", Json::Number(node as u64)), ("good", good), ("words", Json::text(words))])
    };
    report.say("bad", Json::Number(bad as u64));
    report.say("within", Json::Bool(within));
    report.say(all, Json::List(judged.iter().enumerate().map(object).collect()));
}

/// The words of a good node: how many records it holds, and for how many more there is room.
pub fn good_words(held: usize, more: usize) -> String {
    format!("good, {held} held, room for {more} more")
}

/// The words of damaged records.
pub fn damaged_words(bad: &[String]) -> String {
    format!("damaged: a hash check fails in {}", bad.join(" "))
}

pub fn check(folder: &Path) -> Result<Report, Fault> {
    let folder = Folder::enter(folder)?;
    let plan = &folder.plan;
    folder.next_ask()?;
    let books: Vec<_> = (0..usize::from(plan.n)).map(|node| judged(&folder, node)).collect();
    let mut report = Report::new(Code::Done);
    report.notes.extend(folder.note.clone());
    let (room, n, needed) = (roomy(&folder, &books), plan.n, plan.replies());
    let full = format!("full: {room} of {n} books have room for another save, which needs {needed}");
    let full = if room < needed { vec![full] } else { Vec::new() };
    tell(&mut report, plan, ("book-", "books"), &books, full);
    Ok(report)
}
