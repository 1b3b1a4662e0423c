//! `show` and `check` over nodes: every node is asked for all that it holds, and nothing is written anywhere.

use super::scrub::{scrub, Found};
use super::{Links, Roster};
use crate::book;
use crate::check::{self, damaged_words, good_words, Standing};
use crate::code::{Code, Fault, Report};
use crate::drive::{self, Nodes};
use crate::folder::Silence;
use crate::json::Json;
use crate::operation::Block;
use crate::picture;
use crate::verbs::list;
use crate::words::Net;
use pasis::{Answer, Plan, Timestamp};
use std::time::Instant;

/// A node that was looked at.
struct Seen {
    /// A book in memory with all that it told; why it has none.
    book: Result<Vec<u8>, Silence>,
    /// Whether it answers, but not as a node does.
    lies: bool,
    held: Vec<book::Held>,
    /// For how many more records it has room, where it told that.
    room: Option<usize>,
}

impl Seen {
    fn of(plan: &Plan, node: usize, found: Found, room: Option<usize>) -> Seen {
        let (book, lies) = match found {
            Found::Holds(records) => (book::of(plan, node, &records, room), false),
            Found::Silent(why) => (Err(format!("silent: {why}")), false),
            Found::Lies(why) => (Err(why), true),
        };
        let looked = book.and_then(|book| book::records(plan, node, &book).map(|held| (held, book)));
        let (held, book) = looked.map_or_else(|why| (Vec::new(), Err(why)), |(held, book)| (held, Ok(book)));
        let more = |bytes: usize| (bytes.saturating_sub(11) / plan.record_size()).saturating_sub(held.len());
        let room = room.filter(|_| book.is_ok()).map(more);
        Seen { book, lies, held, room }
    }

    fn damaged(&self) -> Vec<String> {
        self.held.iter().filter(|held| !held.good).map(|held| held.stamp.to_string()).collect()
    }

    fn good(&self) -> bool {
        self.book.is_ok() && self.damaged().is_empty()
    }

    /// Whether it is good and has not got this save.
    fn behind(&self, newest: Option<Timestamp>) -> bool {
        newest.is_some_and(|newest| self.good() && self.held.iter().all(|held| held.stamp != newest))
    }

    /// What the node is to the plan, in words.
    fn judged(&self, newest: Option<Timestamp>) -> (Standing, String) {
        let damaged = self.damaged();
        match &self.book {
            Err(why) if self.lies => return (Standing::Lying, why.clone()),
            Err(why) => return (Standing::Silent, why.clone()),
            Ok(_) if !damaged.is_empty() => return (Standing::Lying, damaged_words(&damaged)),
            Ok(_) => {}
        }
        let words = match self.room {
            Some(more) => good_words(self.held.len(), more),
            None => format!("good, {} held, its room is not told", self.held.len()),
        };
        let behind = newest.filter(|newest| self.behind(Some(*newest)));
        let behind = behind.map(|newest| format!("; behind, without {newest}")).unwrap_or_default();
        (Standing::Good, format!("{words}{behind}"))
    }
}

/// How many more saves fit: each needs room at N-t good nodes. At least, and at most, since not every node tells its room.
fn fit(plan: &Plan, seen: &[Seen]) -> (usize, Option<usize>) {
    let nth = |unknown: usize| {
        let room = |seen: &Seen| if seen.good() { seen.room.unwrap_or(unknown) } else { 0 };
        let mut rooms: Vec<usize> = seen.iter().map(room).collect();
        rooms.sort_unstable_by(|one, other| other.cmp(one));
        rooms[plan.replies() - 1]
    };
    (nth(0), Some(nth(usize::MAX)).filter(|most| *most < usize::MAX))
}

/// The same in words.
fn fit_words(least: usize, most: Option<usize>) -> String {
    let saves = if least == 1 { "save" } else { "saves" };
    let verb = if least == 1 { "fits" } else { "fit" };
    match most {
        Some(most) if most == least => format!("{least} more {saves} {verb}"),
        Some(most) => format!("{least} to {most} more saves fit; not every node tells its room"),
        None if least == 0 => "how many more saves fit is not known; too few nodes tell their room".to_string(),
        None => format!("{least} or more saves {verb}; not every node tells its room"),
    }
}

/// All nodes, looked at; and what was said meanwhile.
fn looked(net: &Net) -> Result<(Roster, Vec<Seen>, Vec<String>), Fault> {
    let roster = Roster::read(&net.file)?;
    let deadline = Instant::now() + net.within;
    let all: Vec<usize> = (0..usize::from(roster.plan.n)).collect();
    let mut links = Links::start(&roster);
    let found = scrub(&mut links, &roster, &all, deadline);
    let rooms: Vec<Option<usize>> = links.ways.iter().map(|way| way.room).collect();
    let notes = links.end();
    let seen = |((node, found), room)| Seen::of(&roster.plan, node, found, room);
    let seen = found?.into_iter().enumerate().zip(rooms).map(seen).collect();
    Ok((roster, seen, notes))
}

/// The books in memory of what was seen.
fn books(plan: &Plan, seen: &[Seen]) -> Nodes<'static> {
    Nodes::in_memory(plan, seen.iter().map(|seen| seen.book.clone()).collect())
}

fn taken(answer: Answer) -> Option<Timestamp> {
    match answer {
        Answer::Done { timestamp, .. } => Some(timestamp),
        _ => None,
    }
}

/// A line of those nodes of which this is so, if there are any; and a field.
fn those(report: &mut Report, name: &'static str, seen: &[Seen], so: impl Fn(&Seen) -> bool) {
    let nodes: Vec<usize> = (0..seen.len()).filter(|node| so(&seen[*node])).collect();
    if !nodes.is_empty() {
        report.line(format!("{name:<9}{}", list(&nodes)));
    }
    report.say(name, Json::numbers(&nodes));
}

fn say_fit(report: &mut Report, (least, most): (usize, Option<usize>)) {
    let number = |number: usize| Json::Number(number as u64);
    report.say("saves_fit", Json::Object(vec![("least", number(least)), ("most", Json::or_null(most.map(number)))]));
}

pub fn show(net: &Net, all: bool) -> Result<Report, Fault> {
    let (Roster { plan, .. }, seen, notes) = looked(net)?;
    let mut report = Report::new(Code::Done);
    report.notes.extend(notes);
    let run = picture::draw(&mut report, &plan, books(&plan, &seen), all)?;
    let newest = taken(run.answer);
    those(&mut report, "silent", &seen, |seen| seen.book.is_err() && !seen.lies);
    those(&mut report, "damaged", &seen, |seen| seen.lies || seen.book.is_ok() && !seen.good());
    those(&mut report, "behind", &seen, |seen| seen.behind(newest));
    let (least, most) = fit(&plan, &seen);
    report.line(format!("room     {}", fit_words(least, most)));
    say_fit(&mut report, (least, most));
    Ok(report)
}

pub fn check(net: &Net, room_for: usize) -> Result<Report, Fault> {
    let (Roster { plan, .. }, seen, notes) = looked(net)?;
    let mut report = Report::new(Code::Done);
    report.notes.extend(notes);
    let session = pasis::open_read(&plan, 0).or_else(|refusal| crate::code::fault(Code::Damaged, refusal))?;
    let block = Block::Open(&mut vec![0; plan.item_size()]);
    let newest = taken(drive::run(&plan, &mut books(&plan, &seen), session, block, None).answer);
    let judged: Vec<_> = seen.iter().map(|seen| seen.judged(newest)).collect();
    let (least, most) = fit(&plan, &seen);
    let words = fit_words(least, most);
    check::tell(&mut report, &plan, ("node ", "nodes"), &judged, vec![format!("room: {words}")]);
    let short = most.is_some_and(|most| most < room_for.max(1));
    if short {
        report.notes.push(format!("short of room: {words}, and --room-for is {room_for}"));
    }
    say_fit(&mut report, (least, most));
    report.say("short", Json::Bool(short));
    Ok(report)
}
