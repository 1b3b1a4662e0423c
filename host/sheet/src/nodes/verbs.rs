//! `save` and `open` over nodes.

use super::asks;
use super::carry::{carry, Carried};
use super::roster::Roster;
use super::Links;
use crate::code::{fault, Code, Fault, Report};
use crate::json::Json;
use crate::operation::{Block, Operation, NOT_CLOSED};
use crate::verbs::{self, block, ending, give, saved};
use crate::words::Net;
use pasis::Answer;
use std::ffi::OsStr;
use std::time::Instant;

/// The first of the W+1 ask numbers of an operation.
pub fn ask(roster: &Roster, deadline: Instant) -> Result<u64, Fault> {
    asks::take(roster, u64::from(roster.plan.w) + 1, deadline)
}

/// The report of an operation over nodes: what every one says, what each node did, what was said meanwhile.
fn told(code: Code, line: String, carried: Carried, notes: Vec<String>) -> Report {
    let mut report = verbs::told(code, line, &carried.run);
    report.notes.extend(notes);
    let nodes = deeds(&mut report, carried.told, "");
    report.say("nodes", nodes);
    report
}

/// What each node did: a line each, behind so many blanks; the objects.
pub fn deeds(report: &mut Report, told: Vec<(String, Json)>, blanks: &str) -> Json {
    let (lines, objects): (Vec<String>, Vec<Json>) = told.into_iter().unzip();
    for line in lines {
        report.line(format!("{blanks}{line}"));
    }
    Json::List(objects)
}

pub fn save(net: &Net, file: &OsStr) -> Result<Report, Fault> {
    let roster = Roster::read(&net.file)?;
    let plan = &roster.plan;
    let item = block(plan, file)?;
    let deadline = Instant::now() + net.within;
    let session = pasis::open_write(plan, ask(&roster, deadline)?).or_else(|refusal| fault(Code::Damaged, refusal))?;
    let mut links = Links::start(&roster);
    let carried = carry(&mut links, Operation::new(plan, session, Block::Save(&item)), &[], deadline);
    let notes = links.end();
    let (code, line) = saved(plan, &carried.run, false);
    Ok(told(code, line, carried, notes))
}

pub fn open(net: &Net, file: &OsStr) -> Result<Report, Fault> {
    let roster = Roster::read(&net.file)?;
    let plan = &roster.plan;
    if file != "-" {
        roster.apart_from(file)?;
    }
    let deadline = Instant::now() + net.within;
    let session = pasis::open_read(plan, ask(&roster, deadline)?).or_else(|refusal| fault(Code::Damaged, refusal))?;
    let mut item = vec![0; plan.item_size()];
    let mut links = Links::start(&roster);
    let mut carried = carry(&mut links, Operation::new(plan, session, Block::Open(&mut item)), &[], deadline);
    let notes = links.end();
    if let Answer::Done { timestamp, .. } = carried.run.answer {
        carried.run.stamp = Some(timestamp);
        give(file, &item)?;
    }
    let (code, line) = ending(plan, &carried.run);
    let rounds = carried.run.rounds.iter().filter(|round| round.verdict != NOT_CLOSED).count();
    let mut report = told(code, line, carried, notes);
    report.say("rounds", Json::Number(rounds as u64));
    report.aside = file == "-";
    Ok(report)
}
