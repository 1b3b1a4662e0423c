//! `show`: the picture that operators used to judge by eye, a row a node and a column a save; and under it what the rule decides. The rule is
//! the library's: an open is run on copies of the books in memory, and nothing is written.

use crate::book::{self, Held};
use crate::code::{fault, Code, Fault, Report};
use crate::drive::{self, Nodes};
use crate::folder::{Folder, Silence};
use crate::json::Json;
use crate::operation::{Block, Round, Run, NOT_CLOSED};
use crate::plan_text;
use crate::verbs::{ending, known, list, plan_json};
use pasis::{Plan, Timestamp};
use std::path::Path;

/// How many columns are shown without --all.
const COLUMNS: usize = 6;

type Row = Result<Vec<Held>, Silence>;

/// The timestamps of all records, rising, each once.
fn columns(rows: &[Row]) -> Vec<Timestamp> {
    let mut stamps: Vec<Timestamp> = rows.iter().flatten().flatten().map(|held| held.stamp).collect();
    stamps.sort();
    stamps.dedup();
    stamps
}

fn cell(row: &[Held], stamp: Timestamp) -> &'static str {
    match row.iter().find(|held| held.stamp == stamp) {
        None => ".",
        Some(held) if held.good => "x",
        Some(_) => "!",
    }
}

/// The nodes in whose books the newest record lies, good or not: what the eye would choose.
fn by_eye(rows: &[Row], newest: Timestamp) -> Vec<usize> {
    let holds = |row: &Row| row.as_ref().is_ok_and(|held| held.iter().any(|held| held.stamp == newest));
    rows.iter().enumerate().filter(|(_, row)| holds(row)).map(|(node, _)| node).collect()
}

fn head(report: &mut Report, plan: &Plan) {
    let values: Vec<String> = plan_text::values(plan).iter().map(|(name, value)| format!("{name} {value}")).collect();
    let (replies, complete, incomplete) = (plan.replies(), plan.complete(), plan.incomplete());
    report.line(format!("plan     {}", values.join(", ")));
    report.line(format!("rule     {replies} replies end a round; a set of {complete} or more is complete, below {incomplete} incomplete"));
}

fn table(report: &mut Report, rows: &[Row], stamps: &[Timestamp], all: bool) {
    let left_out = if all { 0 } else { stamps.len().saturating_sub(COLUMNS) };
    let shown = &stamps[left_out..];
    let width = shown.iter().map(|stamp| stamp.to_string().len()).max().unwrap_or(0);
    let titles: String = shown.iter().map(|stamp| format!("  {stamp:<width$}")).collect();
    let titles = if shown.is_empty() { "  none" } else { titles.trim_end() };
    report.line(format!("save     {titles}"));
    for (node, row) in rows.iter().enumerate() {
        let cells = match row {
            Err(why) => format!("  {why}"),
            Ok(row) => shown.iter().map(|stamp| format!("  {:<width$}", cell(row, *stamp))).collect(),
        };
        report.line(format!("node {node:<4}{cells}").trim_end());
    }
    report.line("           x held, ! held but damaged, . not held");
    if left_out > 0 {
        report.line(format!("           {left_out} older saves are left out; --all shows them"));
    }
}

/// A read round in words.
fn round_line(number: usize, round: &Round) -> String {
    let below = round.bound.map(|bound| format!(" below {bound}")).unwrap_or_default();
    let heard = list(&round.heard);
    let found = match round.candidate {
        None if round.verdict == NOT_CLOSED => return format!("round {number}  heard {heard}{below}: {NOT_CLOSED}"),
        None => "candidate the first triple".to_string(),
        Some(stamp) => format!("candidate {stamp}, its set {}", list(&round.set)),
    };
    format!("round {number}  heard {heard}{below}; {found}: {}", round.verdict)
}

fn round_json(round: &Round) -> Json {
    Json::Object(vec![
        ("bound", Json::or_null(round.bound.map(Json::stamp))),
        ("heard", Json::numbers(&round.heard)),
        ("candidate", Json::or_null(round.candidate.map(Json::stamp))),
        ("set", Json::numbers(&round.set)),
        ("verdict", Json::text(round.verdict)),
    ])
}

fn row_json((node, row): (usize, &Row), stamps: &[Timestamp]) -> Json {
    let node = ("node", Json::Number(node as u64));
    match row {
        Err(why) => Json::Object(vec![node, ("silent", Json::text(why.strip_prefix("silent: ").unwrap_or(why)))]),
        Ok(row) => {
            let cells = stamps.iter().map(|stamp| Json::text(cell(row, *stamp)));
            Json::Object(vec![node, ("cells", Json::List(cells.collect()))])
        }
    }
}

fn object(report: &mut Report, plan: &Plan, rows: &[Row], stamps: &[Timestamp], run: &Run) {
    report.say("plan", plan_json(plan));
    report.say("saves", Json::List(stamps.iter().copied().map(Json::stamp).collect()));
    report.say("rows", Json::List(rows.iter().enumerate().map(|row| row_json(row, stamps)).collect()));
    report.say("eye", Json::or_null(stamps.last().copied().map(Json::stamp)));
    report.say("rounds", Json::List(run.rounds.iter().map(round_json).collect()));
    let (code, words) = ending(plan, run);
    report.say("verdict", Json::Object(vec![("outcome", Json::text(code.name())), ("words", Json::text(words))]));
}

/// The rows of these nodes.
fn rows(plan: &Plan, nodes: &Nodes) -> Vec<Row> {
    let row = |node: usize| nodes.book(node).map_err(Silence::clone).and_then(|book| book::records(plan, node, book));
    (0..usize::from(plan.n)).map(row).collect()
}

/// The picture of these nodes, and what the rule decides on copies of their books; what came of that.
pub fn draw(report: &mut Report, plan: &Plan, mut nodes: Nodes, all: bool) -> Result<Run, Fault> {
    let rows = rows(plan, &nodes);
    let stamps = columns(&rows);
    // Nothing leaves this process, so no ask number is used up.
    let session = pasis::open_read(plan, 0).or_else(|refusal| fault(Code::Damaged, refusal))?;
    let run = drive::run(plan, &mut nodes, session, Block::Open(&mut vec![0; plan.item_size()]), None);
    head(report, plan);
    table(report, &rows, &stamps, all);
    if let Some(newest) = stamps.last() {
        report.line(format!("by eye   {newest}, the newest fragment seen, at {}", list(&by_eye(&rows, *newest))));
    }
    for (place, round) in run.rounds.iter().enumerate() {
        report.line(round_line(place + 1, round));
    }
    report.line(format!("verdict  {}", ending(plan, &run).1));
    object(report, plan, &rows, &stamps, &run);
    Ok(run)
}

pub fn show(folder: &Path, down: &[usize], all: bool) -> Result<Report, Fault> {
    let folder = Folder::enter(folder)?;
    known(&folder.plan, down)?;
    let mut report = Report::new(Code::Done);
    report.notes.extend(folder.note.clone());
    draw(&mut report, &folder.plan, Nodes::of(&folder, down, false), all)?;
    Ok(report)
}
