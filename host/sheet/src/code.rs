//! How a command ends: its exit code, and what it says.

use crate::json::Json;
use std::fmt::Display;

#[derive(Clone, Copy, Debug, PartialEq, Eq)]
pub enum Code {
    Done = 0,
    InPart = 1,
    WrongUse = 2,
    NeverWritten = 3,
    Aborted = 4,
    RoundsSpent = 5,
    ClockSpent = 6,
    NoEnd = 7,
    Damaged = 8,
    System = 9,
}

impl Code {
    pub fn name(self) -> &'static str {
        match self {
            Code::Done => "done",
            Code::InPart => "done in part",
            Code::WrongUse => "wrong use",
            Code::NeverWritten => "never written",
            Code::Aborted => "aborted",
            Code::RoundsSpent => "rounds spent",
            Code::ClockSpent => "clock spent",
            Code::NoEnd => "no end",
            Code::Damaged => "damaged",
            Code::System => "system",
        }
    }
}

/// Why a command came to nothing: its code and one line.
#[derive(Debug)]
pub struct Fault {
    pub code: Code,
    pub line: String,
}

pub fn fault<T>(code: Code, line: impl Display) -> Result<T, Fault> {
    Err(Fault { code, line: line.to_string() })
}

impl Fault {
    /// One line on standard error; with --json the same in an object too.
    pub fn report(self, json: bool) -> Report {
        let mut report = Report::new(self.code);
        if json {
            report.say("error", Json::text(&self.line));
        }
        report.notes.push(self.line);
        report
    }
}

/// What a command has to say at its end: lines for people, or one object.
pub struct Report {
    pub code: Code,
    pub lines: Vec<String>,
    pub notes: Vec<String>,
    /// Standard output is taken by the block.
    pub aside: bool,
    pub is_help: bool,
    /// All of it was said already, as a server's.
    pub said: bool,
    object: Vec<(&'static str, Json)>,
}

impl Report {
    pub fn new(code: Code) -> Report {
        let (lines, notes, object) = (Vec::new(), Vec::new(), Vec::new());
        Report { code, lines, notes, aside: false, is_help: false, said: false, object }
    }

    pub fn help(text: &str) -> Report {
        let mut report = Report::new(Code::Done);
        report.is_help = true;
        report.lines.push(text.to_string());
        report
    }

    /// One more line for people.
    pub fn line(&mut self, line: impl Display) {
        self.lines.push(format!("{line}\n"));
    }

    /// One more field of the object.
    pub fn say(&mut self, name: &'static str, value: Json) {
        self.object.push((name, value));
    }

    /// The object, on one line.
    pub fn json(&self) -> String {
        let mut object = vec![("code", Json::Number(self.code as u64)), ("outcome", Json::text(self.code.name()))];
        object.extend(self.object.iter().cloned());
        object.push(("notes", Json::List(self.notes.iter().map(Json::text).collect())));
        format!("{}\n", Json::Object(object))
    }
}
