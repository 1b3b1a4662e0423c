//! One operation of a client: a session, and between its calls whatever is wrong with the client.

use crate::library::{Session, ABORTED, DONE};
use crate::plan::{frame_kind, time_of, Plan, Stamp, FRAME_HEAD};
use crate::tactics::First;
use crate::wrong::Wrong;

pub struct Operation {
    session: Session,
    plan: Plan,
    wrong: Option<Wrong>,
    place: [u8; 3],
    /// Its number in the history.
    pub call: usize,
    /// The greatest timestamp that was completed before this began.
    pub floor: Stamp,
    /// How often it has asked again in this round.
    pub asked: usize,
    /// It is cut off when so many nodes have been handed its record.
    pub cut: Option<usize>,
    /// Its replies do not reach it: it gives up when so many are under way, and they come to the client's next operations.
    pub held: Option<usize>,
    /// Whom its read rounds hear first, where that is settled.
    pub probe: Option<First>,
    /// How much good nodes had executed before one of them answered this open; none: none has.
    pub answered: Option<usize>,
    /// The time replies that were taken: what each said, and whether its node was good when it was taken, and so when it spoke.
    told: Vec<(u64, bool)>,
}

/// What a reply came to.
pub enum Told {
    Refused,
    Nothing,
    /// A round has opened.
    Round,
    Ended(Ending),
}

pub struct Ending {
    pub said: u32,
    pub stamp: Stamp,
    pub item: Vec<u8>,
}

/// The plan that a client tells the library: a wrong one may tell another, where that is a plan. Of a save b decides the time alone.
fn claimed(plan: Plan, save: bool, wrong: Option<Wrong>) -> Plan {
    match wrong {
        Some(Wrong::Greatest) if save && plan.m <= plan.q => Plan { b: 0, ..plan },
        Some(Wrong::IgnoresB) if !save && plan.m <= plan.q => Plan { b: 0, ..plan },
        Some(Wrong::NoValidation) if !save => Plan { byzantine: false, ..plan },
        _ => plan,
    }
}

impl Operation {
    pub fn begin(
        plan: Plan,
        ask: u64,
        item: Option<Vec<u8>>,
        wrong: Option<Wrong>,
        call: usize,
        floor: Stamp,
    ) -> Operation {
        let session = Session::begin(claimed(plan, item.is_some(), wrong), ask, item);
        let place = session.place();
        Operation {
            session,
            plan,
            wrong,
            place,
            call,
            floor,
            asked: 0,
            cut: None,
            held: None,
            probe: None,
            answered: None,
            told: Vec::new(),
        }
    }

    pub fn save(&self) -> bool {
        self.session.save
    }

    /// In a write or repair round.
    pub fn storing(&self) -> bool {
        self.session.storing()
    }

    pub fn owed(&self, node: usize) -> Option<Vec<u8>> {
        self.session.owed(node)
    }

    /// How many of its time replies said 2^64-1.
    pub fn told_last(&self) -> usize {
        self.told.iter().filter(|(time, _)| *time == u64::MAX).count()
    }

    /// The greatest time that a good node told it.
    pub fn told_by_good(&self) -> Option<u64> {
        self.told.iter().filter(|(_, good)| *good).map(|(time, _)| *time).max()
    }

    /// Whether it had this timestamp written, in a write or repair round.
    pub fn wrote(&self, stamp: &Stamp) -> bool {
        self.session.writing() == *stamp
    }

    /// The time that it writes, in a write or repair round.
    pub fn time(&self) -> u64 {
        time_of(&self.session.writing())
    }

    /// Takes a reply, of a node that is good or not. Late, repeated and damaged ones are refused and change nothing.
    pub fn take(&mut self, frame: &[u8], good: bool) -> Told {
        let storing = self.session.storing();
        let said = self.session.reply(frame);
        if said != 0 && said < DONE {
            return Told::Refused;
        }
        if frame_kind(frame) == 2 {
            self.told.push((time_of(&frame[FRAME_HEAD..]), good));
        }
        let said = match said {
            0 => self.go_wrong(frame, storing),
            ABORTED if self.wrong == Some(Wrong::WalksOn) => self.session.walk_on(),
            _ => said,
        };
        if said >= DONE {
            return Told::Ended(self.ending(said));
        }
        let opened = self.session.place() != self.place;
        self.place = self.session.place();
        if opened {
            Told::Round
        } else {
            Told::Nothing
        }
    }

    /// What a wrong client does after a reply that was taken and ended nothing: what the library would have answered by then.
    fn go_wrong(&mut self, frame: &[u8], storing: bool) -> u32 {
        let heard = (0..self.plan.n).filter(|node| self.session.heard(*node)).count();
        match self.wrong {
            Some(Wrong::RepairFirst) if storing && !self.save() => DONE,
            Some(Wrong::SaveFirst) if storing && self.save() => DONE,
            Some(Wrong::WriteTwice) if storing && heard == 1 => self.once_more(frame),
            Some(Wrong::TimeEarly) if !storing && self.save() && heard + 1 == self.plan.replies() => {
                self.once_more(frame)
            }
            _ => 0,
        }
    }

    /// Hands the reply on again, as if a node that is not heard had sent it.
    fn once_more(&mut self, frame: &[u8]) -> u32 {
        let other = (0..self.plan.n).find(|node| !self.session.heard(*node)).expect("a round is open");
        let mut copy = frame.to_vec();
        copy[6] = other as u8;
        self.session.reply(&copy)
    }

    /// The library's ending; or, where a wrong client ends a write round by itself, that of its end.
    fn ending(&self, said: u32) -> Ending {
        if self.session.storing() {
            let item = if self.save() { self.session.item.clone() } else { self.session.desk_item() };
            return Ending { said, stamp: self.session.writing(), item };
        }
        Ending { said, stamp: self.session.stamp(), item: self.session.item.clone() }
    }
}
