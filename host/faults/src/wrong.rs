//! Clients and keepers that are wrong on purpose, each in one thing. They are no programs: a wrapper changes what is done between the calls
//! of the library, or between the network and a keeper. The harness is tried with them: a run with one of them has to be found broken.

/// What is wrong.
#[derive(Clone, Copy, Debug, PartialEq)]
pub enum Wrong {
    /// A repair is done at its first reply.
    RepairFirst,
    /// A reader takes b for 0: a set of Q is complete.
    IgnoresB,
    /// The first reply of a write round is counted for another node too.
    WriteTwice,
    /// A time round ends one reply early.
    TimeEarly,
    /// A writer takes b for 0: its time is above the greatest reply, a liar's too.
    Greatest,
    /// A save is done at the first reply of its write round.
    SaveFirst,
    /// A reader takes Byzantine clients for crash clients: nothing is validated.
    NoValidation,
    /// A reader of a plan without repair takes an unclassifiable set for an incomplete one and walks on.
    WalksOn,
    /// A client opens all its operations with the same ask number.
    SameAsk,
    /// A keeper acknowledges every third new record and drops it.
    KeeperDrops,
    /// A keeper acknowledges a record and stores it when it is asked next.
    KeeperEarly,
}

/// All of them, by the name that `--wrong` takes.
pub const ALL: [(&str, Wrong); 11] = [
    ("repair-first", Wrong::RepairFirst),
    ("ignores-b", Wrong::IgnoresB),
    ("write-twice", Wrong::WriteTwice),
    ("time-early", Wrong::TimeEarly),
    ("greatest", Wrong::Greatest),
    ("save-first", Wrong::SaveFirst),
    ("no-validation", Wrong::NoValidation),
    ("walks-on", Wrong::WalksOn),
    ("same-ask", Wrong::SameAsk),
    ("keeper-drops", Wrong::KeeperDrops),
    ("keeper-early", Wrong::KeeperEarly),
];

pub fn named(name: &str) -> Option<(&'static str, Wrong)> {
    ALL.iter().find(|(known, _)| *known == name).copied()
}
