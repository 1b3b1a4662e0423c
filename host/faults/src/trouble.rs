//! Why a run ends before its end.

use std::{fmt, io};

#[derive(Debug)]
pub enum Trouble {
    /// A sentence that is held against a run (docs/FAULTS.md) is broken.
    Broken(String),
    /// The harness cannot go on, or has not done what it is for.
    Failed(String),
}

impl Trouble {
    /// With words before it that say where.
    pub fn at(self, place: &str) -> Trouble {
        match self {
            Trouble::Broken(why) => Trouble::Broken(format!("{place}: {why}")),
            Trouble::Failed(why) => Trouble::Failed(format!("{place}: {why}")),
        }
    }
}

/// What the judge says.
impl From<String> for Trouble {
    fn from(why: String) -> Trouble {
        Trouble::Broken(why)
    }
}

impl From<io::Error> for Trouble {
    fn from(error: io::Error) -> Trouble {
        Trouble::Failed(error.to_string())
    }
}

impl fmt::Display for Trouble {
    fn fmt(&self, to: &mut fmt::Formatter) -> fmt::Result {
        let (Trouble::Broken(why) | Trouble::Failed(why)) = self;
        write!(to, "{why}")
    }
}
