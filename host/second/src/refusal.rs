//! The refusal numbers (document 01, "Refusal numbers"; document 02, Q-1 and Q-3).

#[derive(Clone, Copy, Debug, PartialEq, Eq)]
pub enum Refusal {
    Plan = 1,
    Length = 2,
    Book = 3,
    Frame = 4,
    Time = 5,
    Hash = 6,
    Held = 7,
    Room = 8,
    Session = 9,
    Awaited = 10,
    Heard = 11,
    Bound = 12,
    Opening = 13,
    Ended = 14,
    Wish = 20,
    Run = 21,
}

/// One step of a call's order of refusals: go on if `met`, else refuse with this number.
pub fn require(met: bool, refusal: Refusal) -> Result<(), Refusal> {
    if met {
        Ok(())
    } else {
        Err(refusal)
    }
}
