//! What the promise asks a ledger not to do, or what carries its messages, done all the same.

#[derive(Clone, Copy, Debug, PartialEq, Eq)]
pub enum Mistake {
    Nothing,
    SavesFirst,
    ComesBack,
    SavesFirstAndComesBack,
    FalseReport,
    Twice,
    OtherEntry,
}

use Mistake::{
    ComesBack, FalseReport, Nothing, OtherEntry, SavesFirst, SavesFirstAndComesBack, Twice,
};

/// Each with its name on the command line and a sentence.
pub const ALL: [(Mistake, &str, &str); 7] = [
    (Nothing, "nothing", "nothing is done wrong"),
    (SavesFirst, "saves-first", "a ledger that stops inside a step may have saved before it sends"),
    (ComesBack, "comes-back", "a ledger that stops inside a step comes back as it was saved"),
    (
        SavesFirstAndComesBack,
        "saves-first-and-comes-back",
        "a ledger that stops inside a step has saved before it sends, and comes back so",
    ),
    (FalseReport, "false-report", "a ledger that runs is reported as stopped"),
    (Twice, "twice", "messages are delivered more than once"),
    (OtherEntry, "other-entry", "a message of another entry is delivered in this one's close"),
];

impl Mistake {
    /// Is it done whenever it can be? Any other is made once in a close.
    pub fn is_habit(self) -> bool {
        matches!(self, SavesFirst | Twice)
    }

    /// Does a ledger make it as it stops inside a step?
    pub fn stops_inside(self) -> bool {
        self.saves_first() || self.comes_back()
    }

    pub fn saves_first(self) -> bool {
        matches!(self, SavesFirst | SavesFirstAndComesBack)
    }

    pub fn comes_back(self) -> bool {
        matches!(self, ComesBack | SavesFirstAndComesBack)
    }

    /// What it adds to the words of what happens.
    pub fn words(self) -> &'static str {
        match self {
            Nothing => "",
            SavesFirst => ", its record saved",
            ComesBack => ", and it comes back",
            SavesFirstAndComesBack => ", its record saved, and it comes back",
            FalseReport => ", which runs",
            Twice => ", of which one more is under way",
            OtherEntry => ", of another entry",
        }
    }
}
