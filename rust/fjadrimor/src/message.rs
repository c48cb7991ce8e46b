//! Votes and messages.

/// A ledger's vote on its entry.
#[derive(Clone, Copy, Debug, PartialEq, Eq, Hash)]
pub enum Vote {
    Yes,
    No,
}

impl Vote {
    /// The vote as field V has it.
    pub(crate) fn field(self) -> u8 {
        match self {
            Vote::Yes => 1,
            Vote::No => 2,
        }
    }
}

/// A kind of message, with document 01's number.
#[derive(Clone, Copy, Debug, PartialEq, Eq, PartialOrd, Ord, Hash)]
#[repr(u8)]
pub enum Kind {
    /// Site 1 asks for a vote.
    Start = 1,
    /// A vote, to site 1.
    Yes = 2,
    /// A vote, to site 1.
    No = 3,
    /// A leader brings a site to p.
    MoveP = 4,
    /// A leader brings a site to w.
    MoveW = 5,
    /// The answer to either move.
    Ack = 6,
    /// The entry is posted.
    Commit = 7,
    /// The entry is backed out.
    Abort = 8,
}

impl Kind {
    /// Every kind, ascending.
    pub const ALL: [Kind; 8] = [
        Kind::Start,
        Kind::Yes,
        Kind::No,
        Kind::MoveP,
        Kind::MoveW,
        Kind::Ack,
        Kind::Commit,
        Kind::Abort,
    ];

    /// Document 01's number.
    pub fn number(self) -> u8 {
        self as u8
    }

    /// The kind with this number, if there is one.
    pub fn numbered(number: u8) -> Option<Kind> {
        Kind::ALL.into_iter().find(|kind| kind.number() == number)
    }

    /// Its name in lower case, as journals in words have it.
    pub fn name(self) -> &'static str {
        match self {
            Kind::Start => "start",
            Kind::Yes => "yes",
            Kind::No => "no",
            Kind::MoveP => "move-p",
            Kind::MoveW => "move-w",
            Kind::Ack => "ack",
            Kind::Commit => "commit",
            Kind::Abort => "abort",
        }
    }
}

/// A message under way.
#[derive(Clone, Copy, Debug, PartialEq, Eq, PartialOrd, Ord, Hash)]
pub struct Message {
    pub kind: Kind,
    pub from: u8,
    pub to: u8,
}
