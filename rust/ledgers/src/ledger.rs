//! A ledger in a close: what it hears becomes a step, the step's messages leave, its record is
//! saved.

use crate::disk::{Disk, Standing};
use crate::mesh::{Heard, Mesh, News};
use fjadrimor::{Kind, Refusal, Site, Step};
use std::collections::HashSet;
use std::fmt;
use std::io::{self, Write};
use std::sync::mpsc::Receiver;

/// Why a ledger cannot go on.
#[derive(Debug)]
pub enum Trouble {
    Refused(Refusal),
    Failed(io::Error),
}

impl fmt::Display for Trouble {
    fn fmt(&self, out: &mut fmt::Formatter) -> fmt::Result {
        match self {
            Trouble::Refused(refusal) => refusal.fmt(out),
            Trouble::Failed(error) => error.fmt(out),
        }
    }
}

impl From<Refusal> for Trouble {
    fn from(refusal: Refusal) -> Trouble {
        Trouble::Refused(refusal)
    }
}

impl From<io::Error> for Trouble {
    fn from(error: io::Error) -> Trouble {
        Trouble::Failed(error)
    }
}

/// Says what happens, for an operator to read.
pub fn say(what: impl fmt::Display) {
    let _ = writeln!(io::stdout(), "{what}");
}

/// A step in words.
fn words(step: Step) -> String {
    match step {
        Step::Begin(_) => "begins".to_string(),
        Step::Start { from, .. } => format!("hears start from {from}"),
        Step::Deliver { kind, from } => format!("hears {} from {from}", kind.name()),
        Step::Notice(stopped) => format!("hears of the stop of {stopped}"),
        Step::TakeOver => "takes over".to_string(),
        Step::Conclude => "concludes".to_string(),
    }
}

/// Where the ledger is paced, it waits before everything that others can see or that stays, until
/// the operator lets it go on. So one can look at a close in the middle, and kill a ledger there.
pub struct Pace(pub Option<Receiver<()>>);

impl Pace {
    fn before(&self, what: impl fmt::Display) {
        say(what);
        if let Some(go) = &self.0 {
            let _ = go.recv();
        }
    }
}

/// A ledger that takes part in a close.
pub struct Ledger {
    site: Site,
    disk: Disk,
    mesh: Mesh,
    pace: Pace,
}

impl Ledger {
    /// A ledger whose saved record is this one.
    pub fn new(site: Site, disk: Disk, mesh: Mesh, pace: Pace) -> Ledger {
        Ledger { site, disk, mesh, pace }
    }

    /// News come; what they mean in the close is heard.
    pub fn learns(&mut self, news: News) -> Result<(), Trouble> {
        self.mesh.hears(news).map_or(Ok(()), |heard| self.hears(heard))
    }

    /// Something is heard. Then the ledger tries what it may do of itself: to lead where all lower
    /// ledgers have stopped, and as a leader to take the next decision.
    pub fn hears(&mut self, heard: Heard) -> Result<(), Trouble> {
        let step = match heard {
            Heard::Close => Step::Begin(self.disk.entry()?.vote()),
            Heard::Gone(from) => Step::Notice(from),
            Heard::Message { kind, from } => match Kind::numbered(kind) {
                Some(Kind::Start) => Step::Start { from, vote: self.disk.entry()?.vote() },
                Some(kind) => Step::Deliver { kind, from },
                None => return Err(io::Error::other(format!("{kind} is no message")).into()),
            },
        };
        if !self.tries(step)? {
            say(Refusal::NotAllowed);
        }
        while self.tries(Step::TakeOver)? || self.tries(Step::Conclude)? {}
        Ok(())
    }

    /// A step that is refused with 5 may be taken later; whether it was taken now.
    fn tries(&mut self, step: Step) -> Result<bool, Trouble> {
        match self.takes(step) {
            Ok(()) => Ok(true),
            Err(Trouble::Refused(Refusal::NotAllowed)) => Ok(false),
            Err(trouble) => Err(trouble),
        }
    }

    /// Takes a step: the library computes it, the messages leave, and the record is saved, in this
    /// order. Wherever the ledger is killed, its disk has the record of before the step and some of
    /// the messages have left, or all have left and it has the new one.
    fn takes(&mut self, step: Step) -> Result<(), Trouble> {
        let mut next = self.site;
        let done = next.step(step)?;
        say(words(step));
        // In no particular order: the rules hold for whatever part of them has left.
        for (kind, to) in done.messages().collect::<HashSet<_>>() {
            self.pace.before(format_args!("sends {} to {to}", kind.name()));
            self.mesh.send(kind, to);
        }
        if next != self.site {
            self.saves(next)?;
        }
        Ok(())
    }

    /// Saves the record, and with a decision also what it says of the entry.
    fn saves(&mut self, next: Site) -> io::Result<()> {
        let standing = Standing::of(next.state());
        let decides = next.state().is_decided() && !self.site.state().is_decided();
        self.pace.before(format_args!("saves {}", next.state().letter()));
        self.disk.save_record(next)?;
        self.site = next;
        if decides {
            self.pace.before(format_args!("marks its entry {standing}"));
            self.disk.mark_entry()?;
            say(standing);
        }
        Ok(())
    }
}
