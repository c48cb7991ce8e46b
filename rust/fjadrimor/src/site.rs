//! One site: what a ledger keeps of a close.

use crate::sites::named;
use crate::{calls, Kind, Refusal, Sites, Step};

/// The state of a site.
#[derive(Clone, Copy, Debug, PartialEq, Eq, PartialOrd, Ord, Hash)]
pub enum State {
    /// q: nothing has happened yet.
    First,
    /// w: the site waits.
    Wait,
    /// p: the site is prepared to post.
    Prepared,
    /// a: the entry is backed out, for ever.
    Abort,
    /// c: the entry is posted, for ever.
    Commit,
}

impl State {
    const ALL: [State; 5] =
        [State::First, State::Wait, State::Prepared, State::Abort, State::Commit];

    /// Document 01's letter.
    pub fn letter(self) -> char {
        ['q', 'w', 'p', 'a', 'c'][self as usize]
    }

    /// Is this the end of the close for the site?
    pub fn is_decided(self) -> bool {
        matches!(self, State::Abort | State::Commit)
    }
}

/// What became of a step or an event that was not refused.
#[derive(Clone, Copy, Debug, PartialEq, Eq, Hash)]
pub enum Outcome {
    Taken,
    /// Passed over: it writes nothing, and changes at most the leader followed. In a run a delivered
    /// message leaves the network all the same.
    Passed,
}

impl Outcome {
    pub(crate) fn of_byte(byte: u8) -> Outcome {
        match byte {
            0 => Outcome::Taken,
            _ => Outcome::Passed,
        }
    }
}

/// The answer to a step.
#[derive(Clone, Copy, Debug, PartialEq, Eq, Hash)]
pub struct Done {
    pub outcome: Outcome,
    /// The one kind of message that the step writes, if it writes any.
    pub message: Option<Kind>,
    /// To whom.
    pub receivers: Sites,
    /// The number of messages written.
    pub written: u8,
    /// The number of sites that this one still waits for.
    pub awaited: u8,
    /// The lowest of these, the one to ring; none where it waits for nobody.
    pub lowest: Option<u8>,
}

impl Done {
    /// The messages written, each with its receiver.
    pub fn messages(self) -> impl Iterator<Item = (Kind, u8)> {
        self.message
            .into_iter()
            .flat_map(move |kind| self.receivers.iter().map(move |to| (kind, to)))
    }
}

/// A sound site record: the eight bytes that a ledger saves.
#[derive(Clone, Copy, Debug, PartialEq, Eq, Hash)]
pub struct Site([u8; 8]);

impl Site {
    /// Site `number` of `n` before a close: in q, following site 1, with nothing heard. Refused
    /// with 1 where n is not 2 to 8 or the number not 1 to n.
    pub fn fresh(n: u8, number: u8) -> Result<Site, Refusal> {
        Site::from_bytes([n, number, 0, 1, 0, 0, 0, 0])
    }

    /// A saved record. Bytes that are no sound record are refused with 1.
    pub fn from_bytes(bytes: [u8; 8]) -> Result<Site, Refusal> {
        let mut site = Site(bytes);
        // A notice about site 0 changes nothing: it is refused with 2, and before that with 1
        // where the record is not sound.
        match site.step(Step::Notice(0)) {
            Err(Refusal::NotSound) => Err(Refusal::NotSound),
            _ => Ok(site),
        }
    }

    /// The record as it is saved.
    pub fn bytes(self) -> [u8; 8] {
        self.0
    }

    /// The number of sites.
    pub fn n(self) -> u8 {
        self.0[0]
    }

    /// The site's own number.
    pub fn number(self) -> u8 {
        self.0[1]
    }

    pub fn state(self) -> State {
        State::ALL[usize::from(self.0[2])]
    }

    /// The site that it follows. A site that follows itself leads.
    pub fn leader(self) -> u8 {
        self.0[3]
    }

    /// The sites that it knows to have stopped.
    pub fn known_stopped(self) -> Sites {
        Sites::from_mask(self.0[4])
    }

    /// The sites from which it has heard Yes.
    pub fn yes_heard(self) -> Sites {
        Sites::from_mask(self.0[5])
    }

    /// The sites from which it has heard No.
    pub fn no_heard(self) -> Sites {
        Sites::from_mask(self.0[6])
    }

    /// The sites that have acknowledged its move.
    pub fn acknowledged(self) -> Sites {
        Sites::from_mask(self.0[7])
    }

    /// Takes a step. A refused one (2, 5, 6, or 14 for a Start without a vote) changes nothing.
    ///
    /// The messages of the answer leave *before* the new record is saved: a ledger that stops in
    /// between is then the rules' stop inside a step, and the others can go on without it.
    pub fn step(&mut self, step: Step) -> Result<Done, Refusal> {
        let [k, o, m, v] = step.fields();
        let mut answer = [0; calls::SITE_ANSWER];
        Refusal::heed(calls::site_step(&mut self.0, k, o, m, v, &mut answer))?;
        let [outcome, kind, receivers, written, awaited, lowest] = answer;
        Ok(Done {
            outcome: Outcome::of_byte(outcome),
            message: Kind::numbered(kind),
            receivers: Sites::from_mask(receivers),
            written,
            awaited,
            lowest: named(lowest),
        })
    }
}
