//! Three ledgers close two entries at the same time, by `Site::step` alone. Ledger 3 does not agree
//! to entry 8, and ledger 1 stops while it sends its decision on entry 7.
//!
//!     cargo run --offline --manifest-path rust/Cargo.toml -p fjadrimor --example close
//!
//! `takes` and `hears` are what a ledger needs; docs/EMBEDDING.md has them with the reasons. The rest
//! stands for its disk, for the wire, and for what stops it. After each step it prints the entry and
//! the state of every ledger, in upper case once the ledger has stopped. In C it is examples/close.c.

use fjadrimor::{Kind, Refusal, Site, Step, Vote};
use std::collections::{BTreeMap, VecDeque};

const LEDGERS: u8 = 3;
const ENTRIES: [u32; 2] = [7, 8];

/// What goes over the wire: the entry, the kind of the message, who sends it, and to whom.
struct Envelope {
    entry: u32,
    kind: Kind,
    from: u8,
    to: u8,
}

type Wire = VecDeque<Envelope>;

/// Why a ledger does not go on.
enum Halt {
    Refused(Refusal),
    Stopped,
}

impl From<Refusal> for Halt {
    fn from(refusal: Refusal) -> Halt {
        Halt::Refused(refusal)
    }
}

/// A ledger keeps a record of eight bytes for each entry.
struct Ledger {
    number: u8,
    stopped: bool,
    disk: BTreeMap<u32, Site>,
    sent: u32,
}

impl Ledger {
    /// A ledger whose entries are all open.
    fn new(number: u8) -> Result<Ledger, Refusal> {
        let fresh = Site::fresh(LEDGERS, number)?;
        let disk = ENTRIES.into_iter().map(|entry| (entry, fresh)).collect();
        Ok(Ledger { number, stopped: false, disk, sent: 0 })
    }

    /// Puts a message on the wire. Ledger 1 stops before its tenth; then nothing leaves any more.
    fn sends(&mut self, wire: &mut Wire, entry: u32, kind: Kind, to: u8) -> Result<(), Halt> {
        self.sent += 1;
        self.stopped = self.number == 1 && self.sent == 10;
        if self.stopped {
            return Err(Halt::Stopped);
        }
        wire.push_back(Envelope { entry, kind, from: self.number, to });
        Ok(())
    }

    /// Saves a record.
    fn saves(&mut self, entry: u32, site: Site) -> Result<(), Halt> {
        self.disk.insert(entry, site);
        Ok(())
    }

    /// Takes a step: the library computes it, the messages leave, the record is saved. Where it is
    /// refused nothing has changed, and nothing has left. One that cannot send or save any more has
    /// stopped.
    fn takes(&mut self, wire: &mut Wire, entry: u32, step: Step) -> Result<(), Halt> {
        let mut site = self.disk[&entry];
        let done = site.step(step)?;
        for (kind, to) in done.messages() {
            self.sends(wire, entry, kind, to)?;
        }
        self.saves(entry, site)
    }

    /// Something is heard. Then the ledger tries what it may do of itself: to lead, where all lower
    /// ledgers have stopped, and as a leader to take the next decision. NotAllowed means: not yet.
    fn hears(&mut self, wire: &mut Wire, entry: u32, step: Step) -> Result<(), Halt> {
        self.takes(wire, entry, step)?;
        loop {
            let mut done = self.takes(wire, entry, Step::TakeOver);
            if let Err(Halt::Refused(Refusal::NotAllowed)) = done {
                done = self.takes(wire, entry, Step::Conclude);
            }
            if let Err(Halt::Refused(Refusal::NotAllowed)) = done {
                return Ok(());
            }
            done?;
        }
    }
}

/// A ledger's vote on an entry, given when it begins and when Start comes.
fn vote(number: u8, entry: u32) -> Vote {
    match (number, entry) {
        (3, 8) => Vote::No,
        _ => Vote::Yes,
    }
}

/// The ledgers, and the wire between them.
struct Register {
    ledgers: Vec<Ledger>,
    wire: Wire,
}

impl Register {
    /// Something happens to a ledger that runs, and where all stand is printed.
    fn happens(&mut self, number: u8, entry: u32, step: Step) -> Result<(), Refusal> {
        let ledger = &mut self.ledgers[usize::from(number) - 1];
        if ledger.stopped {
            return Ok(());
        }
        let done = ledger.hears(&mut self.wire, entry, step);
        let letter = |ledger: &Ledger| match ledger.disk[&entry].state().letter() {
            letter if ledger.stopped => letter.to_ascii_uppercase(),
            letter => letter,
        };
        println!("entry {entry}: {}", self.ledgers.iter().map(letter).collect::<String>());
        match done {
            Err(Halt::Refused(refusal)) => Err(refusal),
            _ => Ok(()),
        }
    }

    /// Delivers a message, to the record of its entry.
    fn delivers(&mut self, Envelope { entry, kind, from, to }: Envelope) -> Result<(), Refusal> {
        match kind {
            Kind::Start => self.happens(to, entry, Step::Start { from, vote: vote(to, entry) }),
            _ => self.happens(to, entry, Step::Deliver { kind, from }),
        }
    }
}

fn main() -> Result<(), Refusal> {
    let ledgers = (1..=LEDGERS).map(Ledger::new).collect::<Result<_, _>>()?;
    let mut register = Register { ledgers, wire: Wire::new() };
    for entry in ENTRIES {
        register.happens(1, entry, Step::Begin(vote(1, entry)))?;
    }
    let mut reported = false;
    while let Some(message) = register.wire.pop_front() {
        register.delivers(message)?;
        // The stop of ledger 1 is reported to each that runs: once, for every entry.
        if register.wire.is_empty() && register.ledgers[0].stopped && !reported {
            reported = true;
            for (number, entry) in [(2, 7), (2, 8), (3, 7), (3, 8)] {
                register.happens(number, entry, Step::Notice(1))?;
            }
        }
    }
    Ok(())
}
