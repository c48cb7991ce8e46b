//! What was found on the disks of all closes.

use crate::close::{Found, Killed, Told};
use crate::replay::replay;
use ledgers::disk::Standing;

impl Found {
    fn runs(&self) -> bool {
        self.killed.is_none()
    }

    /// What its record says of its entry.
    fn standing(&self) -> Standing {
        Standing::of(self.record.state())
    }

    /// Was it killed before an action that begins so, with so many messages of its step sent?
    fn killed_before(&self, action: &str, sent: impl Fn(usize) -> bool) -> bool {
        let before =
            |killed: &Killed| killed.before.as_ref().is_some_and(|b| b.starts_with(action));
        self.killed.as_ref().is_some_and(|killed| before(killed) && sent(killed.sent))
    }
}

impl Told {
    fn any(&self, is: impl Fn(&Found) -> bool) -> bool {
        self.ledgers.iter().any(is)
    }

    /// Does some record say this of its entry?
    fn stands(&self, standing: Standing) -> bool {
        self.any(|found| found.standing() == standing)
    }

    /// Does some entry say this of itself?
    fn is_marked(&self, standing: Standing) -> bool {
        self.any(|found| found.entry.standing == standing)
    }

    fn all_running(&self, standing: Standing) -> bool {
        self.ledgers.iter().filter(|ledger| ledger.runs()).all(|found| found.standing() == standing)
    }

    fn first(&self) -> &Found {
        &self.ledgers[0]
    }

    fn backups(&self, is: impl Fn(&Found) -> bool) -> bool {
        self.ledgers[1..].iter().any(is)
    }

    fn stops(&self) -> usize {
        self.ledgers.iter().filter(|found| !found.runs()).count()
    }

    /// All that is known of the close.
    fn tell(&self) {
        println!("{:?}", self.plan);
        for (site, found) in (1..).zip(&self.ledgers) {
            println!("ledger {site} {}: {}", found.record.state().letter(), found.entry);
            found.said.iter().for_each(|line| println!("    {line}"));
            if let Some(killed) = &found.killed {
                println!("    {killed:?}");
            }
        }
    }

    /// What is wrong on the disks, with the processes, or with the close as a run.
    fn wrong(&self) -> Option<String> {
        let broken = FAULTS.iter().find(|(_, is)| is(self)).map(|(name, _)| name.to_string());
        broken.or_else(|| self.trouble.clone()).or_else(|| replay(self).err())
    }
}

/// Something that can be found of a close.
type Case = (&'static str, fn(&Told) -> bool);

/// What must never be found.
const FAULTS: [Case; 6] = [
    ("an entry is posted beside one that is backed out", |told| {
        told.stands(Standing::Posted) && told.stands(Standing::BackedOut)
            || told.is_marked(Standing::Posted) && told.is_marked(Standing::BackedOut)
    }),
    ("a ledger that runs has not decided", |told| {
        told.any(|found| found.runs() && found.standing() == Standing::Open)
    }),
    ("an entry is not what its ledger's record says", |told| {
        told.any(|found| found.runs() && found.entry.standing != found.standing())
    }),
    ("an entry was marked before the record was saved", |told| {
        told.any(|found| ![Standing::Open, found.standing()].contains(&found.entry.standing))
    }),
    ("an entry is posted although a ledger votes no", |told| {
        told.plan.against.is_some() && told.stands(Standing::Posted)
    }),
    ("all vote yes, none was killed, and the entry is not posted", |told| {
        let undisturbed = told.plan.against.is_none() && told.stops() == 0;
        undisturbed && !told.all_running(Standing::Posted)
    }),
];

/// What a test of closes must have reached to be one.
const CASES: [Case; 16] = [
    ("ended posted", |told| told.all_running(Standing::Posted)),
    ("ended backed out", |told| told.all_running(Standing::BackedOut)),
    ("no ledger killed", |told| told.stops() == 0),
    ("several ledgers killed", |told| told.stops() > 1),
    ("one ledger left", |told| told.stops() + 1 == told.ledgers.len()),
    ("killed at full speed", |told| !told.plan.paced && told.stops() > 0),
    ("a ledger that would vote no", |told| told.plan.against.is_some()),
    ("coordinator killed before its first Commit", |told| {
        told.first().killed_before("sends commit", |sent| sent == 0)
    }),
    ("coordinator killed between two Commits", |told| {
        told.first().killed_before("sends commit", |sent| sent > 0)
    }),
    ("coordinator killed with its Commits sent and nothing saved", |told| {
        told.first().killed_before("saves c", |_| true)
    }),
    ("coordinator killed between two Move-ps, ended posted", |told| {
        let between = told.first().killed_before("sends move-p", |sent| sent > 0);
        between && told.all_running(Standing::Posted)
    }),
    ("coordinator killed between two Move-ps, ended backed out", |told| {
        let between = told.first().killed_before("sends move-p", |sent| sent > 0);
        between && told.all_running(Standing::BackedOut)
    }),
    ("backup killed before or while it sent its move", |told| {
        told.backups(|found| found.killed_before("sends move", |_| true))
    }),
    ("backup killed before or while it sent its decision", |told| {
        let killed = |found: &Found, action| found.killed_before(action, |_| true);
        told.backups(|found| killed(found, "sends commit") || killed(found, "sends abort"))
    }),
    ("ledger killed with its Yes sent and nothing saved", |told| {
        told.backups(|found| found.killed_before("saves w", |sent| sent == 1))
    }),
    ("killed ledger still open beside posted ones", |told| {
        told.stands(Standing::Open) && told.stands(Standing::Posted)
    }),
];

/// The number of closes, of broken ones, of killed ledgers, and of each case.
#[derive(Default)]
pub struct Tally {
    closes: u32,
    broken: u32,
    killed: usize,
    cases: [u32; CASES.len()],
}

impl Tally {
    /// Adds a close, and tells of it where something is wrong.
    pub fn add(&mut self, number: u64, told: &Told) {
        self.closes += 1;
        self.killed += told.stops();
        for (count, (_, is)) in self.cases.iter_mut().zip(CASES) {
            *count += u32::from(is(told));
        }
        if let Some(wrong) = told.wrong() {
            self.broken += 1;
            println!("close {number} is broken: {wrong}");
            told.tell();
        }
    }

    /// Prints what was found; whether all is well and every case was reached.
    pub fn finish(&self) -> bool {
        println!("{} ledgers killed", self.killed);
        for (count, (name, _)) in self.cases.iter().zip(CASES) {
            println!("{count:5}  {name}");
        }
        let reached = self.cases.iter().all(|&count| count > 0);
        if !reached {
            println!("a case with 0 was not reached, so this was no test");
        }
        println!("{} closes, {} broken", self.closes, self.broken);
        reached && self.broken == 0
    }
}
