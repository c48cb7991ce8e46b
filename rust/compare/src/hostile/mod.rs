//! Hostile input to every entry point of the C interface: random bytes and such as are nearly right,
//! lengths from 0 up, null pointers with length 0. A call must refuse with one of its numbers or
//! accept, leave everything that it is not said to write, and answer the same wherever its memory
//! stands.

mod calls;
mod lent;

use crate::inputs::days::{Handover, Handovers};
use crate::inputs::journals::{any_fields, Journals};
use crate::inputs::parts::{any_parts, PARTS};
use crate::inputs::runs::{any_run, Events, RUN};
use crate::inputs::sheets::any_case;
use crate::inputs::{any_site, any_step, steps, Random};
use crate::parts::LONGEST;
use crate::sheet::{OUT, ROOM};
use crate::tally::Tally;
use calls::{Call, Entry};
use fjadrimor::calls::{DAY_ANSWER, RUN_ANSWER, SITE_ANSWER};
use lent::Way;
use std::collections::BTreeSet;

/// Makes calls of every sort.
struct Hostile {
    random: Random,
    steps: Vec<[u8; 4]>,
    events: Events,
    journals: Journals,
    handovers: Handovers,
}

impl Hostile {
    /// A length about the one that is needed, or any up to a few hundred.
    fn length(&mut self, needed: usize) -> usize {
        match self.random.below(8) {
            0 => 0,
            1 => self.random.below(400) as usize,
            2 => needed.saturating_sub(1),
            3 | 4 => needed + self.random.below(12) as usize,
            _ => needed,
        }
    }

    fn room(&mut self, needed: usize) -> Vec<u8> {
        let length = self.length(needed);
        self.random.bytes(length)
    }

    /// These bytes, or others: random ones, or the same cut.
    fn spoilt(&mut self, mut bytes: Vec<u8>) -> Vec<u8> {
        match self.random.below(4) {
            0 => self.room(bytes.len()),
            1 => {
                bytes.truncate(self.random.below(bytes.len() as u64 + 1) as usize);
                bytes
            }
            _ => bytes,
        }
    }

    /// A place in so many bytes, or far from them.
    fn place(&mut self, length: usize) -> usize {
        match self.random.below(8) {
            0 => usize::MAX - self.random.below(16) as usize,
            1 => length + self.random.below(3) as usize,
            2 => length.saturating_sub(self.random.below(12) as usize),
            3 | 4 => self.random.below(length as u64 + 1) as usize,
            _ => 0,
        }
    }

    fn site_step(&mut self) -> Call {
        let site = any_site(&mut self.random);
        let [k, o, m, v] = any_step(&mut self.random, &self.steps);
        self.call(Entry::SiteStep, [k, 0, o, m, v, 0], site, SITE_ANSWER)
    }

    fn run_fresh(&mut self) -> Call {
        let n = if self.random.once_in(2) { self.random.byte() } else { self.random.within(0, 9) };
        self.call(Entry::RunFresh, [n, 0, 0, 0, 0, 0], Vec::new(), RUN)
    }

    fn run_event(&mut self) -> Call {
        let run = any_run(&mut self.random);
        let event = self.events.next(&mut self.random, &run);
        self.call(Entry::RunEvent, event, run, RUN_ANSWER)
    }

    fn run_journal(&mut self) -> Call {
        let Handover { run, journal } = self.handovers.any(&mut self.random);
        let journal = self.spoilt(journal);
        Call { journal, ..self.call(Entry::RunJournal, [0; 6], run, DAY_ANSWER) }
    }

    fn record_read(&mut self) -> Call {
        let mut journal = Vec::new();
        for _ in 0..self.random.below(30) {
            journal.extend([0, self.random.within(7, 8), self.random.within(1, 2)]);
            journal.extend(any_fields(&mut self.random, &self.events));
        }
        let at = self.place(journal.len());
        Call { at, ..self.call(Entry::RecordRead, [0; 6], journal, 6) }
    }

    fn record_write(&mut self) -> Call {
        let fields = any_fields(&mut self.random, &self.events);
        let call = self.call(Entry::RecordWrite, fields, Vec::new(), 40);
        Call { at: self.place(call.room.len()), ..call }
    }

    fn rehearse(&mut self) -> Call {
        let journal = self.journals.any(&mut self.random);
        let call = self.call(Entry::Rehearse, [0; 6], journal, 0);
        let needed = 38 + 26 * (call.given.len().min(65_536) / 9);
        Call { room: self.room(needed), ..call }
    }

    fn sheet(&mut self, entry: Entry, needed: usize) -> Call {
        let sheet = any_case(&mut self.random).bytes;
        let lent = if self.random.once_in(8) { self.length(4096) } else { 4100 };
        let words = (0..lent).map(|_| self.random.number()).collect();
        Call { words, ..self.call(entry, [0; 6], sheet, needed) }
    }

    fn sheet_write(&mut self) -> Call {
        let parts = any_parts(&mut self.random);
        self.call(Entry::SheetWrite, [0; 6], parts, LONGEST)
    }

    /// A call with these fields and bytes or others, and a room of about the needed length.
    fn call(&mut self, entry: Entry, fields: [u8; 6], given: Vec<u8>, needed: usize) -> Call {
        let mut fields = fields;
        if self.random.once_in(4) {
            fields =
                fields.map(|field| if self.random.once_in(4) { self.random.byte() } else { field });
        }
        let (given, room) = (self.spoilt(given), self.room(needed));
        Call { entry, fields, at: 0, given, journal: Vec::new(), room, words: Vec::new() }
    }

    fn any(&mut self, entry: Entry) -> Call {
        match entry {
            Entry::SiteStep => self.site_step(),
            Entry::RunFresh => self.run_fresh(),
            Entry::RunEvent => self.run_event(),
            Entry::RunJournal => self.run_journal(),
            Entry::RecordRead => self.record_read(),
            Entry::RecordWrite => self.record_write(),
            Entry::Rehearse => self.rehearse(),
            Entry::SheetJudge => self.sheet(entry, OUT),
            Entry::SheetReport => self.sheet(entry, ROOM),
            Entry::SheetParts => self.sheet(entry, PARTS),
            Entry::SheetWrite => self.sheet_write(),
        }
    }
}

/// Makes `count` calls of each entry point, and prints which numbers each returned.
pub fn compare(count: u64) -> Tally {
    let mut hostile = Hostile {
        random: Random::new(51),
        steps: steps(9),
        events: Events::new(4, 8),
        journals: Journals::default(),
        handovers: Handovers::new(fjadrimor::calls::run_event),
    };
    let mut tally = Tally::default();
    for entry in Entry::ALL {
        let mut refused = BTreeSet::new();
        for _ in 0..count {
            let call = hostile.any(entry);
            let (between, alone) = (call.made(Way::Between), call.made(Way::Alone));
            tally.note(&between, &call.allowed(&between), || format!("{call:?}"));
            tally.note(&between, &alone, || format!("{call:?} elsewhere"));
            refused.insert(between.returned);
        }
        look(&mut tally, entry, refused);
    }
    tally
}

/// Every refusal of an entry point was met, and no other.
fn look(tally: &mut Tally, entry: Entry, mut returned: BTreeSet<usize>) {
    let texts = matches!(entry, Entry::Rehearse | Entry::SheetReport);
    returned.retain(|&number| (number == 0) == texts);
    let refusals = BTreeSet::from_iter(entry.refusals().iter().copied());
    tally.note(&returned, &refusals, || format!("the refusals of {entry:?}"));
}
