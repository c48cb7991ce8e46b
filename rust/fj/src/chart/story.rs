//! What a chart shows: what each event did to the sites, and where each message went.

use crate::rehearsal::{Line, Verdict};
use crate::waits::awaited;
use crate::words::{members, words, Fields};
use fjadrimor::calls::{self, RUN_ANSWER, SITE_ANSWER};
use fjadrimor::{Site, Sites};

const RUN: usize = 138;
const SITES: usize = 2;
const NETWORK: usize = 66;

/// A run as the library keeps it.
#[derive(Clone)]
pub struct Run([u8; RUN]);

impl Run {
    fn fresh(n: u8) -> Run {
        let mut run = [0; RUN];
        calls::run_fresh(n, &mut run);
        Run(run)
    }

    /// Takes an event; whether it was accepted.
    fn takes(&mut self, [k, s, o, m, v, x]: Fields) -> bool {
        calls::run_event(&mut self.0, k, s, o, m, v, x, &mut [0; RUN_ANSWER]) == 0
    }

    pub fn sites(&self) -> std::ops::RangeInclusive<u8> {
        1..=self.0[0]
    }

    fn record(&self, site: u8) -> &[u8] {
        &self.0[SITES + 8 * usize::from(site - 1)..][..8]
    }

    /// The letter of a site's state, in upper case where it has stopped.
    pub fn letter(&self, site: u8) -> char {
        let letter = ['q', 'w', 'p', 'a', 'c'][usize::from(self.record(site)[2])];
        if self.stopped(site) {
            letter.to_ascii_uppercase()
        } else {
            letter
        }
    }

    pub fn stopped(&self, site: u8) -> bool {
        members(self.0[1]).any(|stopped| stopped == site)
    }

    /// A site leads when it follows itself.
    pub fn leads(&self, site: u8) -> bool {
        self.record(site)[3] == site
    }

    /// Whom a site awaits; a stopped one awaits nobody.
    fn awaits(&self, site: u8) -> Option<Sites> {
        if self.stopped(site) {
            return None;
        }
        let record = self.record(site).try_into().ok()?;
        awaited(Site::from_bytes(record).ok()?).map(|awaited| awaited.from)
    }

    fn outstanding(&self, kind: u8, from: u8, to: u8) -> bool {
        let place = NETWORK + 8 * usize::from(kind - 1) + usize::from(from - 1);
        members(self.0[place]).any(|receiver| receiver == to)
    }

    /// How many messages are outstanding.
    #[cfg(test)]
    pub fn waiting(&self) -> usize {
        self.0[NETWORK..].iter().map(|receivers| receivers.count_ones() as usize).sum()
    }

    /// What the step of an event does, were it not cut short.
    fn step(&self, [k, s, o, m, v, _]: Fields) -> Step {
        let mut site = self.record(s).to_vec();
        let mut answer = [0; SITE_ANSWER];
        calls::site_step(&mut site, k & 15, o, m, v, &mut answer);
        Step { passed: answer[0] == 1, kind: answer[1], receivers: answer[2] }
    }
}

/// A site's step: whether it is passed over, and what it writes to whom.
struct Step {
    passed: bool,
    kind: u8,
    receivers: u8,
}

/// An event of the run.
pub struct Row {
    pub words: String,
    pub verdict: Verdict,
    /// The acting site, where the run has it.
    pub site: Option<u8>,
    /// Whom that site awaits after an accepted event, if anybody.
    pub awaits: Option<Sites>,
    /// The run after the event.
    pub run: Run,
}

/// Where a message went, with the row where it ends.
#[derive(Clone, Copy, PartialEq, Debug)]
pub enum Fate {
    Delivered(usize),
    PassedOver(usize),
    /// Written to a stopped site, or removed when its receiver stopped.
    Lost(usize),
    /// Its sender stopped before it left.
    NeverLeft,
    Outstanding,
}

pub struct Message {
    pub kind: u8,
    pub from: u8,
    pub to: u8,
    pub sent: usize,
    pub fate: Fate,
}

/// A run from fresh to its end.
pub struct Story {
    pub fresh: Run,
    pub rows: Vec<Row>,
    pub messages: Vec<Message>,
}

impl Story {
    /// The story of a run of n sites in which these records were read.
    pub fn new(n: u8, lines: &[Line]) -> Story {
        let fresh = Run::fresh(n);
        let mut story = Story { fresh: fresh.clone(), rows: Vec::new(), messages: Vec::new() };
        let mut run = fresh;
        for line in lines {
            let before = run.clone();
            let accepted = line.fields.filter(|fields| run.takes(*fields));
            if let Some(fields) = accepted {
                if fields[0] != 6 {
                    story.step(fields, &before, &run);
                }
                story.removals(&run);
            }
            story.rows.push(Row {
                words: line.fields.map(words).unwrap_or_default(),
                verdict: line.verdict,
                site: line.fields.map(|fields| fields[1]).filter(|s| run.sites().contains(s)),
                awaits: accepted.and_then(|[_, s, ..]| run.awaits(s)),
                run: run.clone(),
            });
        }
        story
    }

    /// The run as it was left.
    pub fn last(&self) -> &Run {
        self.rows.last().map_or(&self.fresh, |row| &row.run)
    }

    /// The message that an accepted step reads, and those that it writes.
    fn step(&mut self, fields: Fields, before: &Run, after: &Run) {
        let [k, s, o, m, _, x] = fields;
        let step = before.step(fields);
        let row = self.rows.len();
        if k & 15 == 2 {
            let fate = if step.passed { Fate::PassedOver(row) } else { Fate::Delivered(row) };
            self.ends(fate, |message| (message.kind, message.from, message.to) == (m, o, s));
        }
        for to in members(step.receivers) {
            let fate = if k > 16 && members(x).all(|leaving| leaving != to) {
                Fate::NeverLeft
            } else if after.outstanding(step.kind, s, to) {
                Fate::Outstanding
            } else {
                Fate::Lost(row)
            };
            // The network is a set: what is outstanding already is not there twice.
            if fate == Fate::NeverLeft || !before.outstanding(step.kind, s, to) {
                self.messages.push(Message { kind: step.kind, from: s, to, sent: row, fate });
            }
        }
    }

    /// The messages that are not outstanding any more, though no step has read them.
    fn removals(&mut self, after: &Run) {
        let row = self.rows.len();
        self.ends(Fate::Lost(row), |message| {
            !after.outstanding(message.kind, message.from, message.to)
        });
    }

    fn ends(&mut self, fate: Fate, ending: impl Fn(&Message) -> bool) {
        let open = self.messages.iter_mut().filter(|message| message.fate == Fate::Outstanding);
        open.filter(|message| ending(message)).for_each(|message| message.fate = fate);
    }
}
