//! 01, "The run": n sites, the stopped ones and the messages between them.

use crate::site::{self, right_ends, Done, Message, Record, Sites, Step};
use std::collections::BTreeSet;

/// "A run holds n, the stopped sites, n site records and the outstanding messages." There are
/// eight places for records; those above n are only handed back.
#[derive(Clone, Debug, PartialEq, Eq, Hash)]
pub struct Run {
    pub n: u8,
    pub stopped: Sites,
    pub records: Vec<Record>,
    pub network: BTreeSet<Message>,
}

/// What happens at the acting site.
#[derive(Clone, Debug)]
pub enum Happening {
    Step(Step),
    Stop,
    /// "A stop inside a step holds that step and the set of receivers whose messages still leave."
    StopDuring(Step, Sites),
}

/// An accepted event: the run after it, whether it was passed over, the messages that left
/// (counted as written even where the receiver has stopped), the sites that the acting one awaits.
pub struct Next {
    pub run: Run,
    pub passed: bool,
    pub left: BTreeSet<Message>,
    pub awaited: Sites,
}

/// The way a site takes a step in a run: `lawful`, or a wrong one that `explore` tries.
pub type Stepping = fn(&Run, u8, &Step) -> Result<Done, u8>;

/// The way an event goes: `event`, or a wrong one that `explore` tries.
pub type Rule = fn(&Run, u8, &Happening) -> Result<Next, u8>;

/// 01's own way: the site's step, by its record alone.
pub fn lawful(run: &Run, site: u8, step: &Step) -> Result<Done, u8> {
    site::step(run.record(site), step)
}

impl Run {
    /// "Fresh: all in q, following 1, all sets empty, no messages." Refused: the same with n 0.
    pub fn fresh(n: u8) -> Result<Run, Run> {
        let empty = |n| Run {
            n,
            stopped: Sites::new(),
            records: (1..=8).map(|number| Record::fresh(n, number)).collect(),
            network: BTreeSet::new(),
        };
        if (2..=8).contains(&n) {
            Ok(empty(n))
        } else {
            Err(empty(0))
        }
    }

    /// The sites of this run.
    pub fn sites(&self) -> std::ops::RangeInclusive<u8> {
        1..=self.n
    }

    /// The record at the place of a site.
    pub fn record(&self, site: u8) -> &Record {
        &self.records[site as usize - 1]
    }

    /// "It is sound when its records are, each with the run's n and its place's number, stopped
    /// sites are within 1..n, known-stopped sets lie within the stopped set, message ends are
    /// right, none is addressed to a stopped site."
    pub fn sound(&self) -> bool {
        let proper = |site| {
            let record = self.record(site);
            (record.n, record.number) == (self.n, site)
                && record.sound()
                && record.known.is_subset(&self.stopped)
        };
        (2..=8).contains(&self.n)
            && self.sites().all(proper)
            && self.stopped.iter().all(|site| self.sites().contains(site))
            && self.network.iter().all(|&message| right_ends(self.n, message))
            && self.network.iter().all(|message| !self.stopped.contains(&message.2))
    }

    /// Grounds 2, 3 and 4 for a step of this site.
    fn stands_in_the_way(&self, site: u8, step: &Step) -> Option<u8> {
        let about = match *step {
            Step::Deliver { kind, from, vote } => {
                right_ends(self.n, (kind, from, site)) && (kind == site::START) == vote.is_some()
            }
            Step::Notice(other) => self.sites().contains(&other) && other != site,
            _ => true,
        };
        let there = || match *step {
            Step::Deliver { kind, from, .. } => self.network.contains(&(kind, from, site)),
            Step::Notice(other) => {
                self.stopped.contains(&other) && !self.record(site).known.contains(&other)
            }
            _ => true,
        };
        if !self.sites().contains(&site) || !about {
            Some(2)
        } else if self.stopped.contains(&site) {
            Some(3)
        } else if !there() {
            Some(4)
        } else {
            None
        }
    }

    /// "A message to a stopped site is counted as written and doesn't enter the network."
    fn send(&mut self, messages: &BTreeSet<Message>) {
        let arriving = messages.iter().filter(|message| !self.stopped.contains(&message.2));
        self.network.extend(arriving);
    }

    /// "A stop removes what is addressed to the site."
    fn stop(&mut self, site: u8) {
        self.stopped.insert(site);
        self.network.retain(|message| message.2 != site);
    }
}

/// One event of a run: what comes of it, or the number of the ground on which it is refused.
pub fn event(run: &Run, site: u8, happening: &Happening) -> Result<Next, u8> {
    event_by(lawful, run, site, happening)
}

/// One event of a run whose sites step in a given way.
pub fn event_by(way: Stepping, run: &Run, site: u8, happening: &Happening) -> Result<Next, u8> {
    if !run.sound() {
        return Err(1);
    }
    match happening {
        Happening::Step(step) => take_step(way, run, site, step),
        Happening::Stop => stop(run, site),
        Happening::StopDuring(step, leaving) => stop_during(way, run, site, step, leaving),
    }
}

/// A step of a running site, its answer put into the run.
fn take_step(way: Stepping, run: &Run, site: u8, step: &Step) -> Result<Next, u8> {
    if let Some(ground) = run.stands_in_the_way(site, step) {
        return Err(ground);
    }
    let done = way(run, site, step)?;
    let mut run = run.clone();
    if let Step::Deliver { kind, from, .. } = *step {
        run.network.remove(&(kind, from, site));
    }
    run.send(&done.messages);
    let awaited = done.record.awaited();
    run.records[site as usize - 1] = done.record;
    Ok(Next { run, passed: done.passed, left: done.messages, awaited })
}

/// A stop between steps. "After any stop the awaited number is 0": nobody is awaited.
fn stop(run: &Run, site: u8) -> Result<Next, u8> {
    if !run.sites().contains(&site) {
        return Err(2);
    }
    if run.stopped.contains(&site) {
        return Err(3);
    }
    let mut run = run.clone();
    run.stop(site);
    Ok(Next { run, passed: false, left: BTreeSet::new(), awaited: Sites::new() })
}

/// A stop inside a step: "refused as that step would be, and counts only messages that leave. Its
/// whole record stays as before the step."
fn stop_during(
    way: Stepping,
    run: &Run,
    site: u8,
    step: &Step,
    leaving: &Sites,
) -> Result<Next, u8> {
    let mut left = take_step(way, run, site, step)?.left;
    left.retain(|message| leaving.contains(&message.2));
    let mut run = run.clone();
    run.send(&left);
    run.stop(site);
    Ok(Next { run, passed: false, left, awaited: Sites::new() })
}
