//! Runs and journals for the call that takes a day's journal: mostly such as go on where the run
//! stands, with a fault at any place of them.

use super::runs::{any_run, sound_run, unordered_run, Event, Events, RUN};
use super::Random;
use crate::run::RunEvent;
use fjadrimor::calls::RUN_ANSWER;
use second::journal::{record_write, RECORD};
use second::run_bytes::run_fresh;

/// A run's bytes, and the journal that is handed over with it.
#[derive(Clone, Debug)]
pub struct Handover {
    pub run: Vec<u8>,
    pub journal: Vec<u8>,
}

/// So many events in a row that a run refuses: then it hardly accepts any.
const REFUSED: u32 = 60;

/// Makes handovers. Which events a run accepts it is told by a program's `fj_run_event`.
pub struct Handovers {
    event: RunEvent,
    calm: Events,
    stormy: Events,
    stray: Events,
}

/// The record of an event, where one can hold it.
fn record(event: Event) -> Option<[u8; RECORD]> {
    let [k, s, o, m, v, x] = event;
    let mut record = [0; RECORD];
    (record_write(k, s, o, m, v, x, &mut record, 0) == 0).then_some(record)
}

impl Handovers {
    pub fn new(event: RunEvent) -> Handovers {
        let (calm, stormy) = (Events::new(60, 200), Events::new(60, 24));
        Handovers { event, calm, stormy, stray: Events::new(4, 8) }
    }

    /// Records of up to so many events, each of which the run accepts as it then stands; the run is
    /// as after them.
    pub fn accepted(&self, random: &mut Random, run: &mut [u8], most: usize) -> Vec<u8> {
        let events = if random.once_in(2) { &self.calm } else { &self.stormy };
        let (mut journal, mut refused) = (Vec::new(), 0);
        while journal.len() < RECORD * most && refused < REFUSED {
            let event = events.next(random, run);
            refused += 1;
            if let Some(record) = record(event).filter(|_| self.happens(run, event)) {
                journal.extend(record);
                refused = 0;
            }
        }
        journal
    }

    /// Whether a run accepts an event, which then has happened.
    fn happens(&self, run: &mut [u8], [k, s, o, m, v, x]: Event) -> bool {
        (self.event)(run, k, s, o, m, v, x, &mut [0; RUN_ANSWER]) == 0
    }

    /// A run of every sort: fresh, on its way, sound, sound but about to lose that, not sound, bytes
    /// that are no run. Many have eight sites: these accept most.
    fn run(&self, random: &mut Random) -> Vec<u8> {
        let n = random.within(2, 12).min(8);
        match random.below(16) {
            0..=8 => self.on_its_way(random, n),
            9..=11 => sound_run(random, n),
            12 | 13 => unordered_run(random, n),
            _ => spoilt(random),
        }
    }

    /// A fresh run, mostly after some events.
    fn on_its_way(&self, random: &mut Random, n: u8) -> Vec<u8> {
        let mut run = fresh(n);
        let before = if random.once_in(2) { 0 } else { random.below(5 * u64::from(n)) };
        self.accepted(random, &mut run, before as usize);
        run
    }

    /// A handover of which every record is accepted.
    fn good(&self, random: &mut Random) -> Handover {
        let run = self.run(random);
        let most = match random.below(16) {
            0 => 0,
            1..=6 => random.below(8),
            7..=12 => random.below(32),
            _ => random.below(200),
        };
        let journal = self.accepted(random, &mut run.clone(), most as usize);
        Handover { run, journal }
    }

    /// Records of a few events that need not be accepted after a handover's.
    fn stray(&self, random: &mut Random, handover: &Handover) -> Vec<u8> {
        let mut run = handover.run.clone();
        for record in handover.journal.chunks(RECORD) {
            self.happens(&mut run, record[RECORD - 6..].try_into().expect("six fields"));
        }
        let events = std::iter::repeat_with(|| self.stray.next(random, &run));
        events.filter_map(record).take(3).flatten().collect()
    }

    /// A handover of every sort.
    pub fn any(&self, random: &mut Random) -> Handover {
        let mut handover = if random.once_in(40) { long(random) } else { self.good(random) };
        match random.below(16) {
            0..=4 => {}
            5..=9 => handover.journal.extend(self.stray(random, &handover)),
            _ => damage(random, &mut handover.journal),
        }
        handover
    }
}

/// A fresh run, and the longest close for it, or a part of that.
fn long(random: &mut Random) -> Handover {
    let n = random.within(2, 8);
    let mut journal = longest(n);
    journal.truncate(RECORD * random.below(200) as usize);
    Handover { run: fresh(n), journal }
}

/// The fresh run of n sites.
fn fresh(n: u8) -> Vec<u8> {
    let mut run = vec![0; RUN];
    run_fresh(n, &mut run);
    run
}

/// Any run, one that is not sound or no run among them; now and then of a wrong length.
fn spoilt(random: &mut Random) -> Vec<u8> {
    let mut run = any_run(random);
    if random.once_in(8) {
        run.resize(random.below(200) as usize, 0);
    }
    run
}

/// A fault at any place of a journal: another byte, one more or one less, the end missing, bytes at
/// the end that are no record, or nothing but some bytes.
fn damage(random: &mut Random, journal: &mut Vec<u8>) {
    let place = random.below(journal.len() as u64 + 1) as usize;
    let fault = random.below(8);
    match (fault, journal.get_mut(place)) {
        (0 | 1, Some(byte)) => *byte = random.byte(),
        (2, Some(byte)) => *byte ^= 1 << random.below(8),
        (3, Some(_)) => drop(journal.remove(place)),
        (4, _) => journal.insert(place, random.within(0, 9)),
        (5 | 6, _) => journal.truncate(place),
        _ => {
            journal.truncate(place);
            let length = random.below(20) as usize;
            journal.extend((0..length).map(|_| random.within(0, 8)));
        }
    }
}

/// The journal of a close of n sites that accepts as many events as any can, 2n² + 3n - 1. All vote
/// yes and are prepared, and site 1 commits and stops. Each other takes over in its turn: it is told
/// of the last one's Commit too late, gathers acknowledgements, commits and stops.
pub fn longest(n: u8) -> Vec<u8> {
    let mut events: Vec<Event> = vec![[1, 1, 0, 0, 1, 0]];
    events.extend((2..=n).flat_map(|j| [[2, j, 1, 1, 1, 0], [2, 1, j, 2, 0, 0]]));
    events.push([5, 1, 0, 0, 0, 0]);
    events.extend((2..=n).flat_map(|j| [[2, j, 1, 4, 0, 0], [2, 1, j, 6, 0, 0]]));
    events.extend([[5, 1, 0, 0, 0, 0], [6, 1, 0, 0, 0, 0]]);
    for k in 2..=n {
        events.extend((k..=n).map(|j| [3, j, k - 1, 0, 0, 0]));
        events.extend([[4, k, 0, 0, 0, 0], [2, k, k - 1, 7, 0, 0]]);
        let moved = |j| [[2, j, k, 4, 0, 0], [2, j, k - 1, 7, 0, 0], [2, k, j, 6, 0, 0]];
        events.extend((k + 1..=n).flat_map(moved));
        events.extend([[5, k, 0, 0, 0, 0], [6, k, 0, 0, 0, 0]]);
    }
    events.into_iter().filter_map(record).flatten().collect()
}
