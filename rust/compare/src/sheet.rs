//! Compares the judge and the report.

use crate::inputs::drafts::Draft;
use crate::inputs::sheets::{any_case, renamed, Case};
use crate::inputs::{colliding, faults, figures, obeying, pattern, Random};
use crate::tally::Tally;
use std::collections::BTreeMap;

/// A program's `fj_sheet_judge` and `fj_sheet_report`.
#[derive(Clone, Copy)]
pub struct Judging {
    pub judge: fn(&[u8], &mut [u64], &mut [u8]) -> u8,
    pub report: fn(&[u8], &mut [u64], &mut [u8]) -> usize,
}

/// The bytes of the judge's answer, the least room for a report, and one that is more than enough.
pub const OUT: usize = 206;
pub const ROOM: usize = 3731;
pub const AMPLE: usize = 1 << 14;

/// A number of sites, and how many of them obey.
pub type Obeying = (u8, usize);

/// How many sites an accepted sheet has and how many of them obey, by the judge's answer: a site
/// obeys where none of its eight states decides `blocked`, 3.
pub fn obeying_in(out: &[u8]) -> Obeying {
    let blocked = |local: &[u8]| local[1] == 3;
    let sites = out[14..OUT].chunks(8 * 6).take(out[0].into());
    (out[0], sites.filter(|site| !site.chunks(6).any(blocked)).count())
}

struct Comparison {
    first: Judging,
    second: Judging,
    random: Random,
    tally: Tally,
    /// What the last call left of the words.
    left: Vec<u64>,
    /// How many accepted sheets were met, by how many of their sites obey.
    met: BTreeMap<Obeying, u64>,
}

/// Compares two programs on every pair of faults, every set of obeying sites and colliding states, then
/// on `count` sheets of every sort. Prints how many sheets were met by how many of their sites obey.
pub fn compare(first: Judging, second: Judging, count: u64) -> Tally {
    let (random, tally, met) = (Random::new(6), Tally::default(), BTreeMap::new());
    let mut comparison = Comparison { first, second, random, tally, left: vec![0], met };
    for case in known(&mut Random::new(8)) {
        comparison.look(&case);
    }
    for _ in 0..count {
        let case = any_case(&mut comparison.random);
        comparison.look(&case);
    }
    comparison.tell_met();
    comparison.tally
}

/// Sheets of which it is known what they show: faults, then sets of obeying sites, then states that
/// collide.
pub fn known(random: &mut Random) -> Vec<Case> {
    let mut cases = faulty(random);
    cases.extend(obeying::cases(random));
    cases.extend(colliding::cases(random));
    cases
}

/// Sheets with no fault, each fault alone, each fault after each other, and each fault where too
/// few words are lent.
pub fn faulty(random: &mut Random) -> Vec<Case> {
    let mut cases = Vec::new();
    let mut add = |draft: &Draft, words| cases.push(Case { bytes: draft.bytes(), words });
    for figure in figures::all() {
        add(&figure, 4096);
        add(&renamed(random, &figure), 4095);
    }
    let base = figures::central(&[true, true]);
    for (_, one) in faults::ALL {
        let mut draft = renamed(random, &base);
        one(random, &mut draft);
        add(&draft, 4096);
        add(&draft, 4095);
        for (_, other) in faults::ALL {
            let mut both = draft.clone();
            other(random, &mut both);
            add(&both, 4096);
        }
    }
    cases
}

impl Comparison {
    /// Judges and reports one sheet, with rooms that suffice and rooms that do not.
    fn look(&mut self, case: &Case) {
        let short = self.random.below(OUT as u64) as usize;
        self.judge(case, OUT + 2);
        if self.random.once_in(16) {
            self.judge(case, short);
        }
        self.report(case, AMPLE);
        if self.random.once_in(8) {
            let short = self.random.below(ROOM as u64) as usize;
            let room = *self.random.pick(&[short, ROOM - 1, ROOM]);
            self.report(case, room);
        }
    }

    /// What the lent words hold before a call: a pattern, anything, one number, or what the last call
    /// left; now and then some thousands more than the case has, if that is enough.
    fn words(&mut self, case: &Case) -> Vec<u64> {
        let more = if case.words >= 4096 && self.random.once_in(8) { 4096 } else { 1 };
        let length = case.words + self.random.below(more) as usize;
        match self.random.below(4) {
            0 => (0..length as u64).map(|place| !place).collect(),
            1 => (0..length).map(|_| self.random.number()).collect(),
            2 => vec![*self.random.pick(&self.left); length],
            _ => self.left.iter().copied().cycle().take(length).collect(),
        }
    }

    fn judge(&mut self, case: &Case, room: usize) {
        let lent = self.words(case);
        let made = |program: Judging| {
            let (mut words, mut out) = (lent.clone(), pattern(room));
            let refusal = (program.judge)(&case.bytes, &mut words, &mut out);
            (refusal, out, words)
        };
        let (first, second) = (made(self.first), made(self.second));
        let described = || format!("judge {:?} words {} room {room}", case.bytes, lent.len());
        self.tally.note(&first, &second, described);
        if second.0 == 0 {
            *self.met.entry(obeying_in(&second.1)).or_default() += 1;
        }
        if !second.2.is_empty() {
            self.left = second.2;
        }
    }

    fn report(&mut self, case: &Case, room: usize) {
        let lent = self.words(case);
        let made = |program: Judging| {
            let (mut words, mut text) = (lent.clone(), pattern(room));
            let length = (program.report)(&case.bytes, &mut words, &mut text);
            (length, text, words)
        };
        let (first, second) = (made(self.first), made(self.second));
        let described = || format!("report {:?} words {} room {room}", case.bytes, lent.len());
        self.tally.note(&first, &second, described);
    }

    /// Every number of obeying sites was met, of two to four sites.
    fn tell_met(&mut self) {
        for ((sites, obeying), count) in &self.met {
            println!("{sites} sites of which {obeying} obey: {count} sheets");
        }
        let met: Vec<Obeying> = self.met.keys().copied().collect();
        let every = (2..=4).flat_map(|sites| (0..=sites.into()).map(move |obey| (sites, obey)));
        self.tally.note(&met, &every.collect(), || "how many sites obey".to_string());
    }
}
