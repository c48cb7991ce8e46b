//! Which sites the answers of a comparison named as the lowest awaited, so that it is known to have
//! met them all.

use crate::tally::Tally;
use std::collections::BTreeMap;
use std::ops::RangeInclusive;

/// How often each lowest site was named, 0 for none, by answers of a sort.
#[derive(Default)]
pub struct Lowest(BTreeMap<(&'static str, u8), u64>);

/// The sorts of accepted answers to a step or an event, by their first byte.
pub const OUTCOMES: [&str; 2] = ["taken", "passed"];

impl Lowest {
    /// Counts an answer of a sort.
    pub fn named(&mut self, sort: &'static str, lowest: u8) {
        *self.0.entry((sort, lowest)).or_default() += 1;
    }

    /// Counts what a call answered that returned so: the outcome is the first byte, the lowest the
    /// last of as many as the answer has. A refused one names nobody, and is compared as it is.
    pub fn note<const ANSWER: usize>(&mut self, returned: u8, room: &[u8]) {
        let Some(answer) = room.first_chunk::<ANSWER>().filter(|_| returned == 0) else { return };
        if let Some(outcome) = OUTCOMES.get(usize::from(answer[0])) {
            self.named(outcome, answer[ANSWER - 1]);
        }
    }

    /// Prints what was met. Answers of each sort must have named just these sites, all that can be the
    /// lowest there, and some must have named none.
    pub fn look(&self, tally: &mut Tally, expected: &[(&'static str, RangeInclusive<u8>)]) {
        for (sort, sites) in expected {
            let count = |lowest: u8| self.0.get(&(*sort, lowest)).copied().unwrap_or_default();
            let row: String = (0..=8).map(|lowest| format!("{:>8}", count(lowest))).collect();
            println!("lowest awaited 0 to 8, {sort:6}{row}");
            let met: Vec<u8> = (0..=8).filter(|lowest| count(*lowest) > 0).collect();
            let sites: Vec<u8> = [0].into_iter().chain(sites.clone()).collect();
            tally.note(&met, &sites, || format!("the lowest awaited sites, {sort}"));
        }
    }
}
