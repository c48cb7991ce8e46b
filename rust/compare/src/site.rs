//! Compares single site steps.

use crate::inputs::{any_site, any_step, pattern, steps, Fields, Random};
use crate::lowest::{Lowest, OUTCOMES};
use crate::tally::Tally;
use fjadrimor::calls::SITE_ANSWER;

/// A program's `fj_site_step`.
pub type SiteStep = fn(&mut [u8], u8, u8, u8, u8, &mut [u8]) -> u8;

/// One call: the site's bytes, the step, the length of the answer's room.
pub struct Call {
    pub site: Vec<u8>,
    pub fields: Fields,
    pub room: usize,
}

impl Call {
    /// The refusal, the site's bytes and the whole room after the call.
    pub fn made(&self, program: SiteStep) -> (u8, Vec<u8>, Vec<u8>) {
        let (mut site, mut answer) = (self.site.clone(), pattern(self.room));
        let [k, o, m, v] = self.fields;
        let refusal = program(&mut site, k, o, m, v, &mut answer);
        (refusal, site, answer)
    }
}

/// Compares two programs on every step of small runs and on `count` random calls.
pub fn compare(first: SiteStep, second: SiteStep, count: u64) -> Tally {
    let (mut tally, mut lowest) = (Tally::default(), Lowest::default());
    let mut look = |call: Call| {
        let described =
            || format!("site {:?} step {:?} room {}", call.site, call.fields, call.room);
        let (refusal, site, answer) = call.made(first);
        lowest.note::<SITE_ANSWER>(refusal, &answer);
        tally.note(&(refusal, site, answer), &call.made(second), described);
    };
    for n in 2..=3 {
        every_small_step(n, &mut look);
    }
    let mut random = Random::new(1);
    let steps = steps(9);
    (0..count).for_each(|_| look(any_call(&mut random, &steps)));
    lowest.look(&mut tally, &OUTCOMES.map(|outcome| (outcome, 1..=8)));
    tally
}

/// Every sound record of n sites with every step of sites 0 to n + 1.
fn every_small_step(n: u8, look: &mut impl FnMut(Call)) {
    let steps = steps(n + 1);
    for site in sound_sites(n) {
        for &fields in &steps {
            look(Call { site: site.clone(), fields, room: 8 });
        }
    }
}

/// Every sound record of n sites.
fn sound_sites(n: u8) -> Vec<Vec<u8>> {
    let mut all = Vec::new();
    for number in 1..=n {
        let sets: Vec<u8> = (0..1 << n).filter(|set| set >> (number - 1) & 1 == 0).collect();
        for (state, leader) in (0..5).flat_map(|s| (1..=number).map(move |l| (s, l))) {
            for (&known, &yes) in pairs(&sets) {
                for (&no, &acked) in pairs(&sets) {
                    all.push(vec![n, number, state, leader, known, yes, no, acked]);
                }
            }
        }
    }
    all
}

/// Every pair of two members of a list.
fn pairs(list: &[u8]) -> impl Iterator<Item = (&u8, &u8)> {
    list.iter().flat_map(move |a| list.iter().map(move |b| (a, b)))
}

/// A call with a random record and step; now and then a slice of a wrong length.
pub fn any_call(random: &mut Random, steps: &[Fields]) -> Call {
    let mut site = any_site(random);
    if random.once_in(40) {
        let length = random.below(12) as usize;
        site.resize(length, 0);
    }
    let needed = SITE_ANSWER as u64;
    let room = if random.once_in(40) { random.below(needed) } else { needed + random.below(4) };
    Call { site, fields: any_step(random, steps), room: room as usize }
}
