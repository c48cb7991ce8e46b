//! Closes of three ledgers at random, in which a mistake may happen.

use crate::mistake::Mistake;
use crate::world::{Happening, What, World};
use fjadrimor::Sites;
use ledgers::random::Random;

/// Stops, and mistakes too, are drawn once in so many times.
const RARELY: u64 = 12;

/// How closes at random ended.
#[derive(Default)]
pub struct Ends {
    /// In how many the mistake was made that is made once.
    pub mistaken: u64,
    /// In how many an entry is posted beside one that is backed out.
    pub disagree: u64,
    /// In how many a ledger that runs never decides.
    pub stuck: u64,
}

/// Draws so many closes.
pub fn draw(closes: u64, seed: u64, mistake: Mistake) -> Ends {
    let mut ends = Ends::default();
    for close in 1..=closes {
        let end = run(&mut Random::new(seed, close), mistake);
        ends.mistaken += u64::from(end.is_spent());
        ends.disagree += u64::from(end.disagrees());
        ends.stuck += u64::from(end.is_stuck());
    }
    ends
}

/// One close, until nobody can take a step. Each ledger votes no once in eight times.
fn run(random: &mut Random, mistake: Mistake) -> World {
    let against = (1..=3).filter(|_| random.once_in(8)).collect::<Sites>();
    let mut world = World::fresh(3, against);
    while let Some(happening) = next(&world, random, mistake) {
        world = world.after(happening, mistake);
    }
    world
}

/// What happens next: a step of someone, rarely a stop or the mistake.
fn next(world: &World, random: &mut Random, mistake: Mistake) -> Option<Happening> {
    let running = world.running();
    let steps = running.iter().flat_map(|&site| {
        let steps = world.steps(site).into_iter().map(What::Step);
        steps.map(move |what| Happening { site, what, wrong: false })
    });
    let steps: Vec<Happening> = steps.collect();
    if steps.is_empty() {
        return None;
    }
    let site = random.pick(&running);
    let (rare, wrong) = match random.below(RARELY) {
        0 => (world.stops(site), false),
        1 => (world.mistakes(site, mistake), true),
        _ => (Vec::new(), false),
    };
    if rare.is_empty() {
        return Some(random.pick(&steps));
    }
    Some(Happening { site, what: random.pick(&rare), wrong })
}
