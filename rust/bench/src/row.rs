//! A row of the table: the same work by both sides, timed in turns, so that both meet the same
//! machine, or done once to be counted.

use crate::side::Side;
use std::hint::black_box;
use std::time::{Duration, Instant};

/// Work that can be done again and again, and how many units it has.
pub struct Round {
    pub units: u32,
    pub work: Box<dyn FnMut()>,
}

/// A row is timed for so long at least: whatever else the machine does is then over for some rounds.
const LEAST: Duration = Duration::from_millis(400);

pub struct Row {
    /// What is done and how large its input is, in one word.
    pub name: String,
    /// What the time is divided by.
    pub unit: &'static str,
    /// How often the work is timed at least. The best time counts.
    rounds: u32,
    ready: Box<dyn Fn(Side) -> Round>,
}

fn timed(round: &mut Round) -> Duration {
    let start = Instant::now();
    (round.work)();
    start.elapsed()
}

/// Does the work of a round. An instrument that counts instructions looks at this function only.
#[no_mangle]
#[inline(never)]
pub fn counted_round(round: &mut Round) {
    (round.work)();
    black_box(round.units);
}

impl Row {
    pub fn new(
        name: impl Into<String>,
        unit: &'static str,
        rounds: u32,
        ready: impl Fn(Side) -> Round + 'static,
    ) -> Row {
        Row { name: name.into(), unit, rounds, ready: Box::new(ready) }
    }

    /// The best time of each side, now one first and now the other.
    fn best(&self) -> (u32, Duration, Duration) {
        let (mut library, mut plain) = ((self.ready)(Side::Library), (self.ready)(Side::Plain));
        let mut best = (Duration::MAX, Duration::MAX);
        let (start, mut round) = (Instant::now(), 0);
        while round < self.rounds || start.elapsed() < LEAST {
            round += 1;
            if round % 2 == 0 {
                best.0 = best.0.min(timed(&mut library));
                best.1 = best.1.min(timed(&mut plain));
            } else {
                best.1 = best.1.min(timed(&mut plain));
                best.0 = best.0.min(timed(&mut library));
            }
        }
        (library.units, best.0, best.1)
    }

    /// Times both sides, prints the line, and hands back the ratio.
    pub fn print(&self) -> f64 {
        let (units, library, plain) = self.best();
        let each = |time: Duration| time.as_secs_f64() * 1e9 / f64::from(units);
        let ratio = library.as_secs_f64() / plain.as_secs_f64();
        println!(
            "{:<24}{:<8}{:>12.1}{:>12.1}{:>8.2}",
            self.name,
            self.unit,
            each(library),
            each(plain),
            ratio
        );
        ratio
    }

    /// Does the work of one side once; hands back how many units it had.
    pub fn count(&self, side: Side) -> u32 {
        let mut round = (self.ready)(side);
        counted_round(&mut round);
        round.units
    }
}

pub fn print_head() {
    println!("{:<24}{:<8}{:>12}{:>12}{:>8}", "row", "per", "library ns", "plain ns", "ratio");
}
