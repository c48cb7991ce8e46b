//! Compares runs, event by event.

use crate::inputs::runs::{any_run, waiting_run, Event, Events, RUN};
use crate::inputs::{pattern, Random};
use crate::lowest::{Lowest, OUTCOMES};
use crate::tally::Tally;
use fjadrimor::calls::RUN_ANSWER;

/// A run's bytes, K, S, O, M, V, X, the room of the answer.
pub type RunEvent = fn(&mut [u8], u8, u8, u8, u8, u8, u8, &mut [u8]) -> u8;

/// A program's `fj_run_fresh` and `fj_run_event`.
#[derive(Clone, Copy)]
pub struct Runs {
    pub fresh: fn(u8, &mut [u8]) -> u8,
    pub event: RunEvent,
}

/// The refusal, the run's bytes and the whole room of the answer after a call.
type After = (u8, Vec<u8>, Vec<u8>);

/// One event through one program.
pub fn happen(program: Runs, run: &[u8], event: Event, room: usize) -> After {
    let (mut run, mut answer) = (run.to_vec(), pattern(room));
    let [k, s, o, m, v, x] = event;
    let refusal = (program.event)(&mut run, k, s, o, m, v, x, &mut answer);
    (refusal, run, answer)
}

struct Comparison {
    first: Runs,
    second: Runs,
    tally: Tally,
    lowest: Lowest,
}

impl Comparison {
    fn fresh(&mut self, n: u8, length: usize) -> Vec<u8> {
        let made = |program: Runs| {
            let mut run = pattern(length);
            ((program.fresh)(n, &mut run), run)
        };
        let (first, second) = (made(self.first), made(self.second));
        self.tally.note(&first, &second, || format!("fresh {n} length {length}"));
        second.1
    }

    fn event(&mut self, run: &[u8], event: Event, room: usize) -> After {
        let after = happen(self.second, run, event, room);
        let described = || format!("run {run:?} event {event:?} room {room}");
        self.tally.note(&happen(self.first, run, event, room), &after, described);
        self.lowest.note::<RUN_ANSWER>(after.0, &after.2);
        after
    }
}

/// Compares two programs on fresh runs and on `count` events: half of them in long runs from
/// fresh, half of them in arbitrary runs.
pub fn compare(first: Runs, second: Runs, count: u64) -> Tally {
    let (tally, lowest) = (Tally::default(), Lowest::default());
    let mut comparison = Comparison { first, second, tally, lowest };
    for n in 0..=255 {
        comparison.fresh(n, RUN);
    }
    for length in [0, 1, RUN - 1, RUN + 1, 2 * RUN] {
        (0..=9).for_each(|n| drop(comparison.fresh(n, length)));
    }
    long_runs(&mut comparison, count / 2);
    arbitrary_runs(&mut comparison, count - count / 2);
    let Comparison { mut tally, lowest, .. } = comparison;
    lowest.look(&mut tally, &OUTCOMES.map(|outcome| (outcome, 1..=8)));
    tally
}

/// Runs from fresh, each until nothing has been accepted for long; some with hardly any
/// stop.
fn long_runs(comparison: &mut Comparison, count: u64) {
    let mut random = Random::new(2);
    let (calm, stormy) = (Events::new(40, 400), Events::new(12, 16));
    let mut made = 0;
    while made < count {
        let events = if random.once_in(3) { &calm } else { &stormy };
        let mut run = comparison.fresh(random.within(2, 8), RUN);
        let mut refused = 0;
        while refused < 40 && made < count {
            let event = events.next(&mut random, &run);
            let (refusal, after, _) = comparison.event(&run, event, RUN_ANSWER + 1);
            refused = if refusal == 0 { 0 } else { refused + 1 };
            run = after;
            made += 1;
        }
    }
}

/// One event in each of many runs, sound or not, and in many of them a leader waits; now and then a
/// slice of a wrong length.
fn arbitrary_runs(comparison: &mut Comparison, count: u64) {
    let mut random = Random::new(3);
    let events = Events::new(4, 8);
    for _ in 0..count {
        let n = random.within(2, 12).min(8);
        let waits = random.once_in(4);
        let mut run = if waits { waiting_run(&mut random, n) } else { any_run(&mut random) };
        if random.once_in(64) {
            run.resize(random.below(200) as usize, 0);
        }
        let needed = RUN_ANSWER as u64;
        let room = if random.once_in(64) { random.below(needed) } else { needed + random.below(4) };
        let event = events.next(&mut random, &run);
        comparison.event(&run, event, room as usize);
    }
}
