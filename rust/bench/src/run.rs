//! Rows of events of runs.

use crate::plain;
use crate::row::{Round, Row};
use crate::side::Side;
use compare::inputs::runs::{any_run, Event, Events, RUN};
use compare::inputs::Random;
use compare::run::{happen, Runs};
use fjadrimor::calls::RUN_ANSWER;
use std::hint::black_box;

type Call = (Vec<u8>, Event);

/// Events on the way through runs of n sites from fresh, each with the run before it.
fn in_runs_from_fresh(n: u8) -> Vec<Call> {
    let mut random = Random::new(11);
    let events = Events::new(20, 40);
    let mut calls = Vec::new();
    while calls.len() < 2048 {
        let mut run = vec![0; RUN];
        plain::run_fresh(n, &mut run);
        for _ in 0..8 * n {
            let event = events.next(&mut random, &run);
            let after = happen(Side::Plain.runs(), &run, event, RUN_ANSWER).1;
            calls.push((run, event));
            run = after;
        }
    }
    calls
}

/// Events in arbitrary runs, sound or not.
fn in_arbitrary_runs() -> Vec<Call> {
    let mut random = Random::new(12);
    let events = Events::new(4, 8);
    let mut call = || {
        let run = any_run(&mut random);
        let event = events.next(&mut random, &run);
        (run, event)
    };
    (0..2048).map(|_| call()).collect()
}

/// Makes all calls, each on a copy of its run.
fn make(program: Runs, calls: &[Call]) {
    let happens = black_box(program.event);
    let mut answer = [0; RUN_ANSWER];
    let mut run = [0; RUN];
    for (before, [k, s, o, m, v, x]) in calls {
        run.copy_from_slice(before);
        black_box(happens(&mut run, *k, *s, *o, *m, *v, *x, &mut answer));
        black_box((&run, &answer));
    }
}

fn row(name: impl Into<String>, calls: impl Fn() -> Vec<Call> + 'static) -> Row {
    Row::new(name, "event", 1000, move |side: Side| {
        let calls = calls();
        let units = calls.len() as u32;
        Round { units, work: Box::new(move || make(side.runs(), &calls)) }
    })
}

/// Events in runs of each size from fresh, and in arbitrary ones.
pub fn rows() -> Vec<Row> {
    let from_fresh = |n| row(format!("event-n{n}"), move || in_runs_from_fresh(n));
    let mut rows: Vec<Row> = (2..=8).map(from_fresh).collect();
    rows.push(row("event-any-run", in_arbitrary_runs));
    rows
}
