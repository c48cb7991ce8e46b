//! Rows of single site steps.

use crate::plain;
use crate::row::{Round, Row};
use crate::side::Side;
use compare::inputs::{steps, Random};
use compare::site::{any_call, Call, SiteStep};
use fjadrimor::calls::SITE_ANSWER;
use std::hint::black_box;

/// Random calls with slices of the right length that `wanted` picks, by n and by outcome.
fn calls(wanted: impl Fn(u8, u8) -> bool) -> Vec<Call> {
    let mut random = Random::new(7);
    let steps = steps(8);
    let mut found = Vec::new();
    while found.len() < 4096 {
        let call = Call { room: SITE_ANSWER, ..any_call(&mut random, &steps) };
        if call.site.len() == 8 && wanted(call.site[0], call.made(plain::site_step).2[0]) {
            found.push(call);
        }
    }
    found
}

/// Makes all calls, each on a copy of its record.
fn make(program: SiteStep, calls: &[Call]) {
    let program = black_box(program);
    let mut answer = [0; SITE_ANSWER];
    let mut site = [0; 8];
    for call in calls {
        site.copy_from_slice(&call.site);
        let [k, o, m, v] = call.fields;
        black_box(program(&mut site, k, o, m, v, &mut answer));
        black_box((&site, &answer));
    }
}

fn row(name: &str, wanted: impl Fn(u8, u8) -> bool + Clone + 'static) -> Row {
    Row::new(name, "step", 2000, move |side: Side| {
        let calls = calls(wanted.clone());
        let units = calls.len() as u32;
        Round { units, work: Box::new(move || make(side.site_step(), &calls)) }
    })
}

/// Steps that are taken, passed over and refused, and taken ones of few and of many sites.
pub fn rows() -> Vec<Row> {
    vec![
        row("step-taken", |_, outcome| outcome == 0),
        row("step-passed", |_, outcome| outcome == 1),
        row("step-refused", |_, outcome| outcome == 2),
        row("step-taken-n2", |n, outcome| n == 2 && outcome == 0),
        row("step-taken-n8", |n, outcome| n == 8 && outcome == 0),
    ]
}
