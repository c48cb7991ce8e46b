//! A reviewer writes commit protocols down as sheets and counts nothing: a builder takes names, and
//! the writer, `Sheet::write`, finds every length. Two-phase commit with two sites is blocking; with
//! a prepared state it is not. Then a sheet is read, a slip is made in it, and the writer says which.
//!
//!     cargo run --offline --manifest-path rust/Cargo.toml -p fjadrimor --example sheet
//!
//! It prints the length of each record and its verdict, or the refusal. In C it is examples/sheet.c.

use fjadrimor::Mark::{Abort, Commit, Working};
use fjadrimor::{judge, Messages, Misnamed, Refusal, Sheet, Verdict};
use std::error::Error;

/// Commit with a coordinator and a slave, in two phases or in three.
fn protocol(phases: usize) -> Result<Sheet, Misnamed> {
    let states = [("q", Working), ("w", Working), ("a", Abort), ("c", Commit), ("p", Working)];
    let states = &states[..phases + 2];
    let mut sheet = Sheet::builder();
    let (coordinator, slave) = (sheet.site(states), sheet.site(states));
    // The messages are listed, so that a misspelt one is told.
    sheet.messages(&["request", "start", "yes", "no", "abort", "commit"]);
    sheet.first(&["request"]);
    sheet.transition(coordinator, "q", "w").reads(&["request"]).writes(&["start"]);
    sheet.transition(coordinator, "w", "a").reads(&["yes"]).writes(&["abort"]);
    sheet.transition(coordinator, "w", "a").reads(&["no"]);
    sheet.transition(slave, "q", "w").reads(&["start"]).writes(&["yes"]).votes_yes();
    sheet.transition(slave, "q", "a").reads(&["start"]).writes(&["no"]);
    sheet.transition(slave, "w", "a").reads(&["abort"]);
    if phases == 3 {
        sheet.messages(&["prepare", "ack"]);
        sheet.transition(coordinator, "w", "p").reads(&["yes"]).writes(&["prepare"]).votes_yes();
        sheet.transition(coordinator, "p", "c").reads(&["ack"]).writes(&["commit"]);
        sheet.transition(slave, "w", "p").reads(&["prepare"]).writes(&["ack"]);
        sheet.transition(slave, "p", "c").reads(&["commit"]);
    } else {
        sheet.transition(coordinator, "w", "c").reads(&["yes"]).writes(&["commit"]).votes_yes();
        sheet.transition(slave, "w", "c").reads(&["commit"]);
    }
    sheet.build()
}

/// Writes and judges a sheet, and prints what came of it.
fn tells(name: &str, sheet: &Sheet) -> Result<Vec<u8>, Refusal> {
    let judged = sheet.write().and_then(|record| Ok((judge(&record)?.verdict, record)));
    match &judged {
        Err(refusal) => println!("{name}: refused {}", refusal.number()),
        Ok((Verdict::Nonblocking, record)) => {
            println!("{name}: {} bytes, nonblocking", record.len())
        }
        Ok((Verdict::Blocking { site, state, condition }, record)) => {
            let length = record.len();
            println!("{name}: {length} bytes, blocking at {site}.{state} condition {condition}");
        }
    }
    judged.map(|(_, record)| record)
}

fn main() -> Result<(), Box<dyn Error>> {
    tells("two phases", &protocol(2)?)?;
    let sheet = protocol(3)?;
    let mut again = Sheet::read(&tells("three phases", &sheet)?)?;
    assert_eq!(again, sheet, "the record is read back");
    again.transitions[0].reads = Messages::default();
    match tells("a transition that reads nothing", &again) {
        Err(Refusal::ReadsNothing) => Ok(()),
        other => Err(format!("not refused with 26: {other:?}").into()),
    }
}
