//! The plain implementation against the second program.

use crate::plain;
use crate::sheet::with_a_table;
use crate::side::Side;
use compare::journal::Journaling;

const PLAIN: Side = Side::Plain;

#[test]
fn site_steps_are_the_same() {
    let step = PLAIN.site_step();
    assert!(compare::site::compare(step, second::bytes::site_step, 100_000).finish());
}

#[test]
fn runs_are_the_same() {
    use compare::run::{compare, Runs};
    let second = Runs { fresh: second::run_bytes::run_fresh, event: second::run_bytes::run_event };
    assert!(compare(PLAIN.runs(), second, 300_000).finish());
}

#[test]
fn journals_are_the_same() {
    use compare::journal::compare;
    let second = Journaling {
        read: second::journal::record_read,
        write: second::journal::record_write,
        rehearse: second::rehearsal::rehearse_bytes,
    };
    let testing = Journaling { rehearse: plain::rehearse_testing, ..PLAIN.journaling() };
    assert!(compare(PLAIN.journaling(), second, 2000).finish());
    assert!(compare(testing, second, 1000).finish());
}

#[test]
fn days_are_the_same() {
    use compare::day::{compare, Days};
    let second = Days {
        journal: second::day::run_journal,
        read: second::journal::record_read,
        event: second::run_bytes::run_event,
    };
    assert!(compare(PLAIN.days(), second, 30_000).finish());
}

#[test]
fn sheets_are_the_same() {
    use compare::sheet::{compare, Judging};
    let second =
        Judging { judge: second::report::sheet_judge, report: second::report::sheet_report };
    assert!(compare(PLAIN.judging(), second, 5000).finish());
    assert!(compare(with_a_table(PLAIN), second, 2000).finish());
}

#[test]
fn parts_are_the_same() {
    use compare::parts::{compare, Writing};
    let second = Writing { parts: second::parts::sheet_parts, write: second::parts::sheet_write };
    assert!(compare(PLAIN.writing(), second, 20_000).finish());
}
