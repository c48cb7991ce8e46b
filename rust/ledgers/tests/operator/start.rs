//! How ledgers come together: started in every order, with pauses, killed and started again.

use crate::desk::{asks, Ledger, Register};
use ledgers::disk::Standing;
use std::thread;
use std::time::Duration;

/// Does something for each of these at the same time: most of it is waiting.
fn side_by_side<T: Copy + Sync, R: Send>(all: &[T], done: impl Fn(T) -> R + Sync) -> Vec<R> {
    thread::scope(|scope| {
        let each: Vec<_> = all.iter().map(|one| scope.spawn(|| done(*one))).collect();
        each.into_iter().map(|one| one.join().expect("it goes well")).collect()
    })
}

/// The close of ledgers that are all there is posted.
fn closes(register: &Register, mut ledgers: [Ledger; 3]) {
    ledgers[0].types("close\n");
    ledgers.iter_mut().for_each(|ledger| ledger.says("posted"));
    assert_eq!(register.standings(), [Standing::Posted; 3]);
}

/// Starts ledgers in an order, each when those before it have said for whom they wait.
fn starts_in(order: [u8; 3]) {
    let register = Register::open(&format!("order-{order:?}"));
    let [a, b, c] = order;
    let mut first = register.run(a);
    first.says(&format!("waits for {}, {}", b.min(c), b.max(c)));
    let mut second = register.run(b);
    first.says(&format!("waits for {c}"));
    second.says(&format!("waits for {c}"));
    assert!(![1, 2, 3].into_iter().any(|site| register.has_record(site)));
    let mut ledgers = [(a, first), (b, second), (c, register.run(c))];
    ledgers.iter_mut().for_each(|(_, ledger)| ledger.says("ready"));
    assert!([1, 2, 3].into_iter().all(|site| register.has_record(site)));
    ledgers.sort_by_key(|(site, _)| *site);
    closes(&register, ledgers.map(|(_, ledger)| ledger));
}

#[test]
fn they_are_started_in_every_order_with_pauses() {
    let orders = [[1, 2, 3], [1, 3, 2], [2, 1, 3], [2, 3, 1], [3, 1, 2], [3, 2, 1]];
    side_by_side(&orders, starts_in);
}

/// One of two that wait is killed, and started again.
fn goes_and_comes(goes: u8, stays: u8, late: u8) {
    let register = Register::open(&format!("comes-{goes}{stays}{late}"));
    let mut staying = register.run(stays);
    let mut going = register.run(goes);
    staying.says(&format!("waits for {late}"));
    going.says(&format!("waits for {late}"));
    drop(going);
    staying.says(&format!("waits for {}, {}", goes.min(late), goes.max(late)));
    assert!(![1, 2, 3].into_iter().any(|site| register.has_record(site)));
    let mut ledgers = [(stays, staying), (late, register.run(late)), (goes, register.run(goes))];
    ledgers.sort_by_key(|(site, _)| *site);
    closes(&register, ledgers.map(|(_, ledger)| ledger));
}

#[test]
fn one_that_goes_before_they_have_met_may_come_again() {
    let all = [(1, 2, 3), (1, 3, 2), (2, 1, 3), (2, 3, 1), (3, 1, 2), (3, 2, 1)];
    side_by_side(&all, |(goes, stays, late)| goes_and_comes(goes, stays, late));
}

#[test]
fn a_ledger_that_there_is_not_spoils_nothing() {
    let register = Register::open("beyond");
    let reason = "there is no ledger 4 in this register of 3";
    let said = format!("ledgers: {}: {reason}\n", register.0.display());
    assert_eq!(register.refuses("run", &["4"]), said);
    assert!(!register.0.join("4").exists());
    closes(&register, [1, 2, 3].map(|site| register.run(site)));
}

#[test]
fn a_ledger_runs_once() {
    let register = Register::open("twice");
    let mut second = register.run(2);
    second.says("waits for 1, 3");
    assert_eq!(register.refuses("run", &["2"]), "ledgers: this ledger runs already\n");
    let [first, third] = [1, 3].map(|site| register.run(site));
    second.says("ready");
    assert_eq!(register.refuses("run", &["2"]), "ledgers: this ledger runs already\n");
    closes(&register, [first, second, third]);
}

/// A ledger that was killed after they had met, and before its record was saved, is told that it
/// has stopped; the others go on without it.
fn comes_too_late(late: u8) {
    let register = Register::open(&format!("late-{late}"));
    let mut ledgers: Vec<(u8, Ledger)> = (1..=3).map(|site| (site, register.run(site))).collect();
    ledgers.iter_mut().for_each(|(_, ledger)| ledger.says("ready"));
    ledgers.retain(|(site, _)| *site != late);
    std::fs::remove_file(register.path(&format!("{late}/record"))).expect("a record");
    assert_eq!(register.run(late).ends().code(), Some(1));
    let stopped = "ledgers: this ledger has stopped, and a stop is for ever\n";
    assert_eq!(register.refuses("run", &[&late.to_string()]), stopped);
    ledgers[0].1.types("close\n");
    ledgers.iter_mut().for_each(|(_, ledger)| ledger.says("backed out"));
}

#[test]
fn one_that_comes_after_they_have_met_has_stopped() {
    side_by_side(&[1, 2, 3], comes_too_late);
}

/// A ledger is killed at some moment of the meeting and started again. It joins, or it has stopped
/// and the others go on; everyone who runs decides, and all alike.
fn is_killed_after(site: u8, moment: Duration) -> &'static str {
    let register = Register::open(&format!("moment-{site}-{}", moment.as_micros()));
    let mut ledgers = [1, 2, 3].map(|site| register.run(site));
    thread::sleep(moment);
    let place = usize::from(site) - 1;
    ledgers[place].kill();
    ledgers[place] = register.run(site);
    let joined = ledgers[place].says_one_of(&["ready"]).is_some();
    if joined {
        closes(&register, ledgers);
        return "joined";
    }
    assert_eq!(ledgers[place].ends().code(), Some(1));
    if site != 1 {
        ledgers[0].types("close\n");
    }
    for (number, ledger) in (1..).zip(&mut ledgers).filter(|(number, _)| *number != site) {
        assert!(ledger.says_one_of(&["backed out"]).is_some(), "ledger {number} decides");
    }
    "stopped"
}

#[test]
fn one_is_killed_at_any_moment_of_the_meeting() {
    let ends = side_by_side(&[1, 2, 3], |site| {
        let after = |step: u64| is_killed_after(site, Duration::from_micros(400 * step));
        (0..16).map(after).collect::<Vec<&str>>()
    });
    assert!(ends.concat().contains(&"joined"), "{ends:?}");
}

#[test]
fn exit_statuses() {
    let help = asks(&["--help"]);
    assert!(help.status.success() && help.stderr.is_empty());
    assert!(help.stdout.starts_with(b"usage: ledgers open REGISTER LEDGERS\n"));
    assert_eq!(asks(&["run", "--help"]).stdout, help.stdout);
    for (words, reason) in [
        (&[][..], "there is no command"),
        (&["opens", "r"], "`opens r` is not understood"),
        (&["run", "r", "3", "2"], "`run r 3 2` is not understood"),
        (&["open", "r", "9"], "`9` is not a number of ledgers, from 2 to 8"),
        (&["open", "r", "1"], "`1` is not a number of ledgers, from 2 to 8"),
        (&["run", "r", "0"], "`0` is not the number of a ledger, from 1 to 8"),
        (&["run", "r", "one"], "`one` is not the number of a ledger, from 1 to 8"),
    ] {
        let said = asks(words);
        assert!(said.status.code() == Some(2) && said.stdout.is_empty(), "{words:?}");
        let text = String::from_utf8(said.stderr).expect("text");
        let usage = String::from_utf8(help.stdout.clone()).expect("text");
        assert_eq!(text, format!("ledgers: {reason}\n{usage}"));
    }
}
