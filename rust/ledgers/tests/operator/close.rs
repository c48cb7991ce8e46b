//! Closes of three ledger processes, as an operator sees them.

use crate::desk::Register;
use ledgers::disk::Standing;

#[test]
fn a_good_close_is_posted_by_all() {
    let register = Register::open("good");
    let mut ledgers = [1, 2, 3].map(|site| register.run(site));
    ledgers[0].types("close\n");
    ledgers.iter_mut().for_each(|ledger| ledger.says("posted"));
    let shown = String::from_utf8(register.asks("show", &[]).stdout).expect("text");
    let line = |site| format!("ledger {site} c: 2031-12-31 debit 1250 credit 1250 posted\n");
    assert_eq!(shown, line(1) + &line(2) + &line(3));
}

#[test]
fn the_coordinator_is_killed_between_two_commits() {
    let register = Register::open("killed");
    let mut first = register.run_paced(1);
    let mut others = [2, 3].map(|site| register.run(site));
    first.types("close\n");
    // Its actions until then: two Starts, saved; two Yes saved; two Move-ps, saved; two Acks saved;
    // and one Commit.
    first.types(&"\n".repeat(3 + 2 + 3 + 2 + 1));
    let commits = first.saying.by_ref().map_while(Result::ok);
    assert_eq!(commits.filter(|line| line.starts_with("sends commit")).take(2).count(), 2);
    drop(first);
    others.iter_mut().for_each(|ledger| ledger.says("posted"));
    assert_eq!(register.standings(), [Standing::Open, Standing::Posted, Standing::Posted]);
}

#[test]
fn without_its_coordinator_a_close_is_backed_out() {
    let register = Register::open("before");
    let [mut first, mut second, mut third] = [1, 2, 3].map(|site| register.run(site));
    first.says("ready");
    drop(first);
    second.says("backed out");
    third.says("backed out");
    assert_eq!(register.standings(), [Standing::Open, Standing::BackedOut, Standing::BackedOut]);
}

#[test]
fn a_stopped_ledger_does_not_join_again() {
    let register = Register::open("again");
    let ledgers = [1, 2, 3].map(|site| register.run(site));
    ledgers.into_iter().for_each(|mut ledger| ledger.says("ready"));
    let said = register.refuses("run", &["1"]);
    assert_eq!(said, "ledgers: this ledger has stopped, and a stop is for ever\n");
}

#[test]
fn a_posted_entry_is_not_opened_again() {
    let register = Register::open("once");
    let mut ledgers = [1, 2, 3].map(|site| register.run(site));
    ledgers[0].types("close\n");
    ledgers.iter_mut().for_each(|ledger| ledger.says("posted"));
    drop(ledgers);
    let reason = "this register has been opened already";
    assert_eq!(
        register.refuses("open", &["3"]),
        format!("ledgers: {}: {reason}\n", register.0.display())
    );
    assert_eq!(register.standings(), [Standing::Posted; 3]);
}

#[test]
fn a_refused_opening_makes_nothing() {
    let register = Register::named("nothing");
    std::fs::create_dir_all(register.path("3")).expect("a folder");
    let reason = "this ledger has been opened already";
    assert_eq!(
        register.refuses("open", &["3"]),
        format!("ledgers: {}: {reason}\n", register.path("3"))
    );
    assert!(!register.0.join("1").exists() && !register.0.join("ledgers").exists());
}

#[test]
fn an_error_names_its_place() {
    let register = Register::named("nowhere");
    for (verb, rest) in [("run", &["1"][..]), ("show", &[])] {
        let folder = register.0.display();
        let start = format!("ledgers: {folder}: here is no register; `ledgers open` makes one\n");
        assert_eq!(register.refuses(verb, rest), start, "{verb}");
    }
    let register = Register::open("damaged");
    std::fs::write(register.path("1/record"), "seven b").expect("a record");
    let record = register.path("1/record");
    let said = format!("ledgers: {record}: a record has eight bytes\n");
    assert_eq!(register.refuses("run", &["1"]), said);
    std::fs::write(register.path("ledgers"), "9\n").expect("a number");
    let said = format!(
        "ledgers: {}: this is no number of ledgers from 2 to 8\n",
        register.path("ledgers")
    );
    assert_eq!(register.refuses("show", &[]), said);
}
