//! Compares the proved library with the second program.

use compare::tally::Tally;
use std::process::ExitCode;

const USAGE: &str = "usage: compare site [--count N]
       compare run [--count N]
       compare journal [--count N]
       compare day [--count N]
       compare sheet [--count N]
       compare parts [--count N]
       compare hostile [--count N]
       compare program PATH rehearsal [--count N]
       compare program PATH sheets [--count N]";

/// The number after `--count`, or the one that is usual.
fn count(arguments: &[String], usual: u64) -> Option<u64> {
    match arguments {
        [] => Some(usual),
        [flag, number] if flag == "--count" => number.parse().ok(),
        _ => None,
    }
}

fn site(count: u64) -> Tally {
    compare::site::compare(fjadrimor::calls::site_step, second::bytes::site_step, count)
}

fn run(count: u64) -> Tally {
    use compare::run::{compare, Runs};
    let library = Runs { fresh: fjadrimor::calls::run_fresh, event: fjadrimor::calls::run_event };
    let second = Runs { fresh: second::run_bytes::run_fresh, event: second::run_bytes::run_event };
    compare(library, second, count)
}

fn journal(count: u64) -> Tally {
    use compare::journal::{compare, Journaling};
    let library = Journaling {
        read: fjadrimor::calls::record_read,
        write: fjadrimor::calls::record_write,
        rehearse: fjadrimor::calls::rehearse,
    };
    let second = Journaling {
        read: second::journal::record_read,
        write: second::journal::record_write,
        rehearse: second::rehearsal::rehearse_bytes,
    };
    compare(library, second, count)
}

fn day(count: u64) -> Tally {
    use compare::day::{compare, Days};
    let library = Days {
        journal: fjadrimor::calls::run_journal,
        read: fjadrimor::calls::record_read,
        event: fjadrimor::calls::run_event,
    };
    let second = Days {
        journal: second::day::run_journal,
        read: second::journal::record_read,
        event: second::run_bytes::run_event,
    };
    compare(library, second, count)
}

fn sheet(count: u64) -> Tally {
    use compare::sheet::{compare, Judging};
    let library =
        Judging { judge: fjadrimor::calls::sheet_judge, report: fjadrimor::calls::sheet_report };
    let second =
        Judging { judge: second::report::sheet_judge, report: second::report::sheet_report };
    compare(library, second, count)
}

fn parts(count: u64) -> Tally {
    use compare::parts::{compare, Writing};
    let library =
        Writing { parts: fjadrimor::calls::sheet_parts, write: fjadrimor::calls::sheet_write };
    let second = Writing { parts: second::parts::sheet_parts, write: second::parts::sheet_write };
    compare(library, second, count)
}

/// An executable's output with what the second program writes.
fn program(path: &str, what: &str, rest: &[String]) -> Option<Tally> {
    let tally = match what {
        "rehearsal" => compare::program::rehearsal(path, count(rest, 3000)?),
        "sheets" => compare::program::sheets(path, count(rest, 5000)?),
        _ => return None,
    };
    Some(tally.unwrap_or_else(|error| panic!("{path} cannot be run: {error}")))
}

/// The comparison that the arguments ask for, or none where they ask for nothing known.
fn compared(arguments: &[String]) -> Option<Tally> {
    let (what, rest) = arguments.split_first()?;
    Some(match what.as_str() {
        "site" => site(count(rest, 1_000_000)?),
        "run" => run(count(rest, 300_000)?),
        "journal" => journal(count(rest, 3000)?),
        "day" => day(count(rest, 100_000)?),
        "sheet" => sheet(count(rest, 5000)?),
        "parts" => parts(count(rest, 20_000)?),
        "hostile" => compare::hostile::compare(count(rest, 10_000)?),
        "program" => match rest {
            [path, what, rest @ ..] => program(path, what, rest)?,
            _ => return None,
        },
        _ => return None,
    })
}

fn main() -> ExitCode {
    let arguments: Vec<String> = std::env::args().skip(1).collect();
    let Some(tally) = compared(&arguments) else {
        eprintln!("{USAGE}");
        return ExitCode::from(2);
    };
    if tally.finish() {
        ExitCode::SUCCESS
    } else {
        ExitCode::FAILURE
    }
}
