//! Times the proved library beside plain Rust, and the two programs on their worst inputs.

use bench::row::{print_head, Row};
use bench::sheet::with_a_table;
use bench::side::Side;
use bench::slowest;
use compare::tally::Tally;
use std::process::ExitCode;

const USAGE: &str =
    "usage: bench [ROW..]                     compares both, times both, prints the ratios
       bench --rows                      names the rows
       bench --count ROW library|plain   does the work of a row once and tells its units
       bench --slowest REHEARSAL SHEETS  times the two programs on the worst inputs known";

/// Every comparison of the two; one that differs ends the bench.
fn comparisons() -> [Tally; 7] {
    let (library, plain) = (Side::Library, Side::Plain);
    [
        compare::site::compare(library.site_step(), plain.site_step(), 100_000),
        compare::run::compare(library.runs(), plain.runs(), 100_000),
        compare::journal::compare(library.journaling(), plain.journaling(), 1000),
        compare::day::compare(library.days(), plain.days(), 100_000),
        compare::sheet::compare(library.judging(), plain.judging(), 2000),
        compare::sheet::compare(library.judging(), with_a_table(plain), 500),
        compare::parts::compare(library.writing(), plain.writing(), 10_000),
    ]
}

/// The rows of these names, all where none is named.
fn rows(names: &[String]) -> Option<Vec<Row>> {
    let mut rows = bench::rows();
    if !names.iter().all(|name| rows.iter().any(|row| row.name == *name)) {
        return None;
    }
    rows.retain(|row| names.is_empty() || names.contains(&row.name));
    Some(rows)
}

fn table(rows: &[Row]) -> bool {
    if !comparisons().iter().all(Tally::finish) {
        return false;
    }
    print_head();
    let ratios = rows.iter().map(|row| (row.print(), &row.name));
    if let Some((ratio, name)) = ratios.max_by(|a, b| a.0.total_cmp(&b.0)) {
        println!("the largest ratio is {ratio:.2}, of {name}");
    }
    true
}

/// Does what the arguments ask for and tells whether all was well, or none where they ask for
/// nothing known.
fn done(arguments: &[String]) -> Option<bool> {
    match arguments {
        [flag] if flag == "--rows" => {
            bench::rows().iter().for_each(|row| println!("{}", row.name));
            Some(true)
        }
        [flag, name, side] if flag == "--count" => {
            let row = rows(std::slice::from_ref(name))?.pop()?;
            println!("{} {}", row.unit, row.count(Side::named(side)?));
            Some(true)
        }
        [flag, rehearsal, sheets] if flag == "--slowest" => Some(slowest::look(rehearsal, sheets)),
        names => Some(table(&rows(names)?)),
    }
}

fn main() -> ExitCode {
    let arguments: Vec<String> = std::env::args().skip(1).collect();
    match done(&arguments) {
        Some(true) => ExitCode::SUCCESS,
        Some(false) => ExitCode::FAILURE,
        None => {
            eprintln!("{USAGE}");
            ExitCode::from(2)
        }
    }
}
