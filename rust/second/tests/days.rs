//! 02's day's journal: 01's worked close in one call, and where it ends otherwise.

use second::bytes::set_of;
use second::day::{day, run_journal, Day};
use second::journal::{write, RECORD};
use second::run::Run;
use second::run_bytes::run_fresh;
use second::site::{lowest, State};

/// Begin yes, Start (yes), Yes, conclude, Move-p, Ack, conclude, Commit.
const CLOSE: [[u8; 6]; 8] = [
    [1, 1, 0, 0, 1, 0],
    [2, 2, 1, 1, 1, 0],
    [2, 1, 2, 2, 0, 0],
    [5, 1, 0, 0, 0, 0],
    [2, 2, 1, 4, 0, 0],
    [2, 1, 2, 6, 0, 0],
    [5, 1, 0, 0, 0, 0],
    [2, 2, 1, 7, 0, 0],
];

fn journal(events: &[[u8; 6]]) -> Vec<u8> {
    let mut bytes = vec![0; RECORD * events.len()];
    for (record, &event) in bytes.chunks_mut(RECORD).zip(events) {
        assert_eq!(write(event, record), Ok(()));
    }
    bytes
}

fn fresh(n: u8) -> Run {
    Run::fresh(n).expect("n is 2 to 8")
}

/// Accepted, written, place, the number awaited and the lowest, and the refusal.
fn told(day: &Day) -> (usize, usize, usize, (usize, u8), Option<u8>) {
    let awaited = (day.awaited.len(), lowest(&day.awaited));
    (day.accepted, day.written, day.place, awaited, day.refusal)
}

#[test]
fn the_worked_close() {
    let day = day(fresh(2), &journal(&CLOSE));
    assert_eq!(told(&day), (8, 5, 72, (0, 0), None));
    assert!(day.run.sites().all(|site| day.run.record(site).state == State::C));
}

#[test]
fn no_byte_refuses_nothing_whatever_the_run() {
    for run in [fresh(2), Run { n: 9, ..fresh(2) }] {
        let day = day(run.clone(), &[]);
        assert_eq!((told(&day), day.run), ((0, 0, 0, (0, 0), None), run));
    }
}

#[test]
fn the_first_refusal_ends_it_and_what_was_accepted_counts() {
    let without_yes = [&CLOSE[..2], &CLOSE[3..]].concat();
    assert_eq!(told(&day(fresh(2), &journal(&without_yes))), (2, 2, 18, (0, 0), Some(5)));
    let begun_twice = [CLOSE[0], CLOSE[0]];
    assert_eq!(told(&day(fresh(2), &journal(&begun_twice))), (1, 1, 9, (1, 2), Some(5)));
}

#[test]
fn the_reader_comes_before_the_run() {
    let unsound = Run { stopped: set_of(0b100), ..fresh(2) };
    assert_eq!(told(&day(unsound.clone(), &[0])), (0, 0, 0, (0, 0), Some(10)));
    assert_eq!(told(&day(unsound.clone(), &[0, 7, 2, 0, 0, 0, 0, 0, 0])).4, Some(12));
    assert_eq!(told(&day(unsound, &journal(&CLOSE))).4, Some(1));
    let torn = journal(&CLOSE);
    assert_eq!(told(&day(fresh(2), &torn[..20])), (2, 2, 18, (0, 0), Some(10)));
}

#[test]
fn bytes_of_a_close_and_the_grounds_of_the_interface() {
    let mut fresh = vec![0; 138];
    assert_eq!(run_fresh(2, &mut fresh), 0);
    let call = |run: &[u8], journal: &[u8], room: usize| {
        let (mut run, mut answer) = (run.to_vec(), vec![9; room]);
        let returned = run_journal(&mut run, journal, &mut answer);
        (returned, run, answer)
    };
    let (returned, after, answer) = call(&fresh, &journal(&CLOSE[..4]), 27);
    let told = [0, 0, 0, 0, 0, 0, 0, 4, 0, 0, 0, 0, 0, 0, 0, 3, 0, 0, 0, 0, 0, 0, 0, 36, 1, 2, 9];
    assert_eq!((returned, &after[2..5], &answer[..]), (0, &[2, 1, 2][..], &told[..]));
    assert_eq!(call(&fresh, &[], 25), (15, fresh.clone(), vec![9; 25]));
    let mut bad = fresh.clone();
    bad[2 + 8 * 7 + 2] = 5;
    for run in [&bad, &fresh[1..]] {
        let zeros = [&[0; 26][..], &[9]].concat();
        assert_eq!(call(run, &[], 27), (1, run.to_vec(), zeros));
    }
}
