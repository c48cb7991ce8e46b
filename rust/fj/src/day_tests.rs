//! The scenarios as journals of a day: handed over in one call, each ends at the first record that its
//! rehearsal refuses or cannot read, and `fj day` has the rehearsal's words for it.

use crate::beside::Rehearsal;
use crate::day::HandedOver;
use crate::journal::Journal;
use crate::notation::{assemble, start};
use fjadrimor::{Day, Refusal, Run};
use std::path::PathBuf;

const SCENARIOS: &str = concat!(env!("CARGO_MANIFEST_DIR"), "/../../scenarios");

/// The scenarios' journals in notation.
fn files() -> impl Iterator<Item = PathBuf> {
    let files = std::fs::read_dir(SCENARIOS).expect("the scenarios are there");
    let files = files.map(|file| file.expect("it can be listed").path());
    files.filter(|file| file.extension().is_some_and(|end| end == "journal"))
}

/// The bytes of a journal in notation, by the file's path.
fn assembled(path: &std::path::Path) -> Vec<u8> {
    assemble(&std::fs::read_to_string(path).expect("text")).expect("a journal")
}

/// The first record that is refused or bad, by its place from 1 on, with the ground and why.
fn first_refused(rehearsal: &Rehearsal) -> Option<(usize, u8, &str)> {
    rehearsal.refused().chain(rehearsal.bad()).min()
}

#[test]
fn a_day_ends_at_the_first_record_that_is_refused() {
    let mut whole = 0;
    for file in files() {
        let journal = assembled(&file);
        let Ok(mut run) = Run::fresh(journal[0]) else { continue };
        let day = run.journal(&journal[1..]);
        let rehearsal = Rehearsal::new(&journal, false).expect("a rehearsal");
        let refused = first_refused(&rehearsal);
        let place = refused.map_or(journal.len(), |(place, ..)| start(place)) - 1;
        let ground = refused.map(|(_, ground, _)| ground);
        assert_eq!((day.place, day.refusal.map(Refusal::number)), (place, ground), "{file:?}");
        if refused.is_none() {
            assert_eq!(rehearsal.run, Some(run), "{file:?}");
            whole += 1;
        }
    }
    assert!(whole > 10, "{whole} scenarios have no refused record");
}

#[test]
fn the_refused_record_is_told_as_in_the_rehearsal() {
    let mut count = 0;
    for file in files() {
        let journal = Journal::read(file.as_os_str(), false).expect("a journal");
        let Some(day) = HandedOver::new(&journal) else { continue };
        let rehearsal = Rehearsal::new(&journal.bytes, journal.is_longer).expect("a rehearsal");
        let told = first_refused(&rehearsal).map(|(place, ground, why)| {
            journal.of_record(place, &format!("refused {ground}: {why}"))
        });
        assert_eq!(day.trouble(), told, "{file:?}");
        count += usize::from(told.is_some());
    }
    assert!(count > 4, "{count} scenarios have a refused record");
}

/// The answer that the scenario tells of, and how operations go on.
#[test]
fn one_record_too_early() {
    let journal = assembled(&std::path::Path::new(SCENARIOS).join("one-record-early.journal"));
    let mut records: Vec<&[u8]> = journal[1..].chunks(9).collect();
    let mut run = Run::fresh(journal[0]).expect("a run");
    let day = run.journal(&records.concat());
    let (lowest, refusal) = (Some(3), Some(Refusal::NotAllowed));
    assert_eq!(day, Day { accepted: 4, written: 4, place: 36, awaited: 1, lowest, refusal });
    records.swap(4, 5);
    let rest = run.journal(&records.concat()[day.place..]);
    assert_eq!((rest.accepted, rest.refusal), (9, None));
    assert!((1..=3).all(|site| run.site(site).is_some_and(|site| site.state().letter() == 'c')));
}

/// What the desk reads in its story after each record: how many are awaited, and whom to ring.
#[test]
fn whom_to_ring() {
    let journal = assembled(&std::path::Path::new(SCENARIOS).join("whom-to-ring.journal"));
    let awaited = [3, 0, 2, 0, 1, 0, 0, 3, 0, 2, 0, 1, 0, 0, 0, 0];
    let lowest = [2, 0, 2, 0, 4, 0, 0, 2, 0, 3, 0, 4, 0, 0, 0, 0];
    let records = journal[1..].chunks(9);
    assert_eq!(records.len(), awaited.len());
    let mut run = Run::fresh(journal[0]).expect("a run");
    for (record, told) in records.zip(awaited.into_iter().zip(lowest)) {
        let day = run.journal(record);
        let read = ((day.awaited, day.lowest.unwrap_or(0)), day.refusal);
        assert_eq!(read, (told, None), "{record:?}");
    }
}
