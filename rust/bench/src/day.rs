//! Rows of days. A run accepts some 150 events at most, so the journal of a long day has the closes of
//! many entries one after another. Each call lends a fresh run and what is left of the journal; it
//! ends where the next close begins, which the run refuses, and the next call goes on there.

use crate::journal::FULL;
use crate::plain;
use crate::row::{Round, Row};
use crate::side::Side;
use compare::day::Days;
use compare::inputs::days::Handovers;
use compare::inputs::runs::RUN;
use compare::inputs::Random;
use fjadrimor::calls::DAY_ANSWER;
use std::hint::black_box;

/// The bytes of a record.
const RECORD: usize = 9;
/// Site 1 begins and votes yes: the first record of each close.
const BEGIN: [u8; RECORD] = [0, 7, 1, 1, 1, 0, 0, 1, 0];

/// The records of a short, a longer and a full journal.
const SIZES: [usize; 3] = [70, FULL / 8, FULL];

type Run = [u8; RUN];

/// The fresh run of n sites.
fn fresh(n: u8) -> Run {
    let mut run = [0; RUN];
    plain::run_fresh(n, &mut run);
    run
}

/// A run of eight in which site 8 leads though lower sites run: sound, but not in order, so that it
/// is tested at each event. Site 8 has posted and passes everything over; site 1 has its answers.
fn unordered() -> Run {
    let mut run = fresh(8);
    run[2..10].copy_from_slice(&[8, 1, 0, 1, 0, 0x80, 0, 0x80]);
    run[58..66].copy_from_slice(&[8, 8, 4, 8, 0, 0, 0, 0]);
    run
}

/// A run of eight that have posted, each following the one below it, with every message outstanding
/// that they pass over.
fn posted() -> Run {
    let mut run = fresh(8);
    for number in 1..=8 {
        let leader = number.max(2) - 1;
        let place = 2 + 8 * (usize::from(number) - 1);
        run[place..place + 8].copy_from_slice(&[8, number, 4, leader, 0, 0, 0, 0]);
    }
    for (place, receivers) in run[66..130].iter_mut().enumerate() {
        let (kind, sender) = (place / 8 + 1, place % 8 + 1);
        let above = |site: usize| !((1u16 << site) - 1) as u8;
        *receivers = match kind {
            1 if sender > 1 => 0,
            1 | 7 => above(sender),
            2 | 3 => !above(sender - 1) & 1,
            6 => !above(sender - 1),
            _ => above(sender + 1),
        };
    }
    run
}

/// A delivery of each message that is outstanding in a run, a Start with a yes.
fn deliveries(run: Run) -> Vec<u8> {
    let rows = run[66..130].iter().enumerate();
    let messages = rows.flat_map(|(place, receivers)| {
        let (kind, sender) = (place as u8 / 8 + 1, place as u8 % 8 + 1);
        let to = (1..=8).filter(move |to| receivers >> (to - 1) & 1 == 1);
        to.map(move |to| [0, 7, 1, 2, to, sender, kind, u8::from(kind == 1), 0])
    });
    messages.flatten().collect()
}

/// A day of so many records: closes from this run, each until it hardly accepts anything any more.
fn closes(from: Run, records: usize) -> Vec<u8> {
    let mut random = Random::new(23);
    let handovers = Handovers::new(plain::run_event);
    let mut journal = Vec::new();
    while journal.len() < RECORD * records {
        let mut run = from;
        plain::run_journal(&mut run, &BEGIN, &mut [0; DAY_ANSWER]);
        journal.extend(BEGIN);
        journal.extend(handovers.accepted(&mut random, &mut run, records));
    }
    journal.truncate(RECORD * records);
    journal
}

/// Takes a day, one call for each close.
fn take(program: Days, from: &Run, mut journal: &[u8]) {
    let take = black_box(program.journal);
    let (mut run, mut answer) = ([0; RUN], [0; DAY_ANSWER]);
    while !journal.is_empty() {
        run.copy_from_slice(from);
        black_box(take(&mut run, journal, &mut answer));
        black_box(&run);
        let place = answer[16..24].try_into().map(usize::from_be_bytes).expect("eight bytes");
        assert_ne!(place, 0, "a close begins");
        journal = &journal[place..];
    }
}

/// Takes the same day by one call for each record read and one for each event.
fn take_looped(program: Days, from: &Run, mut journal: &[u8]) {
    let program = black_box(program);
    let mut run = [0; RUN];
    while !journal.is_empty() {
        run.copy_from_slice(from);
        let told = black_box(program.one_by_one(&mut run, journal));
        black_box(&run);
        journal = &journal[told.place..];
    }
}

type Take = fn(Days, &Run, &[u8]);

fn row(name: String, from: Run, journal: impl Fn() -> Vec<u8> + 'static, take: Take) -> Row {
    Row::new(name, "record", 300, move |side: Side| {
        let journal = journal();
        let units = (journal.len() / RECORD) as u32;
        Round { units, work: Box::new(move || take(side.days(), &from, &journal)) }
    })
}

/// Days of closes of two and of eight sites, by a call for each close and by calls for each record; one
/// that is tested at each event; and one in which everything is passed over.
pub fn rows() -> Vec<Row> {
    let takes: [(&str, Take); 2] = [("day", take), ("looped", take_looped)];
    let mut rows = Vec::new();
    for (name, take) in takes {
        for (n, records) in [2, 8].into_iter().flat_map(|n| SIZES.map(|records| (n, records))) {
            let journal = move || closes(fresh(n), records);
            rows.push(row(format!("{name}-n{n}-{records}"), fresh(n), journal, take));
        }
    }
    rows.push(row("day-unordered-910".into(), unordered(), || closes(unordered(), 910), take));
    rows.push(row("day-passed-140".into(), posted(), || deliveries(posted()), take));
    rows
}

#[cfg(test)]
mod tests {
    use super::*;

    #[test]
    fn whatever_has_posted_passes_it_over() {
        let mut run = posted();
        for record in deliveries(run).chunks(RECORD) {
            let [k, s, o, m, v, x] = record[3..] else { unreachable!() };
            let mut answer = [0; 4];
            let refusal = plain::run_event(&mut run, k, s, o, m, v, x, &mut answer);
            assert_eq!((refusal, answer), (0, [1, 0, 0, 0]), "{record:?}");
        }
        assert_eq!(deliveries(posted()).len(), 140 * RECORD);
        assert_eq!(deliveries(run).len(), 0);
    }

    #[test]
    fn only_one_run_is_not_in_order() {
        let is_good = |run: Run| {
            let run = plain::run::Run::from_bytes(&run).expect("a run");
            (run.sound(), run.ordered())
        };
        assert_eq!([fresh(2), fresh(8), posted()].map(is_good), [(true, true); 3]);
        assert_eq!(is_good(unordered()), (true, false));
    }
}
