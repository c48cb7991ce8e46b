//! Rows of records and rehearsals.

use crate::plain;
use crate::row::{Round, Row};
use crate::side::Side;
use compare::inputs::journals::Journals;
use compare::inputs::runs::Event;
use compare::inputs::Random;
use compare::journal::{Journaling, AMPLE};
use std::hint::black_box;

/// The records that fit into the programs' 65,536 bytes.
pub const FULL: usize = 7281;

/// A journal of so many records for eight sites. A run accepts some 150 events at most, so a
/// short journal is mostly accepted and a long one mostly refused.
fn journal(records: usize) -> Vec<u8> {
    Journals::default().valid(&mut Random::new(21), 8, records)
}

/// Reads every record of a journal.
fn read_all(program: Journaling, journal: &[u8]) {
    let read = black_box(program.read);
    let mut fields = [0; 6];
    for at in (1..journal.len()).step_by(9) {
        black_box(read(journal, at, &mut fields));
        black_box(&fields);
    }
}

/// Writes records one after another.
fn write_all(program: Journaling, events: &[Event], room: &mut [u8]) {
    let write = black_box(program.write);
    for (place, &[k, s, o, m, v, x]) in events.iter().enumerate() {
        black_box(write(k, s, o, m, v, x, room, 9 * place));
    }
    black_box(room);
}

fn rehearse(program: Journaling, journal: &[u8], room: &mut [u8]) {
    black_box((black_box(program.rehearse))(journal, room));
    black_box(room);
}

fn read_row(records: usize) -> Row {
    Row::new(format!("read-{records}"), "record", 2000, move |side: Side| {
        let journal = journal(records);
        let work = move || read_all(side.journaling(), &journal);
        Round { units: records as u32, work: Box::new(work) }
    })
}

fn write_row(records: usize) -> Row {
    Row::new(format!("write-{records}"), "record", 2000, move |side: Side| {
        let journal = journal(records);
        let fields = |record: &[u8]| Event::try_from(&record[3..]).expect("nine bytes");
        let events: Vec<Event> = journal[1..].chunks(9).map(fields).collect();
        let mut room = vec![0; journal.len()];
        let work = move || write_all(side.journaling(), &events, &mut room);
        Round { units: records as u32, work: Box::new(work) }
    })
}

fn rehearse_row(
    name: String,
    records: usize,
    program: impl Fn(Side) -> Journaling + 'static,
) -> Row {
    Row::new(name, "record", 300, move |side: Side| {
        let (journal, mut room, program) = (journal(records), vec![0; AMPLE], program(side));
        let work = move || rehearse(program, &journal, &mut room);
        Round { units: records as u32, work: Box::new(work) }
    })
}

/// Plain Rust with a soundness test at each event of a rehearsal, which the library has.
fn testing(side: Side) -> Journaling {
    match side {
        Side::Library => side.journaling(),
        Side::Plain => Journaling { rehearse: plain::rehearse_testing, ..side.journaling() },
    }
}

/// Records of a short and of a full journal, read and written, and rehearsals of journals up to the
/// full one.
pub fn rows() -> Vec<Row> {
    let by_side = |records| rehearse_row(format!("rehearse-{records}"), records, Side::journaling);
    let mut rows = vec![read_row(FULL / 8), read_row(FULL), write_row(FULL / 8), write_row(FULL)];
    rows.extend([70, FULL / 8, FULL / 4, FULL / 2, FULL].map(by_side));
    rows.push(rehearse_row(format!("rehearse-{FULL}-testing"), FULL, testing));
    rows
}
