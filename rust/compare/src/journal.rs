//! Compares the reader and the writer of records and the rehearsal.

use crate::inputs::journals::{any_fields, Journals};
use crate::inputs::runs::Events;
use crate::inputs::{pattern, Random};
use crate::lowest::{Lowest, OUTCOMES};
use crate::tally::Tally;

/// K, S, O, M, V, X, the room and the place in it.
pub type RecordWrite = fn(u8, u8, u8, u8, u8, u8, &mut [u8], usize) -> u8;

/// A program's `fj_record_read`, `fj_record_write` and `fj_rehearse`.
#[derive(Clone, Copy)]
pub struct Journaling {
    pub read: fn(&[u8], usize, &mut [u8]) -> u8,
    pub write: RecordWrite,
    pub rehearse: fn(&[u8], &mut [u8]) -> usize,
}

/// A room that is large enough for every rehearsal.
pub const AMPLE: usize = 1 << 18;

/// Compares two programs on `count` rehearsals and 20 times as many records read and written.
pub fn compare(first: Journaling, second: Journaling, count: u64) -> Tally {
    let mut tally = Tally::default();
    let mut random = Random::new(4);
    let events = Events::new(4, 8);
    for _ in 0..20 * count {
        read(&mut tally, [first, second], &mut random, &events);
        write(&mut tally, [first, second], &mut random, &events);
    }
    let (journals, mut lowest) = (Journals::default(), Lowest::default());
    for _ in 0..count {
        let journal = journals.any(&mut random);
        let text = rehearse(&mut tally, [first, second], &mut random, &journal);
        text.lines().for_each(|line| last_field(&mut lowest, line));
    }
    // In a run from fresh a leader knows every lower site to have stopped, and site 1 passes nothing
    // over while it waits.
    let [taken, passed] = OUTCOMES;
    lowest.look(&mut tally, &[(taken, 2..=8), (passed, 3..=8)]);
    tally
}

/// Counts the last field of a line of a rehearsal, if it has one.
fn last_field(lowest: &mut Lowest, line: &str) {
    let [_, word, _, last] = line.split(' ').collect::<Vec<_>>()[..] else { return };
    if let Some(outcome) = OUTCOMES.into_iter().find(|outcome| *outcome == word) {
        lowest.named(outcome, if last == "-" { 0 } else { last.parse().expect("a site") });
    }
}

/// A place in so many bytes, now and then at or past their end.
fn place(random: &mut Random, length: usize) -> usize {
    match random.below(64) {
        0 => usize::MAX - random.below(16) as usize,
        1 => length + random.below(4) as usize,
        2 | 3 => length - random.below(length.min(12) as u64 + 1) as usize,
        _ => random.below(length as u64 + 1) as usize,
    }
}

/// Reads at some place of a few records, most of them in order.
fn read(tally: &mut Tally, programs: [Journaling; 2], random: &mut Random, events: &Events) {
    let mut journal = Vec::new();
    for _ in 0..random.below(4) {
        let head = if random.once_in(8) { [0, 7, random.within(0, 2)] } else { [0, 7, 1] };
        journal.extend(head);
        journal.extend(any_fields(random, events));
    }
    if !journal.is_empty() && random.once_in(8) {
        let place = random.below(journal.len() as u64) as usize;
        journal[place] = random.within(0, 8);
    }
    let starts = random.below(journal.len() as u64 / 9 + 1) as usize * 9;
    let at = if random.once_in(4) { place(random, journal.len()) } else { starts };
    let room = if random.once_in(40) { random.below(6) } else { 6 + random.below(3) } as usize;
    let made = |program: Journaling| {
        let mut fields = pattern(room);
        ((program.read)(&journal, at, &mut fields), fields)
    };
    let [first, second] = programs.map(made);
    tally.note(&first, &second, || format!("read {journal:?} at {at} room {room}"));
}

/// Writes at some place of a room.
fn write(tally: &mut Tally, programs: [Journaling; 2], random: &mut Random, events: &Events) {
    let [k, s, o, m, v, x] = any_fields(random, events);
    let length = random.below(40) as usize;
    let at = place(random, length);
    let made = |program: Journaling| {
        let mut room = pattern(length);
        ((program.write)(k, s, o, m, v, x, &mut room, at), room)
    };
    let [first, second] = programs.map(made);
    tally.note(&first, &second, || format!("write {:?} at {at} of {length}", [k, s, o, m, v, x]));
}

/// Rehearses with ample room, and with less than an input of that length is given. The text of the
/// first program comes back.
fn rehearse(
    tally: &mut Tally,
    programs: [Journaling; 2],
    random: &mut Random,
    journal: &[u8],
) -> String {
    let made = |program: Journaling, length: usize| {
        let mut room = pattern(length);
        ((program.rehearse)(journal, &mut room), room)
    };
    let [(length, text), second] = programs.map(|program| made(program, AMPLE));
    let told = String::from_utf8_lossy(&text[..length]).into_owned();
    let short = random.below(38 + 26 * (journal.len() as u64 / 9)) as usize;
    tally.note(&(length, text), &second, || format!("rehearse {journal:?}"));
    let [first, second] = programs.map(|program| made(program, short));
    tally.note(&first, &second, || format!("rehearse {journal:?} in {short}"));
    told
}
