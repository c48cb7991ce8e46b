//! Compares the reader and the writer of sheets, also in both directions one after the other.

use crate::inputs::parts::{any_parts, empty_places, parts_of, stray, PARTS};
use crate::inputs::sheets::any_case;
use crate::inputs::{faults, figures, pattern, Random};
use crate::sheet::known;
use crate::tally::Tally;
use std::collections::BTreeMap;

/// A call that takes bytes and fills a room.
pub type Fill = fn(&[u8], &mut [u8]) -> u8;

/// A program's `fj_sheet_parts` and `fj_sheet_write`.
#[derive(Clone, Copy)]
pub struct Writing {
    pub parts: Fill,
    pub write: Fill,
}

/// The bytes of the longest record.
pub const LONGEST: usize = 813;
/// Every number that each call returns.
const READER: [u8; 11] = [0, 15, 21, 22, 23, 24, 25, 26, 27, 28, 29];
const WRITER: [u8; 9] = [0, 23, 24, 25, 26, 27, 28, 29, 32];

/// What a call returned, and all of its room after it.
type After = (u8, Vec<u8>);

/// A call with a room of this length.
fn made(call: Fill, given: &[u8], room: usize) -> After {
    let mut room = pattern(room);
    (call(given, &mut room), room)
}

/// An accepted call that left these bytes at the front of a room of this length, and no others.
fn left(bytes: &[u8], room: usize) -> After {
    (0, [bytes, &pattern(room)[bytes.len()..]].concat())
}

/// The length that a record tells of itself.
fn length(record: &[u8]) -> usize {
    2 + usize::from(record[0]) * 256 + usize::from(record[1])
}

struct Comparison {
    first: Writing,
    second: Writing,
    random: Random,
    tally: Tally,
    /// How often the reader and the writer returned each number.
    read: BTreeMap<u8, u64>,
    written: BTreeMap<u8, u64>,
}

/// Compares two programs on these records and on their parts.
pub fn compare_records(first: Writing, second: Writing, records: &[Vec<u8>]) -> Tally {
    let mut comparison = Comparison::new(first, second);
    records.iter().for_each(|record| comparison.record(record));
    comparison.tally
}

/// Compares two programs on sheets of which it is known what they show, and parts with something in
/// each place where a sheet has nothing; then on `count` sheets and `count` parts of every sort.
/// Prints how often each call returned each number.
pub fn compare(first: Writing, second: Writing, count: u64) -> Tally {
    let mut comparison = Comparison::new(first, second);
    for case in known(&mut Random::new(8)) {
        comparison.record(&case.bytes);
    }
    comparison.strays();
    comparison.faults_and_strays();
    for _ in 0..count {
        let sheet = any_case(&mut comparison.random).bytes;
        comparison.record(&sheet);
        let parts = any_parts(&mut comparison.random);
        comparison.parts(&parts);
    }
    comparison.tell_met();
    comparison.tally
}

impl Comparison {
    fn new(first: Writing, second: Writing) -> Comparison {
        let (random, tally) = (Random::new(41), Tally::default());
        let (read, written) = (BTreeMap::new(), BTreeMap::new());
        Comparison { first, second, random, tally, read, written }
    }

    /// Every figure with something in each place where it has nothing.
    fn strays(&mut self) {
        for figure in figures::all() {
            let parts = parts_of(&figure);
            for (ground, place) in empty_places(&parts) {
                let mut parts = parts.clone();
                parts[place] = *self.random.pick(&[1, 2, 255]);
                let described = || format!("{ground} at {place} of {parts:?}");
                let after = made(self.second.write, &parts, LONGEST);
                self.tally.note(&after, &(ground, pattern(LONGEST)), described);
                self.write(&parts, LONGEST);
            }
        }
    }

    /// Every fault of a sheet together with something where it has nothing, some times each.
    fn faults_and_strays(&mut self) {
        for (_, fault) in faults::ALL {
            for _ in 0..12 {
                let mut draft = self.random.pick(&figures::all()).clone();
                fault(&mut self.random, &mut draft);
                let mut parts = parts_of(&draft);
                self.parts(&parts);
                stray(&mut self.random, &mut parts);
                self.parts(&parts);
            }
        }
    }

    /// A record, with room enough for its parts and now and then too little; where it is accepted,
    /// its parts are written again with the same bytes.
    fn record(&mut self, record: &[u8]) {
        if self.random.once_in(16) {
            let short = self.random.below(PARTS as u64) as usize;
            let short = *self.random.pick(&[short, PARTS - 1]);
            self.read(record, short);
        }
        let (ground, parts) = self.read(record, PARTS + 3);
        if ground == 0 {
            let parts = &parts[..PARTS];
            let again = made(self.first.write, parts, LONGEST);
            let described = || format!("{record:?} written again");
            self.tally.note(&again, &left(record, LONGEST), described);
            self.parts(parts);
        }
    }

    /// Parts, with rooms of every length about their record's, and others; where they are accepted,
    /// the record is read back as the same parts.
    fn parts(&mut self, parts: &[u8]) {
        let (ground, record) = self.write(parts, LONGEST + 2);
        let any = self.random.below(LONGEST as u64 + 40) as usize;
        self.write(parts, any);
        self.write(parts, 0);
        if ground == 0 {
            let length = length(&record);
            for room in length - 3..length + 4 {
                self.write(parts, room);
            }
            let back = made(self.first.parts, &record[..length], PARTS + 1);
            let described = || format!("{parts:?} read back");
            self.tally.note(&back, &left(parts, PARTS + 1), described);
        }
    }

    /// Both readers on a record; the second's answer.
    fn read(&mut self, record: &[u8], room: usize) -> After {
        let first = made(self.first.parts, record, room);
        let second = made(self.second.parts, record, room);
        self.tally.note(&first, &second, || format!("read {record:?} room {room}"));
        *self.read.entry(second.0).or_default() += 1;
        second
    }

    /// Both writers on parts; the second's answer.
    fn write(&mut self, parts: &[u8], room: usize) -> After {
        let first = made(self.first.write, parts, room);
        let second = made(self.second.write, parts, room);
        self.tally.note(&first, &second, || format!("write {parts:?} room {room}"));
        *self.written.entry(second.0).or_default() += 1;
        second
    }

    /// Each call returned each of its numbers, and no other.
    fn tell_met(&mut self) {
        for (name, met, expected) in
            [("read", &self.read, &READER[..]), ("written", &self.written, &WRITER)]
        {
            let told: Vec<String> =
                met.iter().map(|(number, n)| format!("{number}: {n}")).collect();
            println!("{name:<8} {}", told.join(", "));
            let numbers: Vec<u8> = met.keys().copied().collect();
            let described = || format!("numbers returned when {name}");
            self.tally.note(&numbers, &expected.to_vec(), described);
        }
    }
}
