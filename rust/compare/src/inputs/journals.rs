//! Journals for the rehearsal: one byte n, then records of nine bytes.

use super::days::longest;
use super::runs::{Event, Events, RUN};
use super::Random;
use fjadrimor::calls::RUN_ANSWER;
use second::journal::record_write;
use second::run_bytes::{run_event, run_fresh};

/// What both programs take of their input.
const LIMIT: usize = 65_536;

/// Makes journals from runs that go along with them.
pub struct Journals {
    calm: Events,
    stormy: Events,
}

impl Default for Journals {
    fn default() -> Journals {
        Journals { calm: Events::new(60, 100), stormy: Events::new(12, 16) }
    }
}

impl Journals {
    /// A journal without a bad record, of a run of n sites with so many events.
    pub fn valid(&self, random: &mut Random, n: u8, events: usize) -> Vec<u8> {
        let kind = if random.once_in(2) { &self.calm } else { &self.stormy };
        let (mut run, mut answer) = (vec![0; RUN], [0; RUN_ANSWER]);
        run_fresh(n, &mut run);
        let mut journal = vec![n];
        while journal.len() < 1 + 9 * events {
            let [k, s, o, m, v, x] = kind.next(random, &run);
            let mut record = [0; 9];
            if record_write(k, s, o, m, v, x, &mut record, 0) == 0 {
                journal.extend(record);
                run_event(&mut run, k, s, o, m, v, x, &mut answer);
            }
        }
        journal
    }

    /// A journal without a bad record: of a run that wanders, or now and then of the longest close, in
    /// which a backup that gathers acknowledgements passes over what comes late.
    fn good(&self, random: &mut Random, n: u8) -> Vec<u8> {
        if random.once_in(8) {
            return [vec![n], longest(n)].concat();
        }
        let events = random.below(u64::from(n) * 16) as usize;
        self.valid(random, n, events)
    }

    /// A journal for the rehearsal of every sort: valid, damaged, cut, shifted, random, empty,
    /// without a good n, longer than the limit.
    pub fn any(&self, random: &mut Random) -> Vec<u8> {
        let n = random.within(2, 8);
        if random.once_in(150) {
            return self.long(random, n);
        }
        let mut journal = self.good(random, n);
        let place = random.below(journal.len() as u64) as usize;
        match random.below(16) {
            0..=7 => {}
            8 => journal[place] = random.byte(),
            9 => journal[place] ^= 1 << random.below(8),
            10 => journal.truncate(place),
            11 => journal.insert(place, random.within(0, 9)),
            12 => drop(journal.remove(place)),
            13 => journal[0] = random.byte(),
            14 => journal.truncate(random.below(3) as usize),
            _ => journal = some_bytes(random, n),
        }
        journal
    }

    /// A journal about as long as the limit, or longer.
    fn long(&self, random: &mut Random, n: u8) -> Vec<u8> {
        let mut journal = self.valid(random, n, 64);
        let filling = self.valid(random, n, 200).split_off(1);
        while journal.len() < LIMIT + 2000 {
            journal.extend(&filling);
        }
        let length = [LIMIT - 7, LIMIT - 1, LIMIT, LIMIT + 1, LIMIT + 2, LIMIT + 1999];
        journal.truncate(*random.pick(&length));
        journal
    }
}

/// Random bytes, the first of them a good n.
fn some_bytes(random: &mut Random, n: u8) -> Vec<u8> {
    let length = random.below(60) as usize;
    let mut bytes = vec![n];
    bytes.extend((0..length).map(|_| random.within(0, 8)));
    bytes
}

/// Fields of a record, most of them good.
pub fn any_fields(random: &mut Random, events: &Events) -> Event {
    let mut fields = events.next(random, &[]);
    if random.once_in(6) {
        fields[random.below(6) as usize] = random.within(0, 22);
    }
    fields
}
