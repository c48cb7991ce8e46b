//! Compares the call that takes a day's journal, also with one call after another.

use crate::inputs::days::{Handover, Handovers};
use crate::inputs::{pattern, Random};
use crate::lowest::Lowest;
use crate::run::RunEvent;
use crate::tally::Tally;
use fjadrimor::calls::{DAY_ANSWER, RUN_ANSWER};
use second::journal::RECORD;
use std::collections::{BTreeMap, BTreeSet};

/// A run's bytes, a journal, the room of the answer.
pub type RunJournal = fn(&mut [u8], &[u8], &mut [u8]) -> u8;

/// A program's `fj_run_journal`, and its `fj_record_read` and `fj_run_event`, which do the same one
/// after another.
#[derive(Clone, Copy)]
pub struct Days {
    pub journal: RunJournal,
    pub read: fn(&[u8], usize, &mut [u8]) -> u8,
    pub event: RunEvent,
}

/// What is told of a day, and the refusal that ended it, or 0.
#[derive(Default)]
pub struct Told {
    pub accepted: u64,
    pub written: u64,
    pub place: usize,
    pub awaited: u8,
    pub lowest: u8,
    pub refusal: u8,
}

impl Told {
    /// The bytes of the answer.
    fn answer(&self) -> [u8; DAY_ANSWER] {
        let mut answer = [0; DAY_ANSWER];
        let numbers = [self.accepted, self.written, self.place as u64];
        for (bytes, number) in answer.chunks_exact_mut(8).zip(numbers) {
            bytes.copy_from_slice(&number.to_be_bytes());
        }
        answer[DAY_ANSWER - 2..].copy_from_slice(&[self.awaited, self.lowest]);
        answer
    }
}

impl Days {
    /// A day by one call after another: each record is read, and its event happens, until one is
    /// refused or no byte is left.
    pub fn one_by_one(self, run: &mut [u8], journal: &[u8]) -> Told {
        let (mut told, mut fields, mut answer) = (Told::default(), [0; 6], [0; RUN_ANSWER]);
        while told.place < journal.len() {
            told.refusal = (self.read)(journal, told.place, &mut fields);
            if told.refusal == 0 {
                let [k, s, o, m, v, x] = fields;
                told.refusal = (self.event)(run, k, s, o, m, v, x, &mut answer);
            }
            if told.refusal != 0 {
                break;
            }
            told.accepted += 1;
            told.written += u64::from(answer[1]);
            told.place += RECORD;
            [told.awaited, told.lowest] = [answer[2], answer[3]];
        }
        told
    }

    /// The whole call by others: 15 first, then 1 for bytes that are no run. An event of no kind
    /// changes nothing: it is refused with 13, and before that with 1 where they are none.
    fn by_other_calls(self, run: &mut [u8], journal: &[u8], answer: &mut [u8]) -> u8 {
        let Some(answer) = answer.first_chunk_mut::<DAY_ANSWER>() else {
            return 15;
        };
        if (self.event)(run, 0, 0, 0, 0, 0, 0, &mut [0; RUN_ANSWER]) == 1 {
            answer.fill(0);
            return 1;
        }
        let told = self.one_by_one(run, journal);
        *answer = told.answer();
        told.refusal
    }
}

/// What a call returned, the run's bytes and the whole room of the answer after it.
type After = (u8, Vec<u8>, Vec<u8>);

/// A call on copies of what is handed over.
fn made(
    handover: &Handover,
    room: usize,
    call: impl Fn(&mut [u8], &[u8], &mut [u8]) -> u8,
) -> After {
    let (mut run, mut answer) = (handover.run.clone(), pattern(room));
    let returned = call(&mut run, &handover.journal, &mut answer);
    (returned, run, answer)
}

/// The room of an answer: mostly enough, now and then any that is too small.
fn room(random: &mut Random) -> usize {
    let needed = DAY_ANSWER as u64;
    let room = if random.once_in(32) { random.below(needed) } else { needed + random.below(4) };
    room as usize
}

/// Compares two programs, and the first with its own calls one after another, on `count` handovers.
pub fn compare(first: Days, second: Days, count: u64) -> Tally {
    let (mut tally, mut met) = (Tally::default(), Met::default());
    let mut random = Random::new(31);
    let handovers = Handovers::new(first.event);
    for _ in 0..count {
        let handover = handovers.any(&mut random);
        let room = room(&mut random);
        let after = made(&handover, room, first.journal);
        let described = || format!("{handover:?} room {room}");
        tally.note(&after, &made(&handover, room, second.journal), described);
        let single = made(&handover, room, |run, journal, answer| {
            first.by_other_calls(run, journal, answer)
        });
        tally.note(&after, &single, || format!("one after another: {}", described()));
        met.note(&after);
    }
    met.look(&mut tally);
    tally
}

/// Every number that the call returns once it looks at the journal. 15 comes before that.
const RETURNED: [u8; 12] = [0, 1, 2, 3, 4, 5, 6, 10, 11, 12, 13, 14];
/// The classes of accepted events by which days are counted: from so many on.
const CLASSES: [u64; 6] = [0, 1, 4, 8, 16, 32];

/// The sort of these answers.
const DAYS: &str = "days";

/// How many days ended with each number that is returned, by the class of what was accepted; and whom
/// those that accepted something named as the lowest awaited.
#[derive(Default)]
struct Met {
    ended: BTreeMap<(u8, u64), u64>,
    lowest: Lowest,
}

impl Met {
    fn note(&mut self, (returned, _, answer): &After) {
        let accepted = match (returned, answer.first_chunk()) {
            (0..15, Some(bytes)) => u64::from_be_bytes(*bytes),
            _ => 0,
        };
        let class = CLASSES.into_iter().rfind(|from| *from <= accepted).unwrap_or_default();
        *self.ended.entry((*returned, class)).or_default() += 1;
        if accepted > 0 {
            self.lowest.named(DAYS, answer[DAY_ANSWER - 1]);
        }
    }

    /// Prints what was met: each number must be, after no accepted event, after many, and between.
    fn look(&self, tally: &mut Tally) {
        let row = |cells: [String; CLASSES.len()]| cells.map(|cell| format!("{cell:>8}")).concat();
        println!("accepted   {}", row(CLASSES.map(|from| format!("{from}+"))));
        for returned in RETURNED.into_iter().chain([15]) {
            let days = |class| self.ended.get(&(returned, class)).copied().unwrap_or_default();
            println!("returned {returned:>2}{}", row(CLASSES.map(|class| days(class).to_string())));
        }
        let each = RETURNED.into_iter().flat_map(|number| CLASSES.map(|class| (number, class)));
        let expected = BTreeSet::from_iter(each.chain([(15, 0)]));
        let met: BTreeSet<(u8, u64)> = self.ended.keys().copied().collect();
        tally.note(&met, &expected, || "numbers returned, and accepted events".to_string());
        self.lowest.look(tally, &[(DAYS, 1..=8)]);
    }
}
