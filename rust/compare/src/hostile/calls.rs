//! The entry points of the C interface on lent memory: a call, and what it may leave.

use super::lent::{Lent, Way};
use crate::inputs::parts::PARTS;
use fjadrimor::calls::{c, DAY_ANSWER, RUN_ANSWER, SITE_ANSWER};

#[derive(Clone, Copy, Debug, PartialEq, Eq, PartialOrd, Ord)]
pub enum Entry {
    SiteStep,
    RunFresh,
    RunEvent,
    RunJournal,
    RecordRead,
    RecordWrite,
    Rehearse,
    SheetJudge,
    SheetReport,
    SheetParts,
    SheetWrite,
}

/// A call. What an entry point does not take is ignored.
#[derive(Clone, Debug)]
pub struct Call {
    pub entry: Entry,
    /// K S O M V X; K is also the n of a fresh run.
    pub fields: [u8; 6],
    pub at: usize,
    /// The site, run, journal, input, sheet or parts.
    pub given: Vec<u8>,
    /// The journal that is handed over with a run.
    pub journal: Vec<u8>,
    /// The room for an answer, a fresh run, a record, parts or a text.
    pub room: Vec<u8>,
    pub words: Vec<u64>,
}

/// What a call returned and what it left of the memory lent to it.
#[derive(Debug, PartialEq, Eq)]
pub struct After {
    pub returned: usize,
    pub given: Vec<u8>,
    pub journal: Vec<u8>,
    pub room: Vec<u8>,
    pub words: Vec<u64>,
}

impl Entry {
    pub const ALL: [Entry; 11] = [
        Entry::SiteStep,
        Entry::RunFresh,
        Entry::RunEvent,
        Entry::RunJournal,
        Entry::RecordRead,
        Entry::RecordWrite,
        Entry::Rehearse,
        Entry::SheetJudge,
        Entry::SheetReport,
        Entry::SheetParts,
        Entry::SheetWrite,
    ];

    /// The refusals that it has; for a text 0, where the room is too small.
    pub fn refusals(self) -> &'static [usize] {
        match self {
            Entry::SiteStep => &[1, 2, 5, 6, 13, 14, 15],
            Entry::RunFresh => &[1, 15],
            Entry::RunEvent => &[1, 2, 3, 4, 5, 6, 13, 14, 15],
            Entry::RunJournal => &[1, 2, 3, 4, 5, 6, 10, 11, 12, 13, 14, 15],
            Entry::RecordRead => &[10, 11, 12, 13, 14, 15],
            Entry::RecordWrite => &[13, 14, 15],
            Entry::SheetJudge => &[15, 20, 21, 22, 23, 24, 25, 26, 27, 28, 29, 30, 31],
            Entry::SheetParts => &[15, 21, 22, 23, 24, 25, 26, 27, 28, 29],
            Entry::SheetWrite => &[23, 24, 25, 26, 27, 28, 29, 32],
            Entry::Rehearse | Entry::SheetReport => &[0],
        }
    }
}

impl Call {
    /// Makes the call with its memory lent in one of the ways.
    pub fn made(&self, way: Way) -> After {
        let (mut given, mut room) = (Lent::new(&self.given, way), Lent::new(&self.room, way));
        let mut journal = Lent::new(&self.journal, way);
        let mut words = Lent::new(&self.words, way);
        let (j, j_len) = (journal.address(), journal.length());
        let (a, a_len) = (given.address(), given.length());
        let (b, b_len) = (room.address(), room.length());
        let (w, w_len) = (words.address(), words.length());
        let [k, s, o, m, v, x] = self.fields;
        // SAFETY: the lent memory is live, initialised, aligned, distinct, and as long as said.
        let returned = unsafe {
            match self.entry {
                Entry::SiteStep => c::fj_site_step(a, a_len, k, o, m, v, b, b_len).into(),
                Entry::RunFresh => c::fj_run_fresh(k, b, b_len).into(),
                Entry::RunEvent => c::fj_run_event(a, a_len, k, s, o, m, v, x, b, b_len).into(),
                Entry::RunJournal => c::fj_run_journal(a, a_len, j, j_len, b, b_len).into(),
                Entry::RecordRead => c::fj_record_read(a, a_len, self.at, b, b_len).into(),
                Entry::RecordWrite => {
                    c::fj_record_write(k, s, o, m, v, x, b, b_len, self.at).into()
                }
                Entry::Rehearse => c::fj_rehearse(a, a_len, b, b_len),
                Entry::SheetJudge => c::fj_sheet_judge(a, a_len, w, w_len, b, b_len).into(),
                Entry::SheetReport => c::fj_sheet_report(a, a_len, w, w_len, b, b_len),
                Entry::SheetParts => c::fj_sheet_parts(a, a_len, b, b_len).into(),
                Entry::SheetWrite => c::fj_sheet_write(a, a_len, b, b_len).into(),
            }
        };
        After {
            returned,
            given: given.left(),
            journal: journal.left(),
            room: room.left(),
            words: words.left(),
        }
    }

    /// What the call may leave, if it returned what it did: all as before, but for the bytes that
    /// it is said to write. Of these, what an accepted call wrote is taken as it is.
    pub fn allowed(&self, after: &After) -> After {
        let (mut given, mut room) = (self.given.clone(), self.room.clone());
        let mut words = self.words.clone();
        let returned = after.returned;
        match (self.entry, returned) {
            (Entry::SheetReport, 1..) => {
                let verdict = vec![0; 206];
                words = Call { entry: Entry::SheetJudge, room: verdict, ..self.clone() }
                    .made(Way::Between)
                    .words;
                room[..returned].copy_from_slice(&after.room[..returned]);
            }
            (Entry::Rehearse, _) => room[..returned].copy_from_slice(&after.room[..returned]),
            (Entry::SheetReport, _) | (_, 15) => {}
            (Entry::SiteStep, 0) => {
                given.clone_from(&after.given);
                answered(&mut room[..SITE_ANSWER], &after.room);
            }
            (Entry::SiteStep, _) => room[..SITE_ANSWER].copy_from_slice(&[2, 0, 0, 0, 0, 0]),
            (Entry::RunFresh, _) => room.clone_from(&after.room),
            (Entry::RunEvent, 0) => {
                given.clone_from(&after.given);
                answered(&mut room[..RUN_ANSWER], &after.room);
            }
            (Entry::RunEvent, _) => room[..RUN_ANSWER].copy_from_slice(&[2, 0, 0, 0]),
            (Entry::RunJournal, _) => (given, room) = self.day(after),
            (Entry::RecordRead, 0) => room[..6].copy_from_slice(&after.room[..6]),
            (Entry::RecordWrite, 0) => {
                let record = self.at..self.at + 9;
                room[record.clone()].copy_from_slice(&after.room[record]);
            }
            (Entry::RecordRead | Entry::RecordWrite, _) => {}
            (Entry::SheetParts, 0) => room[..PARTS].copy_from_slice(&after.room[..PARTS]),
            (Entry::SheetWrite, 0) => {
                let record = 2 + usize::from(u16::from_be_bytes([after.room[0], after.room[1]]));
                room[..record].copy_from_slice(&after.room[..record]);
            }
            (Entry::SheetParts | Entry::SheetWrite, _) => {}
            (Entry::SheetJudge, 0) => {
                room[..206].copy_from_slice(&after.room[..206]);
                words[..4096].copy_from_slice(&after.words[..4096]);
            }
            (Entry::SheetJudge, ground) => {
                room[..206].fill(0);
                words[..if ground < 30 { 0 } else { 4096 }].fill(0);
            }
        }
        After { returned, given, journal: self.journal.clone(), room, words }
    }

    /// The run and the answer that a day's journal may leave. What it counted is taken as it is, but
    /// for what follows from the rest: where none is refused, all records are accepted, of nine
    /// bytes each; the place of a refused one is after the accepted ones; and a run that accepted
    /// nothing is as before.
    fn day(&self, after: &After) -> (Vec<u8>, Vec<u8>) {
        let (mut given, mut room) = (self.given.clone(), self.room.clone());
        let answer = &mut room[..DAY_ANSWER];
        if !is_run(&given) {
            answer.fill(0);
            return (given, room);
        }
        answered(answer, &after.room);
        let length = self.journal.len() as u64;
        let counted = u64::from_be_bytes(answer[..8].try_into().expect("eight bytes"));
        let (accepted, place) = match after.returned {
            0 => (length / 9, length),
            _ => (counted, counted.wrapping_mul(9)),
        };
        answer[..8].copy_from_slice(&accepted.to_be_bytes());
        answer[16..24].copy_from_slice(&place.to_be_bytes());
        if accepted > 0 {
            given.clone_from(&after.given);
        }
        (given, room)
    }
}

/// An answer that was told, as far as it may be so. Its last two bytes are how many sites are awaited
/// and the lowest of them: 0 for none, else one from which on there are as many up to site 8.
fn answered(answer: &mut [u8], told: &[u8]) {
    answer.copy_from_slice(&told[..answer.len()]);
    let [.., awaited, lowest] = answer else { unreachable!("an answer ends with these") };
    *lowest = match *awaited {
        0 => 0,
        awaited => (*lowest).clamp(1, 9u8.saturating_sub(awaited).max(1)),
    };
}

/// Whether these bytes are a run: 138, with a state at each of its eight places.
fn is_run(bytes: &[u8]) -> bool {
    bytes.len() == 138 && bytes[2..66].chunks(8).all(|record| record[2] <= 4)
}
