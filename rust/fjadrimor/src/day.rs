//! What became of a day's journal.

use crate::calls::DAY_ANSWER;
use crate::sites::named;
use crate::Refusal;

/// The bytes of each of the first three numbers: accepted, written, place.
const NUMBER: usize = 8;

/// The answer to a day's journal, which [`Run::journal`](crate::Run::journal) takes.
#[derive(Clone, Copy, Debug, PartialEq, Eq, Hash)]
#[must_use = "a record may have been refused"]
pub struct Day {
    /// The number of events accepted, taken or passed over. The run is as after these.
    pub accepted: usize,
    /// The number of messages that they wrote.
    pub written: usize,
    /// The byte at which the refused record starts; the journal's length where none is refused. It
    /// counts from the records that were handed over, nine bytes for each.
    pub place: usize,
    /// How many sites the acting site of the last accepted event still awaits; 0 after a stop, and
    /// where none was accepted. Whether the close is over is read from the states.
    pub awaited: u8,
    /// The lowest of these, the one to ring; none where it awaits nobody.
    pub lowest: Option<u8>,
    /// Why the record at `place` was refused, if one was: by the reader, or by the run.
    pub refusal: Option<Refusal>,
}

impl Day {
    /// The library's answer, with what it returned.
    pub(crate) fn of_answer(answer: &[u8; DAY_ANSWER], refusal: Option<Refusal>) -> Day {
        let number = |place: usize| {
            let bytes = &answer[NUMBER * place..NUMBER * (place + 1)];
            usize::from_be_bytes(bytes.try_into().expect("eight bytes of a 64-bit number"))
        };
        let [accepted, written, place] = [0, 1, 2].map(number);
        let [.., awaited, lowest] = *answer;
        Day { accepted, written, place, awaited, lowest: named(lowest), refusal }
    }
}
