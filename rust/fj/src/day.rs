//! `fj day`: what the library answers to a journal that is handed over in one call, which ends at
//! the first record that is refused.

use crate::beside::counts;
use crate::journal::Journal;
use crate::notation::{record_at, why_bad};
use crate::reasons::reason;
use crate::standing::letters;
use fjadrimor::{Day, Event, Refusal, Run, Step};

/// A journal whose records were handed over to a fresh run.
pub struct HandedOver<'a> {
    journal: &'a Journal,
    /// The run as it stands after the accepted events.
    run: Run,
    day: Day,
}

impl HandedOver<'_> {
    /// Hands a journal's records over; none where no run has its number of sites.
    pub fn new(journal: &Journal) -> Option<HandedOver<'_>> {
        let (n, records) = journal.bytes.split_first()?;
        let mut run = Run::fresh(*n).ok()?;
        let day = run.journal(records);
        Some(HandedOver { journal, run, day })
    }

    /// The answer in numbers: accepted, written, place, awaited, the lowest awaited and the refusal,
    /// each of these two 0 for none.
    pub fn numbers(&self) -> String {
        let Day { accepted, written, place, awaited, lowest, refusal } = self.day;
        let (lowest, ground) = (lowest.unwrap_or(0), refusal.map_or(0, Refusal::number));
        format!("{accepted} {written} {place} {awaited} {lowest} {ground}\n")
    }

    /// The answer in words.
    pub fn text(&self) -> String {
        let counts = counts(self.day.accepted, self.day.written);
        let states = format!("states of the sites: {}", letters(&self.run));
        let lines = [Some(counts), Some(states), self.awaited(), Some(self.end())];
        lines.into_iter().flatten().map(|line| line + "\n").collect()
    }

    /// What is said of the refused record, if there is one.
    pub fn trouble(&self) -> Option<String> {
        Some(self.journal.of_record(self.next(), &self.refused()?))
    }

    /// The place from 1 on of the record after the accepted ones.
    fn next(&self) -> usize {
        self.day.accepted + 1
    }

    /// How many sites the acting site of the last accepted event awaits, where there are any, and
    /// which of them to ring, unless it can conclude without them.
    fn awaited(&self) -> Option<String> {
        let (awaited, lowest) = (self.day.awaited, self.day.lowest?);
        let [_, site, ..] = record_at(&self.journal.bytes, self.day.accepted).ok()?;
        let conclude = Event::Act { site, step: Step::Conclude };
        let advice = match Run::clone(&self.run).happens(conclude) {
            Ok(_) => "it can conclude without them".to_string(),
            Err(_) => format!("ring site {lowest}"),
        };
        Some(format!("sites that site {site} still awaits: {awaited}; {advice}"))
    }

    /// Where the call ended, and why.
    fn end(&self) -> String {
        let (place, next) = (self.day.place, self.next());
        match self.refused() {
            Some(why) => format!("ended at event {next}, byte {place} of the records: {why}"),
            None => format!("ended with no record left, at byte {place} of the records"),
        }
    }

    /// `refused 5: site 1 awaits the vote of site 3`, where a record was refused.
    fn refused(&self) -> Option<String> {
        let ground = self.day.refusal?.number();
        let event = record_at(&self.journal.bytes, self.next()).ok().and_then(Event::of_fields);
        let why = match event {
            Some(event) => reason(&self.run, event, ground),
            None => why_bad(ground, self.journal.is_longer),
        };
        Some(format!("refused {ground}: {why}"))
    }
}
