//! A rehearsal with words: beside each line of the transcript its event, why it was refused or whom
//! the acting site then awaits, and below the last one how the run stands.

use crate::grounds::sentence;
use crate::notation::why_bad;
use crate::reasons::reason;
use crate::rehearsal::{records, transcript, Line, Verdict};
use crate::standing;
use crate::waits::awaited;
use crate::words::words;
use fjadrimor::{Event, Run};
use std::fmt::Display;

/// A journal's rehearsal.
pub struct Rehearsal {
    pub transcript: String,
    lines: Vec<Line>,
    /// What each line has in brackets: why its record is refused or bad, or else whom the acting site
    /// awaits.
    notes: Vec<String>,
    /// The run as it stands after the last event, where there is a run at all.
    pub run: Option<Run>,
}

impl Rehearsal {
    /// The rehearsal of a journal's bytes, of which there may be more than are read.
    pub fn new(journal: &[u8], is_longer: bool) -> Result<Rehearsal, String> {
        let transcript = transcript(journal)?;
        let lines = records(&transcript, journal);
        let mut run = journal.first().and_then(|n| Run::fresh(*n).ok());
        let notes = lines.iter().map(|line| note(run.as_mut(), line, is_longer)).collect();
        Ok(Rehearsal { transcript, lines, notes, run })
    }

    /// The transcript with words beside its lines and below them.
    pub fn text(&self) -> String {
        let width = self.transcript.lines().map(str::len).max().unwrap_or_default();
        let row = |line, words| format!("{line:width$}  {words}").trim_end().to_string() + "\n";
        let mut told = self.lines.iter().zip(&self.notes);
        let beside = self.transcript.lines().map(|line| {
            let is_record = line.starts_with(|first: char| first.is_ascii_digit());
            let record = if is_record { told.next() } else { None };
            row(line, record.map_or_else(|| around(line), |(line, note)| event(line, note)))
        });
        let standing = self.run.iter().flat_map(standing::lines).map(|words| row("", words));
        beside.collect::<String>() + &standing.collect::<String>()
    }

    /// The refused events: the place of each from 1 on, its ground, and why.
    pub fn refused(&self) -> impl Iterator<Item = (usize, u8, &str)> {
        self.grounds(|verdict| match verdict {
            Verdict::Refused(ground) => Some(ground),
            _ => None,
        })
    }

    /// The bad record, if there is one: its place from 1 on, its ground, and why.
    pub fn bad(&self) -> Option<(usize, u8, &str)> {
        let mut bad = self.grounds(|verdict| match verdict {
            Verdict::Bad(ground) => Some(ground),
            _ => None,
        });
        bad.next()
    }

    fn grounds(
        &self,
        of: impl Fn(Verdict) -> Option<u8>,
    ) -> impl Iterator<Item = (usize, u8, &str)> {
        let lines = (1..).zip(self.lines.iter().zip(&self.notes));
        lines.filter_map(move |(place, (line, note))| Some((place, of(line.verdict)?, &**note)))
    }
}

/// Why a record is refused or bad, in the run as it then stands. A good one takes its effect there,
/// and what is said is whom its site then awaits.
fn note(run: Option<&mut Run>, line: &Line, is_longer: bool) -> String {
    let happens = run.zip(line.fields.and_then(Event::of_fields));
    match (line.verdict, happens) {
        (Verdict::Refused(ground), Some((run, event))) => reason(run, event, ground),
        (Verdict::Bad(ground), _) => why_bad(ground, is_longer),
        (_, Some((run, event))) => waits_after(run, event).unwrap_or_default(),
        (_, None) => String::new(),
    }
}

/// An event happens: whom its site then awaits, where the library says that there is somebody.
fn waits_after(run: &mut Run, event: Event) -> Option<String> {
    run.happens(event).ok()?.lowest?;
    let [_, site, ..] = event.fields();
    Some(format!("awaits {}", awaited(run.site(site)?)?.words()))
}

/// What stands beside the line of a record.
fn event(line: &Line, note: &str) -> String {
    let event = line.fields.map(words).unwrap_or_default();
    match note.is_empty() {
        true => event,
        false => format!("{event} ({note})").trim_start().to_string(),
    }
}

/// What stands beside the first line and the last.
fn around(line: &str) -> String {
    match *line.split_whitespace().collect::<Vec<_>>() {
        ["end", events, messages] => counts(events, messages),
        ["refused", ground] => ground.parse().map(sentence).unwrap_or_default().to_string(),
        _ => String::new(),
    }
}

/// How many events were accepted, and how many messages they wrote.
pub fn counts(events: impl Display, messages: impl Display) -> String {
    format!("events accepted: {events}, messages written: {messages}")
}
