//! The rehearsal's transcript, and the records that its lines tell of.

use crate::notation::record_at;
use crate::words::Fields;

/// Room for the longest transcript.
const ROOM: usize = 1 << 20;

/// What became of a record.
#[derive(Clone, Copy, PartialEq)]
pub enum Verdict {
    Taken,
    Passed,
    Refused(u8),
    Bad(u8),
}

/// A line of the transcript that tells of a record; a bad one has no fields.
pub struct Line {
    pub fields: Option<Fields>,
    pub verdict: Verdict,
}

/// The transcript, as the library writes it.
pub fn transcript(journal: &[u8]) -> Result<String, String> {
    let mut room = vec![0; ROOM];
    let length = fjadrimor::calls::rehearse(journal, &mut room);
    room.truncate(length);
    let text = String::from_utf8(room).ok().filter(|text| !text.is_empty());
    text.ok_or_else(|| "the library wrote no transcript".to_string())
}

/// The record that a line of the transcript tells of, if it does.
fn told(line: &str, journal: &[u8]) -> Option<Line> {
    let mut parts = line.split_whitespace();
    let place = parts.next()?.parse().ok()?;
    let fields = record_at(journal, place).ok();
    let verdict = match (parts.next()?, parts.next().and_then(|ground| ground.parse().ok())) {
        ("taken", _) => Verdict::Taken,
        ("passed", _) => Verdict::Passed,
        ("refused", Some(ground)) => Verdict::Refused(ground),
        ("bad", Some(ground)) => return Some(Line { fields: None, verdict: Verdict::Bad(ground) }),
        _ => return None,
    };
    Some(Line { fields, verdict })
}

/// The records that a transcript tells of.
pub fn records(transcript: &str, journal: &[u8]) -> Vec<Line> {
    transcript.lines().filter_map(|line| told(line, journal)).collect()
}
