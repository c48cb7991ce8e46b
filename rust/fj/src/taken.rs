//! What a file was taken for, and what it looks like, for whoever has named the wrong one.

use crate::input::no_text;
use crate::notation::{record_at, statements};
use crate::place::Error;
use crate::sheet;

/// What a file was taken for, in notation or in bytes.
#[derive(Clone, Copy)]
pub enum Taken {
    Journal,
    Sheet,
}

const JOURNAL: &str = "a journal, which fj rehearse takes";
const SHEET: &str = "a protocol sheet, which fj judge takes";
const UTF_16: &str = "text in UTF-16, and fj reads UTF-8";

/// How files of other kinds begin.
const BEGINNINGS: [(&[u8], &str); 11] = [
    (b"\x7fELF", "a program"),
    (b"#!", "a script"),
    (b"\x89PNG", "a picture"),
    (b"\xff\xd8\xff", "a picture"),
    (b"GIF8", "a picture"),
    (b"<", "a picture or a page of the web"),
    (b"%PDF", "a document"),
    (b"\x1f\x8b", "a compressed file"),
    (b"PK\x03\x04", "a compressed file"),
    (b"\xff\xfe", UTF_16),
    (b"\xfe\xff", UTF_16),
];

impl Taken {
    fn words(self) -> &'static str {
        match self {
            Taken::Journal => "a journal",
            Taken::Sheet => "a sheet",
        }
    }

    /// What is wrong with bytes, with why they were taken so and what else they look like.
    pub fn in_bytes(self, bytes: &[u8], reason: &str) -> Error {
        let (line, why) = match no_text(bytes) {
            Some((line, byte)) => {
                (line, format!("{byte:02x} is a byte that no text has, so the file was "))
            }
            None if bytes.is_empty() => (0, "an empty file, ".to_string()),
            None => (0, String::new()),
        };
        let look =
            self.other(bytes).map_or(String::new(), |look| format!("; it looks like {look}"));
        let reason = format!("{why}taken as {} in bytes: {reason}{look}", self.words());
        Error { line, reason }
    }

    /// What is wrong with a text, with what else it looks like. One that says nothing was taken for
    /// something all the same.
    pub fn in_notation(self, text: &str, reason: &str) -> String {
        let taken = format!("taken as {} in notation", self.words());
        if text.is_empty() {
            return format!("an empty file, {taken}: {reason}");
        }
        if statements(text).next().is_none() {
            return format!("{taken}: {reason}");
        }
        match self.other(text.as_bytes()) {
            Some(look) => format!("{reason}; {taken}, but it looks like {look}"),
            None => reason.to_string(),
        }
    }

    /// What a file looks like, where that is something else.
    fn other(self, file: &[u8]) -> Option<&'static str> {
        let own = match self {
            Taken::Journal => JOURNAL,
            Taken::Sheet => SHEET,
        };
        looks(file).filter(|look| *look != own)
    }
}

/// What a file looks like, if that can be told.
fn looks(file: &[u8]) -> Option<&'static str> {
    let text = String::from_utf8_lossy(file);
    let first = statements(&text).next();
    match first.as_ref().and_then(|(_, said)| said.split_whitespace().next()) {
        Some("sites") => return Some(JOURNAL),
        Some("protocol" | "site" | "state" | "messages" | "first") => return Some(SHEET),
        _ => (),
    }
    if matches!(file.first(), Some(2..=8)) && record_at(file, 1).is_ok() {
        return Some(JOURNAL);
    }
    if sheet::is_record(file) {
        return Some(SHEET);
    }
    let known = BEGINNINGS.iter().find(|(beginning, _)| file.starts_with(beginning));
    known.map(|(_, look)| *look).or(is_utf_16(file).then_some(UTF_16))
}

/// Whether every second byte at the start is 0, as it is in UTF-16 for letters without accents.
fn is_utf_16(file: &[u8]) -> bool {
    let mut pairs = file.chunks_exact(2).take(32);
    file.len() > 1 && pairs.all(|pair| (pair[0] == 0) != (pair[1] == 0))
}
