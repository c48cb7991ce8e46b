//! A command line, taken apart.

use std::borrow::Cow;
use std::ffi::{OsStr, OsString};

/// The options, wherever they stand, and the other words: a command and what it is about.
#[derive(Debug, Default, PartialEq)]
pub struct Arguments {
    options: Vec<String>,
    words: Vec<OsString>,
}

impl Arguments {
    /// An option begins with a dash. A dash alone is none, and `--` ends the options.
    pub fn new(mut all: impl Iterator<Item = OsString>) -> Arguments {
        let mut arguments = Arguments::default();
        while let Some(word) = all.next() {
            let text = word.to_string_lossy();
            match &*text {
                "--" => arguments.words.extend(all.by_ref()),
                text if text.starts_with('-') && text != "-" => {
                    arguments.options.push(text.to_string());
                }
                _ => arguments.words.push(word),
            }
        }
        arguments
    }

    pub fn has(&self, option: &str) -> bool {
        self.options.iter().any(|given| given == option)
    }

    /// The first option that is not among these.
    pub fn other_than(&self, known: &[&str]) -> Option<&str> {
        self.options.iter().map(String::as_str).find(|given| !known.contains(given))
    }

    /// The word at a place from 0 on, as text.
    pub fn word(&self, place: usize) -> Option<Cow<'_, str>> {
        self.words.get(place).map(|word| word.to_string_lossy())
    }

    /// The one file that is named after so many words.
    pub fn file(&self, after: usize) -> Option<&OsStr> {
        match self.words.get(after..) {
            Some([file]) => Some(file),
            _ => None,
        }
    }
}
