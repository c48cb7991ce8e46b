//! `fj judge` and `fj sheet`: protocol sheets in a readable notation, their reports with names, and
//! drawings of them. The proved library decides; this module reads, writes and draws.

#[cfg(test)]
mod bridge_tests;
mod draw;
mod explain;
#[cfg(test)]
mod explain_tests;
mod faulty;
#[cfg(test)]
mod gallery_tests;
mod judge;
mod library;
mod model;
mod notation;
mod refusal;
mod search;
mod show;
#[cfg(test)]
mod tests;
mod warnings;

use crate::arguments::Arguments;
use crate::input::{self, Content};
use crate::place::Error;
use crate::taken::Taken;
use model::Sheet;
use std::ffi::OsStr;

pub const USAGE: &str = "usage: fj judge FILE                     the report, with names
       fj judge --plain FILE             the report as the sheet program prints it
       fj judge --strict FILE            the report; exit status 1 where it says blocking
       fj sheet assemble FILE > SHEET    the bytes of a notation
       fj sheet show FILE                the notation of a sheet
       fj sheet draw FILE > SHEET.svg    each site's state diagram
  FILE holds a sheet in the notation or in bytes; - is standard input, and -- ends the options.
  Of bytes the first 65,536 count, as for the sheet program; a text may have 1,048,576.
  Exit status: 0 done; 1 where the sheet is refused or cannot be read, and with --strict where
  it is blocking; 2 bad usage.
";

/// A sheet as it was given: its file's name, its record (of a notation the library's, or the ground
/// on which it writes none), and the sheet with names where the record has the form of one.
struct Input {
    file: String,
    record: Result<Vec<u8>, u8>,
    sheet: Option<Sheet>,
}

/// What is printed, and the reason for an exit status of 1.
struct Answer {
    output: Vec<u8>,
    trouble: Option<String>,
}

/// What a command does with a sheet.
type Job = fn(&Input) -> Answer;

/// Runs `judge` or `sheet`; the exit status.
pub fn command(command: &str, arguments: &Arguments) -> u8 {
    match asked(command, arguments) {
        Ok((job, file)) => done(job, file, arguments.has("--strict")),
        Err(why) => crate::bad_usage(&why, "fj sheet --help"),
    }
}

/// The job and the file that a command line asks for, or why it asks for none.
fn asked<'a>(command: &str, arguments: &'a Arguments) -> Result<(Job, &'a OsStr), String> {
    let second = arguments.word(1).unwrap_or_default();
    let (name, job, options, after): (_, Job, &[&str], _) = match (command, &*second) {
        ("judge", _) if arguments.has("--plain") => ("judge", plain, &["--plain", "--strict"], 1),
        ("judge", _) => ("judge", judged, &["--strict"], 1),
        (_, "assemble") => ("sheet assemble", assembled, &[], 2),
        (_, "show") => ("sheet show", shown, &[], 2),
        (_, "draw") => ("sheet draw", drawn, &[], 2),
        (_, "") => return Err("sheet takes a command: assemble, show or draw".to_string()),
        (_, other) => return Err(format!("sheet has no command {other}: assemble, show or draw")),
    };
    if let Some(option) = arguments.other_than(options) {
        return Err(format!("{name} has no option {option}"));
    }
    let file = arguments.file(after).ok_or(format!("{name} takes one file"))?;
    Ok((job, file))
}

/// Does a job with the sheet in a file; the exit status.
fn done(job: Job, file: &OsStr, is_strict: bool) -> u8 {
    let answer = match input(file) {
        Ok(input) if is_strict => job(&input).strictly(&input),
        Ok(input) => job(&input),
        Err(why) => Answer::trouble(why),
    };
    let status = crate::written(&answer.output);
    answer.trouble.map_or(status, |trouble| crate::bad_input(&trouble))
}

/// Reads a file.
fn input(file: &OsStr) -> Result<Input, String> {
    let read = input::read(file, false)?;
    taken(read.name, read.content)
}

/// Takes a text as the notation, and anything else as bytes. An empty file is a record without its
/// length.
fn taken(file: String, content: Content) -> Result<Input, String> {
    let text = match content {
        Content::Text(text) if !text.is_empty() => text,
        Content::Text(_) => return Ok(Input { file, record: Ok(Vec::new()), sheet: None }),
        Content::Bytes(bytes, _) => {
            return Ok(Input { file, sheet: Sheet::from_record(&bytes), record: Ok(bytes) })
        }
    };
    match notation::read(&text) {
        Ok(sheet) => Ok(Input { file, record: sheet.record(), sheet: Some(sheet) }),
        Err(Error { line, reason }) => {
            Err(Error { line, reason: Taken::Sheet.in_notation(&text, &reason) }.within(&file))
        }
    }
}

/// Whether bytes have the form of a sheet's record.
pub fn is_record(bytes: &[u8]) -> bool {
    Sheet::from_record(bytes).is_some()
}

impl Answer {
    fn output(output: impl Into<Vec<u8>>) -> Answer {
        Answer { output: output.into(), trouble: None }
    }

    fn trouble(trouble: String) -> Answer {
        Answer { output: Vec::new(), trouble: Some(trouble) }
    }

    /// The same answer, with a blocking verdict as trouble.
    fn strictly(self, input: &Input) -> Answer {
        let witness = input.judged().ok().and_then(|judgement| judgement.witness);
        let blocking = witness.map(|(site, state, condition)| {
            format!("{}: blocking at {site}.{state} condition {condition}", input.file)
        });
        Answer { trouble: self.trouble.or(blocking), ..self }
    }
}

impl Input {
    /// The judgement of the record, or the ground on which it is refused or not written.
    fn judged(&self) -> Result<library::Judgement, u8> {
        self.record.as_ref().map_err(|ground| *ground).and_then(|record| library::judge(record))
    }

    /// The sheet, where it has the form that grounds 21 to 29 ask for; else the refusal in words.
    fn formed(&self) -> Result<(&Sheet, Result<library::Judgement, u8>), Answer> {
        match (&self.sheet, self.judged()) {
            (Some(sheet), Ok(judgement)) => Ok((sheet, Ok(judgement))),
            (Some(sheet), Err(ground @ 30..=31)) => Ok((sheet, Err(ground))),
            (_, judged) => {
                let ground = judged.err().unwrap_or_default();
                Err(Answer::trouble(self.refused(ground)))
            }
        }
    }

    /// What is said of a refusal.
    fn refused(&self, ground: u8) -> String {
        if let Some(sheet) = &self.sheet {
            return refusal::told(ground, sheet, &self.file);
        }
        let bytes = self.record.as_deref().unwrap_or_default();
        Taken::Sheet.in_bytes(bytes, &refusal::text(ground, None)).within(&self.file)
    }
}

fn judged(input: &Input) -> Answer {
    match input.formed() {
        Ok((sheet, Ok(judgement))) => Answer::output(judge::text(sheet, &judgement)),
        Ok((_, Err(ground))) => Answer::trouble(input.refused(ground)),
        Err(refused) => refused,
    }
}

fn plain(input: &Input) -> Answer {
    let refused = input.judged().err();
    let output = match &input.record {
        Ok(record) => library::report(record),
        Err(ground) => format!("refused {ground}\n").into_bytes(),
    };
    Answer { output, trouble: refused.map(|ground| input.refused(ground)) }
}

fn assembled(input: &Input) -> Answer {
    let written = |(sheet, _): (&Sheet, _)| match sheet.record() {
        Ok(record) => Answer::output(record),
        Err(ground) => Answer::trouble(input.refused(ground)),
    };
    input.formed().map_or_else(|refused| refused, written)
}

fn shown(input: &Input) -> Answer {
    let text = |(sheet, _): (&Sheet, _)| Answer::output(show::notation(sheet));
    input.formed().map_or_else(|refused| refused, text)
}

fn drawn(input: &Input) -> Answer {
    let svg = |(sheet, judged): (&Sheet, Result<_, u8>)| Answer::output(draw::svg(sheet, &judged));
    input.formed().map_or_else(|refused| refused, svg)
}
