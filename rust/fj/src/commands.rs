//! The commands over a journal: what each prints, and why its exit status is 1.

use crate::arguments::Arguments;
use crate::beside::Rehearsal;
use crate::day::HandedOver;
use crate::input::LIMIT;
use crate::journal::Journal;
use crate::notation::{no_number_of_sites, show, FULL};
use crate::{bad_input, bad_usage, chart, next, written};

/// The commands, and the options that each has.
const COMMANDS: [(&str, &[&str]); 6] = [
    ("rehearse", &["--bytes", "--plain", "--strict"]),
    ("day", &["--bytes", "--plain"]),
    ("next", &["--bytes"]),
    ("chart", &["--bytes"]),
    ("assemble", &["--bytes"]),
    ("show", &["--bytes"]),
];

/// Runs a command over a journal, if it is one; the exit status.
pub fn run(command: &str, arguments: &Arguments) -> Option<u8> {
    let (_, options) = COMMANDS.iter().find(|(known, _)| *known == command)?;
    if let Some(option) = arguments.other_than(options) {
        return Some(bad_usage(&format!("{command} has no option {option}"), "fj --help"));
    }
    let Some(file) = arguments.file(1) else {
        return Some(bad_usage(&format!("{command} takes one file"), "fj --help"));
    };
    let done = Journal::read(file, arguments.has("--bytes"))
        .and_then(|journal| answer(command, arguments, &journal));
    Some(match done {
        Ok((output, trouble)) => {
            let status = written(&output);
            trouble.map_or(status, |why| bad_input(&why))
        }
        Err(why) => bad_input(&why),
    })
}

/// What a command prints, and the reason for an exit status of 1.
type Answer = (Vec<u8>, Option<String>);

fn answer(command: &str, arguments: &Arguments, journal: &Journal) -> Result<Answer, String> {
    if let Some(day) = (command == "day").then(|| HandedOver::new(journal)).flatten() {
        let output = if arguments.has("--plain") { day.numbers() } else { day.text() };
        return Ok((output.into_bytes(), day.trouble()));
    }
    let rehearsal = Rehearsal::new(&journal.bytes, journal.is_longer)?;
    let mut undrawn = None;
    let output = match (command, &rehearsal.run) {
        ("assemble", _) => journal.bytes.clone(),
        ("show", _) => show(&journal.bytes, journal.is_longer).into_bytes(),
        ("rehearse", _) if arguments.has("--plain") => rehearsal.transcript.clone().into_bytes(),
        ("rehearse", _) => rehearsal.text().into_bytes(),
        // Without a run there is nothing to draw or to hand over to, and nothing can happen next.
        (_, None) => Vec::new(),
        ("next", Some(run)) => next::list(run).into_bytes(),
        _ => match chart::chart(&journal.bytes, journal.title()) {
            Ok(svg) => svg.into_bytes(),
            Err(why) => {
                undrawn = Some(journal.of_all(&why));
                Vec::new()
            }
        },
    };
    let strict = || arguments.has("--strict").then(|| refused(journal, &rehearsal)).flatten();
    let trouble = match command {
        // A text is assembled whatever a rehearsal says of its bytes.
        "assemble" if journal.is_text() => full(journal),
        _ => unread(journal, &rehearsal).or_else(strict),
    };
    let troubles: Vec<String> = undrawn.into_iter().chain(trouble).collect();
    Ok((output, (!troubles.is_empty()).then(|| troubles.join("\n"))))
}

/// Says that a journal has more than is read of it, where it has.
fn full(journal: &Journal) -> Option<String> {
    journal.is_longer.then(|| journal.of_byte(LIMIT, FULL))
}

/// Why a journal could not be read to its end.
fn unread(journal: &Journal, rehearsal: &Rehearsal) -> Option<String> {
    if rehearsal.run.is_none() {
        let n = journal.bytes.first().map(|n| no_number_of_sites(&n.to_string()));
        let reason = n.unwrap_or("the number of sites is missing".to_string());
        return Some(journal.of_start(&format!("refused 1: {reason}")));
    }
    let (place, ground, why) = rehearsal.bad()?;
    Some(journal.of_record(place, &format!("bad {ground}: {why}")))
}

/// The first event that was refused.
fn refused(journal: &Journal, rehearsal: &Rehearsal) -> Option<String> {
    let (place, ground, why) = rehearsal.refused().next()?;
    let more = match rehearsal.refused().count() {
        1 => String::new(),
        count => format!(" (the first of {count} refused events)"),
    };
    Some(journal.of_record(place, &format!("refused {ground}: {why}{more}")))
}
