//! Lists of events in the notation of journals that the command `fj` reads.

use crate::rehearsal::letters;
use crate::run::{Happening, Rule, Run};
use crate::site::{Sites, Step};

/// An event: its acting site, and what happens there.
pub type Event = (u8, Happening);

/// The messages by their kinds, from 1.
const MESSAGES: [&str; 8] = ["start", "yes", "no", "move-p", "move-w", "ack", "commit", "abort"];

/// A journal of these events from fresh. What comes of each by a rule stands beside it as a
/// comment; events in a row that are alike, with the same outcome, stand there once.
pub fn journal(n: u8, rule: Rule, events: &[Event]) -> String {
    let mut run = Run::fresh(n).expect("n is 2 to 8");
    let line = |(site, happening): &Event| {
        (words(*site, happening), happen(&mut run, rule, *site, happening))
    };
    let lines: Vec<(String, String)> = events.iter().map(line).collect();
    let alike = lines.chunk_by(|one, other| one == other).map(|alike| match alike {
        [(event, outcome)] => format!("{event:<48}  # {outcome}\n"),
        _ => {
            format!("{:<48}  # {}\n", format!("repeat {} {}", alike.len(), alike[0].0), alike[0].1)
        }
    });
    format!("sites {n}\n") + &alike.collect::<String>()
}

/// Takes an event, and tells its outcome as a rehearsal does.
fn happen(run: &mut Run, rule: Rule, site: u8, happening: &Happening) -> String {
    let outcome = match rule(run, site, happening) {
        Ok(next) => {
            *run = next.run;
            if next.passed { "passed" } else { "taken" }.to_string()
        }
        Err(ground) => format!("refused {ground}"),
    };
    format!("{outcome} {}", letters(run))
}

/// An event in words.
fn words(site: u8, happening: &Happening) -> String {
    match happening {
        Happening::Stop => format!("stop {site}"),
        Happening::Step(step) => {
            let (verb, rest) = step_words(step);
            format!("{verb} {site}{rest}")
        }
        Happening::StopDuring(step, leaving) => {
            let (verb, rest) = step_words(step);
            format!("stop {site} during {verb}{rest} leaving{}", sites(leaving))
        }
    }
}

/// A step's verb, and what follows the place where the site stands.
fn step_words(step: &Step) -> (&'static str, String) {
    let said = |yes| if yes { "yes" } else { "no" };
    match *step {
        Step::Begin(vote) => ("begin", format!(" {}", said(vote))),
        Step::Deliver { kind, from, vote } => {
            let message = MESSAGES[kind as usize - 1];
            let vote = vote.map(|yes| format!(" {}", said(yes))).unwrap_or_default();
            ("deliver", format!(" {message} from {from}{vote}"))
        }
        Step::Notice(stopped) => ("notice", format!(" of {stopped}")),
        Step::TakeOver => ("take over", String::new()),
        Step::Conclude => ("conclude", String::new()),
    }
}

/// The sites whose messages leave.
fn sites(leaving: &Sites) -> String {
    if leaving.is_empty() {
        return " none".to_string();
    }
    leaving.iter().map(|site| format!(" {site}")).collect()
}

#[cfg(test)]
mod tests;
