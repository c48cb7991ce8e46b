//! Why an event was refused, in the words of what was asked. The library has refused it; the words
//! come from the run, which a refused event leaves as it was.

use crate::grounds::sentence;
use crate::waits::{awaited, no_notice, unnoticed};
use fjadrimor::{Event, Kind, Refusal, Run, Site, State, Step};

/// Why the library refused an event of a run on this ground.
pub fn reason(run: &Run, event: Event, ground: u8) -> String {
    let (site, step) = match event {
        Event::Act { site, step } | Event::StopDuring { site, step, .. } => (site, Some(step)),
        Event::Stop { site } => (site, None),
    };
    let found = match Refusal::numbered(ground) {
        Some(Refusal::WrongNames) => wrong_names(run, site, step),
        Some(Refusal::ActorStopped) => Some(format!("site {site} has stopped")),
        Some(Refusal::NotThere) => step.and_then(|step| not_there(run, site, step)),
        Some(Refusal::NotAllowed) => {
            run.site(site).zip(step).and_then(|(site, step)| not_allowed(site, step))
        }
        _ => None,
    };
    found.unwrap_or_else(|| sentence(ground).to_string())
}

/// The message that a step delivers, and its sender.
fn delivered(step: Step) -> Option<(Kind, u8)> {
    match step {
        Step::Start { from, .. } => Some((Kind::Start, from)),
        Step::Deliver { kind, from } => Some((kind, from)),
        Step::Begin(_) | Step::Notice(_) | Step::TakeOver | Step::Conclude => None,
    }
}

/// Ground 2: a site that the run does not have, a site's own stop, or a message's wrong ends.
fn wrong_names(run: &Run, site: u8, step: Option<Step>) -> Option<String> {
    let noticed = match step {
        Some(Step::Notice(other)) => Some(other),
        _ => None,
    };
    let message = step.and_then(delivered);
    let named = [Some(site), noticed, message.map(|(_, from)| from)];
    if let Some(missing) = named.into_iter().flatten().find(|site| !(1..=run.n()).contains(site)) {
        return Some(format!("there is no site {missing}: the run has {} sites", run.n()));
    }
    if noticed == Some(site) {
        return Some("a site does not notice its own stop".to_string());
    }
    let (kind, _) = message?;
    Some(format!("{} goes {}", kind.name(), way(kind)))
}

/// From whom to whom a kind of message goes.
fn way(kind: Kind) -> &'static str {
    match kind {
        Kind::Start => "from site 1 to a higher one",
        Kind::Yes | Kind::No => "from a higher site to site 1",
        Kind::Ack => "from a higher site to a lower one",
        Kind::MoveP | Kind::MoveW | Kind::Commit | Kind::Abort => {
            "from a lower site to a higher one"
        }
    }
}

/// Ground 4: no such message, or nothing to notice.
fn not_there(run: &Run, site: u8, step: Step) -> Option<String> {
    if let Step::Notice(other) = step {
        return Some(match run.stopped().contains(other) {
            true => format!("site {site} knows already that site {other} has stopped"),
            false => format!("site {other} has not stopped"),
        });
    }
    let (kind, from) = delivered(step)?;
    Some(format!("no {} from {from} to {site} is outstanding", kind.name()))
}

/// Ground 5: what a begin, take over or conclude wants that is not so.
fn not_allowed(site: Site, step: Step) -> Option<String> {
    let (number, leader) = (site.number(), site.leader());
    match step {
        Step::Begin(_) if number != 1 => Some("only site 1 begins".to_string()),
        Step::Begin(_) => Some("site 1 has begun already".to_string()),
        Step::TakeOver if leader == number => Some(format!("site {number} leads already")),
        Step::TakeOver => Some(format!("site {number} {}", no_notice(unnoticed(site)))),
        Step::Conclude if leader != number => {
            Some(format!("site {number} does not lead: it follows site {leader}"))
        }
        Step::Conclude if site.state() == State::First => {
            Some(format!("site {number} has not begun"))
        }
        Step::Conclude if site.state().is_decided() => {
            Some(format!("site {number} has decided already"))
        }
        Step::Conclude => {
            awaited(site).map(|awaited| format!("site {number} awaits {}", awaited.words()))
        }
        Step::Start { .. } | Step::Deliver { .. } | Step::Notice(_) => None,
    }
}
