//! `fj next`: the events that the library would accept now, in notation.

use crate::standing::letters;
use crate::words::words;
use fjadrimor::{Event, Kind, Outcome, Run, Step, Vote};

/// A line for each event that would be accepted, with what would become of it as a comment. A stop
/// inside a step stands there once, with all the messages of that step leaving.
pub fn list(run: &Run) -> String {
    let accepted: Vec<(String, String)> = events(run)
        .into_iter()
        .filter_map(|event| Some((words(event.fields()), outcome(run, event)?)))
        .collect();
    let width = accepted.iter().map(|(event, _)| event.len()).max().unwrap_or_default();
    let line = |(event, outcome): &(String, String)| format!("{event:width$}  # {outcome}\n");
    match accepted.is_empty() {
        true => "# nothing: every site has stopped\n".to_string(),
        false => accepted.iter().map(line).collect(),
    }
}

/// What would become of an event, as the transcript would have it, if it is accepted.
fn outcome(run: &Run, event: Event) -> Option<String> {
    let mut run = *run;
    let ran = run.happens(event).ok()?;
    let word = match ran.outcome {
        Outcome::Taken => "taken",
        Outcome::Passed => "passed",
    };
    let lowest = ran.lowest.map_or("-".to_string(), |site| site.to_string());
    Some(format!("{word} {} {lowest}", letters(&run)))
}

/// Every event that is worth asking about: the steps of all sites, their stops, and a stop inside
/// each step.
fn events(run: &Run) -> Vec<Event> {
    let sites = 1..=run.n();
    let acts = sites.clone().flat_map(|site| steps(run.n()).map(move |step| (site, step)));
    let acts: Vec<(u8, Step)> = acts.collect();
    let taken = acts.iter().map(|&(site, step)| Event::Act { site, step });
    let stops = sites.map(|site| Event::Stop { site });
    let inside = acts.iter().filter_map(|&(site, step)| {
        let leaving = run.site(site)?.step(step).ok()?.receivers;
        Some(Event::StopDuring { site, step, leaving })
    });
    taken.chain(stops).chain(inside).collect()
}

/// Every step in a run of n sites.
fn steps(n: u8) -> impl Iterator<Item = Step> {
    let votes = [Vote::Yes, Vote::No];
    let begins = votes.into_iter().map(Step::Begin);
    let starts = (1..=n).flat_map(move |from| votes.map(|vote| Step::Start { from, vote }));
    let kinds = Kind::ALL.into_iter().filter(|kind| *kind != Kind::Start);
    let others = kinds.flat_map(move |kind| (1..=n).map(move |from| Step::Deliver { kind, from }));
    let notices = (1..=n).map(Step::Notice);
    let own = [Step::TakeOver, Step::Conclude];
    begins.chain(starts).chain(others).chain(notices).chain(own)
}
