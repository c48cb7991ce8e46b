//! How a run stands: its sites' letters, what is outstanding, and whom each running site waits for
//! that has not decided.

use crate::waits::{awaited, no_notice, numbers, unnoticed};
use fjadrimor::{Event, Kind, Run, Site, Sites, Step};
use std::collections::BTreeMap;

/// A line for what is outstanding and one for each running site that has not decided. Where there is
/// neither, one line says so.
pub fn lines(run: &Run) -> Vec<String> {
    let sites = (1..=run.n()).filter_map(|number| run.site(number));
    let running: Vec<Site> = sites.filter(|site| !is_stopped(run, site.number())).collect();
    let open = running.iter().filter(|site| !site.state().is_decided());
    let open: Vec<String> = open.map(|site| told(run, *site)).collect();
    let outstanding = format!("outstanding: {}", outstanding(run));
    if !open.is_empty() {
        return [vec![outstanding], open].concat();
    }
    let end = match running.is_empty() {
        true => "every site has stopped",
        false => "every running site has decided",
    };
    match run.outstanding().next() {
        None => vec![format!("{outstanding}; {end}")],
        Some(_) => vec![outstanding, end.to_string()],
    }
}

/// The letter of each site's state, in upper case once it has stopped.
pub fn letters(run: &Run) -> String {
    let sites = (1..=run.n()).filter_map(|number| run.site(number));
    let letter = |site: Site| match is_stopped(run, site.number()) {
        true => site.state().letter().to_ascii_uppercase(),
        false => site.state().letter(),
    };
    sites.map(letter).collect()
}

fn is_stopped(run: &Run, site: u8) -> bool {
    run.stopped().contains(site)
}

/// The outstanding messages, those of one kind to the same receivers together:
/// `start from 1 to 2 and 3; yes from 4 and 5 to 1`.
fn outstanding(run: &Run) -> String {
    let mut receivers: BTreeMap<(Kind, u8), u8> = BTreeMap::new();
    for message in run.outstanding() {
        *receivers.entry((message.kind, message.from)).or_default() |= mask(message.to);
    }
    let mut senders: BTreeMap<(Kind, u8), u8> = BTreeMap::new();
    for ((kind, from), to) in receivers {
        *senders.entry((kind, to)).or_default() |= mask(from);
    }
    let set = |mask| numbers(Sites::from_mask(mask));
    let groups = senders.into_iter();
    let groups: Vec<String> = groups
        .map(|((kind, to), from)| format!("{} from {} to {}", kind.name(), set(from), set(to)))
        .collect();
    match groups.is_empty() {
        true => "nothing".to_string(),
        false => groups.join("; "),
    }
}

fn mask(site: u8) -> u8 {
    Sites::from_iter([site]).mask()
}

/// `undecided: site 1 in w waits for the votes of sites 2 and 3`
fn told(run: &Run, site: Site) -> String {
    let (number, letter) = (site.number(), site.state().letter());
    format!("undecided: site {number} in {letter} {}", waits(run, site))
}

/// Whom a running site waits for that has not decided. What it can do, the library says.
fn waits(run: &Run, site: Site) -> String {
    let (number, leader) = (site.number(), site.leader());
    let can = |step| Run::clone(run).happens(Event::Act { site: number, step }).is_ok();
    if can(Step::Conclude) {
        return "can conclude".to_string();
    }
    if can(Step::TakeOver) {
        return "can take over".to_string();
    }
    if let Some(awaited) = awaited(site) {
        let gone: Sites = awaited.from.iter().filter(|other| is_stopped(run, *other)).collect();
        let note = match gone.is_empty() {
            true => String::new(),
            false => format!(", and {}", no_notice(gone)),
        };
        return format!("waits for {}{note}", awaited.words());
    }
    if leader == number {
        return "has not begun".to_string();
    }
    if !is_stopped(run, leader) {
        return format!("waits for site {leader}");
    }
    orphaned(run, site)
}

/// Whom a site waits for whose leader has stopped: the lowest running site is the next to lead.
fn orphaned(run: &Run, site: Site) -> String {
    let next = (1..site.number()).find(|lower| !is_stopped(run, *lower));
    match next.and_then(|next| run.site(next)) {
        Some(next) if next.leader() == next.number() => format!("waits for site {}", next.number()),
        Some(next) => format!("waits for site {} to take over", next.number()),
        None => no_notice(unnoticed(site)),
    }
}
