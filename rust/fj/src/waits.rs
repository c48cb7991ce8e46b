//! For whom a site waits, as its record has it.

use fjadrimor::{Site, Sites, State};

/// What a leader gathers, and the sites from which it has not come.
pub struct Awaited {
    answer: &'static str,
    pub from: Sites,
}

/// What a leader has not heard yet, if anything: one that cannot conclude waits for all of it. The
/// library tells the number of these sites, and the lowest.
pub fn awaited(site: Site) -> Option<Awaited> {
    let (answer, heard) = match (site.state(), site.number()) {
        _ if site.leader() != site.number() => return None,
        (State::Wait, 1) => ("vote", site.yes_heard().mask() | site.no_heard().mask()),
        (State::Wait | State::Prepared, _) => ("ack", site.acknowledged().mask()),
        _ => return None,
    };
    let done = Sites::from_mask(heard | site.known_stopped().mask());
    let is_open = |other: &u8| *other != site.number() && !done.contains(*other);
    let from: Sites = (1..=site.n()).filter(is_open).collect();
    (!from.is_empty()).then_some(Awaited { answer, from })
}

impl Awaited {
    /// `the votes of sites 2 and 3`
    pub fn words(&self) -> String {
        format!("the {}{} of {}", self.answer, plural(self.from), listed(self.from))
    }
}

/// The sites below one that it does not know to have stopped.
pub fn unnoticed(site: Site) -> Sites {
    (1..site.number()).filter(|lower| !site.known_stopped().contains(*lower)).collect()
}

/// `has no notice that sites 1 and 2 have stopped`
pub fn no_notice(of: Sites) -> String {
    let have = if of.len() == 1 { "has" } else { "have" };
    format!("has no notice that {} {have} stopped", listed(of))
}

/// `site 2`, `sites 2 and 3`, `sites 2, 3 and 5`
fn listed(sites: Sites) -> String {
    format!("site{} {}", plural(sites), numbers(sites))
}

/// `2`, `2 and 3`, `2, 3 and 5`
pub fn numbers(sites: Sites) -> String {
    let all: Vec<String> = sites.iter().map(|site| site.to_string()).collect();
    match all.split_last() {
        Some((last, rest)) if !rest.is_empty() => format!("{} and {last}", rest.join(", ")),
        _ => all.concat(),
    }
}

fn plural(sites: Sites) -> &'static str {
    match sites.len() {
        1 => "",
        _ => "s",
    }
}
