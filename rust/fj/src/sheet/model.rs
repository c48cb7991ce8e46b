//! A sheet with names. The library makes its record, and reads it from one.

use super::faulty;
pub use fjadrimor::Mark;
use fjadrimor::{Messages, Refusal, Sheet as Parts};

/// A sheet: what its bytes hold, and the names that its notation gives.
#[derive(Clone, Debug, Default)]
pub struct Sheet {
    pub title: String,
    pub sites: Vec<Site>,
    /// The messages' names; message m stands at place m.
    pub messages: Vec<String>,
    /// The messages outstanding at first.
    pub first: u32,
    pub transitions: Vec<Transition>,
}

/// A site's name may be empty; its number is its place, from 1. Sites, states and transitions have the
/// line of the notation that says them (0 where bytes do).
#[derive(Clone, Debug)]
pub struct Site {
    pub name: String,
    pub states: Vec<State>,
    pub line: usize,
}

#[derive(Clone, Debug)]
pub struct State {
    pub name: String,
    pub mark: Mark,
    pub line: usize,
}

#[derive(Clone, Copy, Debug, PartialEq, Eq)]
pub struct Transition {
    pub site: u8,
    pub from: u8,
    pub to: u8,
    pub votes: bool,
    pub reads: u32,
    pub writes: u32,
    pub line: usize,
}

/// A local state: a site from 1 and one of its states from 0.
pub type Local = (u8, u8);

impl Sheet {
    /// The sheet's record, or the ground on which the library does not write it.
    pub fn record(&self) -> Result<Vec<u8>, u8> {
        self.parts().write().map_err(Refusal::number)
    }

    /// The sheet without its names.
    fn parts(&self) -> Parts {
        let marks = |site: &Site| site.states.iter().map(|state| state.mark).collect();
        Parts {
            sites: self.sites.iter().map(marks).collect(),
            first: Messages::from_mask(self.first),
            transitions: self.transitions.iter().map(Transition::part).collect(),
        }
    }

    /// The sheet that a record holds, with generated names. None where the library refuses it with
    /// 21 to 25, so that it does not even have the form of one.
    pub fn from_record(record: &[u8]) -> Option<Sheet> {
        match Parts::read(record) {
            Ok(parts) => Some(Sheet::named(&parts)),
            Err(refusal) if refusal > Refusal::SheetRange => {
                faulty::parts(record).as_ref().map(Sheet::named)
            }
            Err(_) => None,
        }
    }

    /// Gives names to states and messages.
    fn named(parts: &Parts) -> Sheet {
        let transitions: Vec<Transition> = parts.transitions.iter().map(Transition::of).collect();
        let first = parts.first.mask();
        let used = transitions.iter().fold(first, |used, t| used | t.reads | t.writes);
        let messages = (0..32 - used.leading_zeros()).map(|m| format!("m{m}")).collect();
        let sites = parts.sites.iter().map(|marks| Site::named(marks)).collect();
        Sheet { title: String::new(), sites, messages, first, transitions }
    }

    /// A local state's name.
    pub fn state(&self, (site, state): Local) -> &State {
        &self.sites[usize::from(site) - 1].states[usize::from(state)]
    }

    /// `2.1 w`: a local state by number and name.
    pub fn called(&self, local: Local) -> String {
        format!("{}.{} {}", local.0, local.1, self.state(local).name)
    }

    /// `site 2 slave`, or `site 2` where it has no name.
    pub fn site_called(&self, site: usize) -> String {
        format!("site {site} {}", self.sites[site - 1].name).trim_end().to_string()
    }

    /// The names of a set of messages, in the order of their numbers.
    pub fn names(&self, set: u32) -> Vec<&str> {
        let within = |m: &usize| set >> m & 1 == 1;
        (0..self.messages.len()).filter(within).map(|m| &*self.messages[m]).collect()
    }

    /// Every local state, site by site.
    pub fn locals(&self) -> Vec<Local> {
        let of_site = |(site, is): (u8, &Site)| (0..is.states.len() as u8).map(move |s| (site, s));
        (1..).zip(&self.sites).flat_map(of_site).collect()
    }
}

impl Site {
    /// A site whose states are named after their places.
    fn named(marks: &[Mark]) -> Site {
        let state =
            |(place, &mark): (usize, &Mark)| State { name: format!("s{place}"), mark, line: 0 };
        let states = marks.iter().enumerate().map(state).collect();
        Site { name: String::new(), states, line: 0 }
    }
}

impl Transition {
    fn of(part: &fjadrimor::Transition) -> Transition {
        let &fjadrimor::Transition { site, from, to, votes, reads, writes } = part;
        Transition { site, from, to, votes, reads: reads.mask(), writes: writes.mask(), line: 0 }
    }

    fn part(&self) -> fjadrimor::Transition {
        let &Transition { site, from, to, votes, .. } = self;
        let [reads, writes] = [self.reads, self.writes].map(Messages::from_mask);
        fjadrimor::Transition { site, from, to, votes, reads, writes }
    }
}
