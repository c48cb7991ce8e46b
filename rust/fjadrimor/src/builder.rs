//! A sheet by names: whoever writes one counts nothing.

use crate::{Mark, Messages, Sheet, Transition};
use std::fmt;

/// The most messages that a sheet can name.
const MESSAGES: usize = 32;

/// Builds a [`Sheet`] by the names of states and messages. State names belong to their site, message
/// names to the sheet; messages are numbered in the order in which they are first named.
///
/// A message is made where its name comes first, so that a misspelt one would be a message of its own,
/// and the sheet another protocol. List them with [`SheetBuilder::messages`] before they are used: then
/// a name that is not listed is told.
///
/// ```
/// use fjadrimor::Mark::{Abort, Commit, Working};
/// use fjadrimor::{Sheet, Verdict};
///
/// let mut protocol = Sheet::builder();
/// let states = [("q", Working), ("w", Working), ("a", Abort), ("c", Commit)];
/// let coordinator = protocol.site(&states);
/// let slave = protocol.site(&states);
/// protocol.messages(&["request", "start", "yes", "no", "abort", "commit"]);
/// protocol.first(&["request"]);
/// protocol.transition(coordinator, "q", "w").reads(&["request"]).writes(&["start"]);
/// protocol.transition(coordinator, "w", "c").reads(&["yes"]).writes(&["commit"]).votes_yes();
/// protocol.transition(coordinator, "w", "a").reads(&["yes"]).writes(&["abort"]);
/// protocol.transition(coordinator, "w", "a").reads(&["no"]);
/// protocol.transition(slave, "q", "w").reads(&["start"]).writes(&["yes"]).votes_yes();
/// protocol.transition(slave, "q", "a").reads(&["start"]).writes(&["no"]);
/// protocol.transition(slave, "w", "a").reads(&["abort"]);
/// protocol.transition(slave, "w", "c").reads(&["commit"]);
///
/// let sheet = protocol.build()?;
/// let record = sheet.write()?;
/// assert_eq!(record[..2], [0, 113]);
/// let verdict = Verdict::Blocking { site: slave, state: 1, condition: 1 };
/// assert_eq!(sheet.judge()?.verdict, verdict);
/// # Ok::<(), Box<dyn std::error::Error>>(())
/// ```
#[derive(Clone, Debug, Default)]
pub struct SheetBuilder {
    sheet: Sheet,
    /// The names of each site's states, and of the messages.
    states: Vec<Vec<String>>,
    messages: Vec<String>,
    /// Whether the messages were listed: then no other name makes one.
    listed: bool,
    /// The first name that does not fit.
    misnamed: Option<Misnamed>,
}

/// A name that does not fit the others of a sheet.
#[derive(Clone, Debug, PartialEq, Eq, Hash)]
pub enum Misnamed {
    /// No site with this number was added before its transition.
    NoSite(u8),
    /// The site has no state of this name.
    NoState { site: u8, name: String },
    /// The site has two states of this name.
    SameState { site: u8, name: String },
    /// Messages were listed, and none of this name.
    NoMessage(String),
    /// A sheet has at most 32 messages, and this is one more.
    ManyMessages(String),
}

/// The transition that was added last, for what it reads and writes.
#[derive(Debug)]
pub struct TransitionBuilder<'a>(&'a mut SheetBuilder);

impl SheetBuilder {
    /// Adds a site with these states, its first one first, and tells the site's number.
    pub fn site(&mut self, states: &[(&str, Mark)]) -> u8 {
        let number = u8::try_from(self.states.len() + 1).unwrap_or(u8::MAX);
        let names: Vec<&str> = states.iter().map(|state| state.0).collect();
        let same = (1..).zip(&names).find(|&(place, name)| names[place..].contains(name));
        if let Some((_, name)) = same {
            self.note(Misnamed::SameState { site: number, name: name.to_string() });
        }
        self.sheet.sites.push(states.iter().map(|state| state.1).collect());
        self.states.push(names.into_iter().map(str::to_string).collect());
        number
    }

    /// Lists messages, so that they are numbered in this order and every other name is told; a further
    /// list adds to the first. Without a list, names make messages.
    pub fn messages(&mut self, names: &[&str]) {
        let earlier = |name: &&String| !self.listed && !names.contains(&name.as_str());
        if let Some(name) = self.messages.iter().find(earlier).cloned() {
            self.note(Misnamed::NoMessage(name));
        }
        self.listed = false;
        self.set(names);
        self.listed = true;
    }

    /// The messages outstanding at first, besides those that are so already.
    pub fn first(&mut self, names: &[&str]) {
        let set = self.set(names);
        self.sheet.first = both(self.sheet.first, set);
    }

    /// Adds a transition of a site between two of its states.
    pub fn transition(&mut self, site: u8, from: &str, to: &str) -> TransitionBuilder<'_> {
        let [from, to] = [from, to].map(|name| self.state(site, name));
        let none = Messages::default();
        let transition = Transition { site, from, to, votes: false, reads: none, writes: none };
        self.sheet.transitions.push(transition);
        TransitionBuilder(self)
    }

    /// The sheet, or the first name that does not fit. Whether the sheet keeps the rules is said
    /// where it is written or judged.
    pub fn build(self) -> Result<Sheet, Misnamed> {
        match self.misnamed {
            Some(misnamed) => Err(misnamed),
            None => Ok(self.sheet),
        }
    }

    /// The number of a site's state, 0 where there is none.
    fn state(&mut self, site: u8, name: &str) -> u8 {
        let states = usize::from(site).checked_sub(1).and_then(|place| self.states.get(place));
        let Some(states) = states else {
            self.note(Misnamed::NoSite(site));
            return 0;
        };
        let known = states.iter().position(|state| state == name);
        if known.is_none() {
            self.note(Misnamed::NoState { site, name: name.to_string() });
        }
        known.map_or(0, |place| u8::try_from(place).unwrap_or(u8::MAX))
    }

    /// The set of messages with these names.
    fn set(&mut self, names: &[&str]) -> Messages {
        names.iter().map(|name| self.message(name)).collect()
    }

    /// The number of a message, the next one where its name is new.
    fn message(&mut self, name: &str) -> u8 {
        let known = self.messages.iter().position(|message| message == name);
        let place = known.unwrap_or(self.messages.len());
        match known {
            Some(_) => (),
            None if self.listed => self.note(Misnamed::NoMessage(name.to_string())),
            None if place == MESSAGES => self.note(Misnamed::ManyMessages(name.to_string())),
            None => self.messages.push(name.to_string()),
        }
        place as u8
    }

    fn note(&mut self, misnamed: Misnamed) {
        self.misnamed.get_or_insert(misnamed);
    }
}

impl TransitionBuilder<'_> {
    /// Messages that it reads, besides those that it reads already.
    pub fn reads(self, names: &[&str]) -> Self {
        self.with(names, |transition| &mut transition.reads)
    }

    /// Messages that it writes, besides those that it writes already.
    pub fn writes(self, names: &[&str]) -> Self {
        self.with(names, |transition| &mut transition.writes)
    }

    /// The site votes yes here.
    pub fn votes_yes(mut self) -> Self {
        self.last().votes = true;
        self
    }

    fn with(mut self, names: &[&str], part: fn(&mut Transition) -> &mut Messages) -> Self {
        let set = self.0.set(names);
        let part = part(self.last());
        *part = both(*part, set);
        self
    }

    fn last(&mut self) -> &mut Transition {
        self.0.sheet.transitions.last_mut().expect("the transition was added")
    }
}

fn both(one: Messages, other: Messages) -> Messages {
    Messages::from_mask(one.mask() | other.mask())
}

impl fmt::Display for Misnamed {
    fn fmt(&self, out: &mut fmt::Formatter) -> fmt::Result {
        match self {
            Misnamed::NoSite(site) => write!(out, "there is no site {site}"),
            Misnamed::NoState { site, name } => write!(out, "site {site} has no state {name}"),
            Misnamed::SameState { site, name } => write!(out, "site {site} has two states {name}"),
            Misnamed::NoMessage(name) => write!(out, "no list of messages has {name}"),
            Misnamed::ManyMessages(name) => {
                write!(out, "a sheet has at most {MESSAGES} messages, and {name} is one more")
            }
        }
    }
}

impl std::error::Error for Misnamed {}
