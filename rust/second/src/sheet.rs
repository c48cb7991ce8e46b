//! 01, "Protocol sheets": the record of a sheet, its parts, and the grounds 21 to 29.

use std::collections::{BTreeMap, BTreeSet};

/// A local state: a site and one of its states.
pub type Local = (u8, u8);

/// A set of messages.
pub type Messages = BTreeSet<u8>;

#[derive(Clone, Copy, Debug, PartialEq, Eq)]
pub enum Mark {
    Working,
    Abort,
    Commit,
}

/// One transition.
#[derive(Debug)]
pub struct Move {
    pub site: u8,
    pub from: u8,
    pub to: u8,
    pub votes: bool,
    pub reads: Messages,
    pub writes: Messages,
}

/// "A sheet has 2 to 4 sites, each with 1 to 8 states marked working, abort or commit, and at most
/// 64 transitions."
#[derive(Debug)]
pub struct Sheet {
    pub sites: u8,
    pub marks: BTreeMap<Local, Mark>,
    pub first: Messages,
    pub moves: Vec<Move>,
}

/// What a sheet lists, taken apart but not yet looked at: a count for each site, a mark for each of
/// their states, the first messages and the transitions.
pub(crate) struct Lists<'a> {
    pub counts: &'a [u8],
    pub marks: Vec<u8>,
    pub first: &'a [u8],
    pub moves: Vec<&'a [u8]>,
}

/// Reads a sheet, or tells the ground of its refusal.
pub fn read(bytes: &[u8]) -> Result<Sheet, u8> {
    let body = body(bytes).ok_or(21)?;
    if body[0] != 1 {
        return Err(22);
    }
    let counts = counts(&body[1..]).ok_or(23)?;
    lists(counts, &body[2 + counts.len()..]).ok_or(24)?.sheet()
}

/// "2-byte big-endian length L of all that follows": what follows, if it is L bytes and not none.
fn body(bytes: &[u8]) -> Option<&[u8]> {
    let (head, body) = bytes.split_at_checked(2)?;
    let length = usize::from(head[0]) * 256 + usize::from(head[1]);
    (length > 0 && body.len() == length).then_some(body)
}

/// The state counts, if there are 2 to 4 of them and each is 1 to 8.
fn counts(rest: &[u8]) -> Option<&[u8]> {
    let (&sites, rest) = rest.split_first()?;
    let counts = rest.get(..usize::from(sites))?;
    let right = (2..=4).contains(&sites) && counts.iter().all(|count| (1..=8).contains(count));
    right.then_some(counts)
}

/// What follows the counts, if it is as long as the counts give.
fn lists<'a>(counts: &'a [u8], rest: &'a [u8]) -> Option<Lists<'a>> {
    let states = counts.iter().map(|&count| usize::from(count)).sum();
    let (marks, rest) = rest.split_at_checked(states)?;
    let (first, rest) = rest.split_at_checked(4)?;
    let (&number, rest) = rest.split_first()?;
    let right = number <= 64 && rest.len() == 12 * usize::from(number);
    right.then(|| Lists { counts, marks: marks.to_vec(), first, moves: rest.chunks(12).collect() })
}

impl Lists<'_> {
    /// The sheet, or the first of the grounds 25 to 29 that holds.
    pub fn sheet(&self) -> Result<Sheet, u8> {
        let sheet = self.meant().ok_or(25)?;
        match sheet.fault() {
            Some(ground) => Err(ground),
            None => Ok(sheet),
        }
    }

    /// The lists with a meaning, if each is within its range.
    fn meant(&self) -> Option<Sheet> {
        let locals = (1..)
            .zip(self.counts)
            .flat_map(|(site, &count)| (0..count).map(move |state| (site, state)));
        let marks = locals.zip(&self.marks).map(|(local, &byte)| Some((local, mark(byte)?)));
        let marks = marks.collect::<Option<BTreeMap<Local, Mark>>>()?;
        let moves = self.moves.iter().map(|bytes| transition(bytes, &marks));
        Some(Sheet {
            sites: self.counts.len() as u8,
            first: messages(self.first),
            moves: moves.collect::<Option<_>>()?,
            marks,
        })
    }
}

fn mark(byte: u8) -> Option<Mark> {
    [Mark::Working, Mark::Abort, Mark::Commit].get(usize::from(byte)).copied()
}

/// "Message m is the bit of weight 2^m, big-endian."
fn messages(bytes: &[u8]) -> Messages {
    let held = |m: &u8| bytes[usize::from(3 - m / 8)] >> (m % 8) & 1 == 1;
    (0..32).filter(held).collect()
}

/// "12 bytes each: site (from 1), from, to, vote (0 or 1), reads (4), writes (4)."
fn transition(bytes: &[u8], marks: &BTreeMap<Local, Mark>) -> Option<Move> {
    let [site, from, to, vote] = [bytes[0], bytes[1], bytes[2], bytes[3]];
    let right = marks.contains_key(&(site, from)) && marks.contains_key(&(site, to)) && vote <= 1;
    right.then(|| Move {
        site,
        from,
        to,
        votes: vote == 1,
        reads: messages(&bytes[4..8]),
        writes: messages(&bytes[8..12]),
    })
}

impl Sheet {
    /// The first of the grounds 26 to 29 that holds.
    fn fault(&self) -> Option<u8> {
        if self.moves.iter().any(|a| a.reads.is_empty()) {
            Some(26)
        } else if self.moves.iter().any(|a| self.moves.iter().any(|b| share_a_message(a, b))) {
            Some(27)
        } else if self.moves.iter().any(|a| self.leaves_a_decision(a)) {
            Some(28)
        } else if self.marks.keys().any(|&local| self.after(local).contains(&local)) {
            Some(29)
        } else {
            None
        }
    }

    /// "Abort to non-abort, or commit to non-commit."
    fn leaves_a_decision(&self, a: &Move) -> bool {
        let from = self.marks[&(a.site, a.from)];
        from != Mark::Working && self.marks[&(a.site, a.to)] != from
    }

    /// The local states that one or more transitions lead to from this one.
    fn after(&self, local: Local) -> BTreeSet<Local> {
        let mut found = BTreeSet::new();
        let mut open = vec![local];
        while let Some(here) = open.pop() {
            for a in self.moves.iter().filter(|a| (a.site, a.from) == here) {
                if found.insert((a.site, a.to)) {
                    open.push((a.site, a.to));
                }
            }
        }
        found
    }
}

/// "A message read by two sites."
fn share_a_message(a: &Move, b: &Move) -> bool {
    a.site != b.site && !a.reads.is_disjoint(&b.reads)
}
