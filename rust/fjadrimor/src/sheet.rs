//! Protocol sheets: their parts, read from a record and written to one.

use crate::{calls, judge, report, Judgement, Refusal, SheetBuilder};
use std::fmt;

/// The bytes of a sheet's parts, and where its lists begin in them: a count for each of four sites,
/// eight marks for each, the first messages, the number of transitions, and 64 of these.
const PARTS: usize = 810;
const COUNTS: usize = 1;
const MARKS: usize = 5;
const FIRST: usize = 37;
const NUMBER: usize = 41;
const TRANSITIONS: usize = 42;
/// The bytes of a transition, and the states that a site can have.
const TRANSITION: usize = 12;
const STATES: usize = 8;
/// Room for every record: the longest has so many bytes.
const ROOM: usize = 813;

/// A commit protocol of two to four sites: the parts of a sheet. Whatever they are, [`Sheet::write`]
/// makes the record of them or says what is wrong.
///
/// A reviewer reads a sheet, changes a part and writes it again; its lengths come out right:
///
/// ```
/// use fjadrimor::Sheet;
///
/// // Two-phase commit with two sites, in which message 3 is site 2's yes.
/// let record = include_bytes!("../../../crates/sheets/stdin");
/// let mut sheet = Sheet::read(record)?;
/// assert_eq!(sheet.write()?, record);
///
/// // Site 1 may no longer abort after a yes: one transition of 12 bytes goes.
/// sheet.transitions.retain(|t| (t.site, t.to) != (1, 2) || !t.reads.contains(3));
/// assert_eq!(sheet.write()?.len(), record.len() - 12);
/// # Ok::<(), fjadrimor::Refusal>(())
/// ```
///
/// A new one is best made by names, with a [`SheetBuilder`].
#[derive(Clone, Debug, Default, PartialEq, Eq, Hash)]
pub struct Sheet {
    /// The marks of each site's states. Site 1 stands first; so does a site's first state, 0.
    pub sites: Vec<Vec<Mark>>,
    /// The messages outstanding at first.
    pub first: Messages,
    pub transitions: Vec<Transition>,
}

/// What a state is: abort and commit states are final.
#[derive(Clone, Copy, Debug, PartialEq, Eq, PartialOrd, Ord, Hash)]
#[repr(u8)]
pub enum Mark {
    Working = 0,
    Abort = 1,
    Commit = 2,
}

/// What a site does in one of its states when all messages that it reads are outstanding.
#[derive(Clone, Copy, Debug, PartialEq, Eq, Hash)]
pub struct Transition {
    /// The site, from 1.
    pub site: u8,
    /// Its state before, from 0.
    pub from: u8,
    /// Its state after.
    pub to: u8,
    /// Does the site vote yes here?
    pub votes: bool,
    pub reads: Messages,
    pub writes: Messages,
}

/// A set of messages from 0 to 31. As a number, its mask, message m has weight 2^m.
#[derive(Clone, Copy, Default, PartialEq, Eq, Hash)]
pub struct Messages(u32);

impl Sheet {
    /// Builds a sheet by the names of states and messages.
    pub fn builder() -> SheetBuilder {
        SheetBuilder::default()
    }

    /// Reads the parts from a sheet's record. Refused with 21 to 29.
    pub fn read(record: &[u8]) -> Result<Sheet, Refusal> {
        let mut parts = [0; PARTS];
        Refusal::heed(calls::sheet_parts(record, &mut parts))?;
        Ok(Sheet::from_parts(&parts))
    }

    /// Writes the sheet's record. Refused with 23 to 29.
    pub fn write(&self) -> Result<Vec<u8>, Refusal> {
        let mut room = [0; ROOM];
        Refusal::heed(calls::sheet_write(&self.parts(), &mut room))?;
        let length = 2 + usize::from(u16::from_be_bytes([room[0], room[1]]));
        Ok(room[..length].to_vec())
    }

    /// Judges the sheet. Refused with 23 to 31.
    pub fn judge(&self) -> Result<Judgement, Refusal> {
        judge(&self.write()?)
    }

    /// What the sheet program prints for the sheet's record. Refused with 23 to 29, where there is
    /// none.
    pub fn report(&self) -> Result<String, Refusal> {
        Ok(report(&self.write()?))
    }

    /// The parts that the reader handed out.
    fn from_parts(parts: &[u8; PARTS]) -> Sheet {
        let sites = parts[MARKS..FIRST].chunks(STATES).zip(&parts[COUNTS..MARKS]);
        let marks = |(marks, &count): (&[u8], &u8)| {
            marks[..count.into()].iter().map(|&mark| Mark::numbered(mark)).collect()
        };
        let transitions = parts[TRANSITIONS..].chunks(TRANSITION).take(parts[NUMBER].into());
        Sheet {
            sites: sites.take(parts[0].into()).map(marks).collect(),
            first: Messages::from_bytes(&parts[FIRST..NUMBER]),
            transitions: transitions.map(Transition::from_bytes).collect(),
        }
    }

    /// The parts as the writer takes them. There is no place for more sites, states or transitions
    /// than a sheet can have; their counts tell of them, and the writer refuses these.
    fn parts(&self) -> [u8; PARTS] {
        let mut parts = [0; PARTS];
        parts[0] = counted(self.sites.len());
        for (place, marks) in self.sites.iter().enumerate().take(MARKS - COUNTS) {
            parts[COUNTS + place] = counted(marks.len());
            let room = &mut parts[MARKS + STATES * place..][..STATES];
            room.iter_mut().zip(marks).for_each(|(byte, &mark)| *byte = mark as u8);
        }
        parts[FIRST..NUMBER].copy_from_slice(&self.first.0.to_be_bytes());
        parts[NUMBER] = counted(self.transitions.len());
        for (room, transition) in parts[TRANSITIONS..].chunks_mut(TRANSITION).zip(&self.transitions)
        {
            room.copy_from_slice(&transition.bytes());
        }
        parts
    }
}

/// A count as a byte. One that no byte holds is more than a sheet can have, like 255.
fn counted(count: usize) -> u8 {
    u8::try_from(count).unwrap_or(u8::MAX)
}

impl Mark {
    /// Every mark, by its number in a record.
    pub const ALL: [Mark; 3] = [Mark::Working, Mark::Abort, Mark::Commit];

    /// `working`, `abort` or `commit`.
    pub fn name(self) -> &'static str {
        match self {
            Mark::Working => "working",
            Mark::Abort => "abort",
            Mark::Commit => "commit",
        }
    }

    fn numbered(number: u8) -> Mark {
        Mark::ALL[usize::from(number)]
    }
}

impl Transition {
    fn from_bytes(bytes: &[u8]) -> Transition {
        let &[site, from, to, vote] = bytes.first_chunk().expect("the bytes of a transition");
        Transition {
            site,
            from,
            to,
            votes: vote == 1,
            reads: Messages::from_bytes(&bytes[4..8]),
            writes: Messages::from_bytes(&bytes[8..]),
        }
    }

    fn bytes(&self) -> [u8; TRANSITION] {
        let mut bytes = [0; TRANSITION];
        bytes[..4].copy_from_slice(&[self.site, self.from, self.to, u8::from(self.votes)]);
        bytes[4..8].copy_from_slice(&self.reads.0.to_be_bytes());
        bytes[8..].copy_from_slice(&self.writes.0.to_be_bytes());
        bytes
    }
}

impl Messages {
    /// The set with this mask.
    pub fn from_mask(mask: u32) -> Messages {
        Messages(mask)
    }

    /// The set of these messages, or none where a number is not 0 to 31.
    pub fn of(messages: &[u8]) -> Option<Messages> {
        let known = messages.iter().all(|&message| weight(message) != 0);
        known.then(|| messages.iter().copied().collect())
    }

    /// The set's mask.
    pub fn mask(self) -> u32 {
        self.0
    }

    /// Is this message in the set? A number that is not 0 to 31 is in none.
    pub fn contains(self, message: u8) -> bool {
        self.0 & weight(message) != 0
    }

    /// Its messages, ascending.
    pub fn iter(self) -> impl Iterator<Item = u8> {
        (0..32).filter(move |&message| self.contains(message))
    }

    fn from_bytes(bytes: &[u8]) -> Messages {
        Messages(u32::from_be_bytes(bytes.try_into().expect("four bytes of a set")))
    }
}

/// The weight of a message in a mask; 0 for a number that is not 0 to 31.
fn weight(message: u8) -> u32 {
    1u32.checked_shl(message.into()).unwrap_or(0)
}

/// Numbers that are not 0 to 31 are left out; [`Messages::of`] tells of them.
impl FromIterator<u8> for Messages {
    fn from_iter<I: IntoIterator<Item = u8>>(messages: I) -> Messages {
        Messages(messages.into_iter().fold(0, |mask, message| mask | weight(message)))
    }
}

impl fmt::Debug for Messages {
    fn fmt(&self, out: &mut fmt::Formatter) -> fmt::Result {
        out.debug_set().entries(self.iter()).finish()
    }
}
