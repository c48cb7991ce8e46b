//! The parts of a record that the library refuses with 26 to 29, so that the words about the refusal
//! can name a transition. The library has found the record's lengths and ranges right, and has
//! decided; nothing is decided here.

use fjadrimor::{Mark, Messages, Sheet, Transition};

/// The parts of such a record.
pub fn parts(record: &[u8]) -> Option<Sheet> {
    let mut rest = record.get(4..)?;
    let counts = take(&mut rest, usize::from(record[3]))?;
    let sites = counts.iter().map(|&count| marks(take(&mut rest, usize::from(count))?));
    let sites = sites.collect::<Option<_>>()?;
    let first = messages(take(&mut rest, 4)?)?;
    let transitions = rest.get(1..)?.chunks(12).map(transition);
    Some(Sheet { sites, first, transitions: transitions.collect::<Option<_>>()? })
}

/// The first so many bytes of what is left.
fn take<'a>(rest: &mut &'a [u8], count: usize) -> Option<&'a [u8]> {
    let (taken, left) = rest.split_at_checked(count)?;
    *rest = left;
    Some(taken)
}

fn marks(bytes: &[u8]) -> Option<Vec<Mark>> {
    bytes.iter().map(|&mark| Mark::ALL.get(usize::from(mark)).copied()).collect()
}

fn messages(bytes: &[u8]) -> Option<Messages> {
    bytes.try_into().ok().map(|bytes| Messages::from_mask(u32::from_be_bytes(bytes)))
}

fn transition(bytes: &[u8]) -> Option<Transition> {
    let &[site, from, to, vote] = bytes.first_chunk()?;
    let (reads, writes) = (messages(bytes.get(4..8)?)?, messages(bytes.get(8..)?)?);
    Some(Transition { site, from, to, votes: vote == 1, reads, writes })
}
