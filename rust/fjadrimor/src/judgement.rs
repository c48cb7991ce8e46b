//! What the judge says of a protocol sheet.

use crate::{calls, Refusal};

/// The words that the judge works in, and the most global states that a sheet may reach.
const WORDS: usize = 4096;
/// The bytes of a judgement, and of it those for one local state.
const OUT: usize = 206;
const LOCAL: usize = 6;
/// Where the local states begin, eight for each site.
const LOCALS: usize = 14;
/// The least room for a report: the longest has so many bytes.
const ROOM: usize = 3731;

/// Is a protocol nonblocking: can every site that still runs decide, whoever stops?
#[derive(Clone, Copy, Debug, PartialEq, Eq, Hash)]
pub enum Verdict {
    Nonblocking,
    /// The lowest site, then state, then condition that is broken.
    Blocking {
        site: u8,
        state: u8,
        condition: u8,
    },
}

/// What a site can decide by itself from one of its states.
#[derive(Clone, Copy, Debug, PartialEq, Eq, Hash)]
pub enum Decision {
    /// The state is never reached.
    Unreached,
    Abort,
    Commit,
    Blocked,
}

/// What is said of one local state.
#[derive(Clone, Debug, PartialEq, Eq, Hash)]
pub struct Local {
    pub reached: bool,
    pub committable: bool,
    pub decision: Decision,
    /// The concurrency set: sites and states of theirs that are found together with this one.
    pub concurrent: Vec<(u8, u8)>,
}

/// What is said of an accepted sheet.
#[derive(Clone, Debug, PartialEq, Eq, Hash)]
pub struct Judgement {
    pub sites: u8,
    pub verdict: Verdict,
    /// At least so many sites may stop, whichever they are, and one that is never blocked is left.
    /// Stated from three such sites up, as their number less one; `None` says only that there are
    /// fewer.
    pub tolerance: Option<u8>,
    /// The numbers of the reachable global states, ascending.
    pub reachable: Vec<u64>,
    locals: Vec<[u8; LOCAL]>,
}

/// Judges the record of a sheet. Any bytes will do; the judge says what is wrong with them. Refused
/// with 21 to 31.
pub fn judge(record: &[u8]) -> Result<Judgement, Refusal> {
    let mut words = vec![0; WORDS];
    let mut out = [0; OUT];
    Refusal::heed(calls::sheet_judge(record, &mut words, &mut out))?;
    let [sites, high, low, nonblocking, site, state, condition, tolerance, ..] = out;
    words.truncate(usize::from(u16::from_be_bytes([high, low])));
    let verdict = match nonblocking {
        0 => Verdict::Blocking { site, state, condition },
        _ => Verdict::Nonblocking,
    };
    let tolerance = (tolerance != 0).then_some(tolerance);
    let locals = out[LOCALS..].chunks_exact(LOCAL).flat_map(<[u8; LOCAL]>::try_from).collect();
    Ok(Judgement { sites, verdict, tolerance, reachable: words, locals })
}

/// What the sheet program prints for the record of a sheet, all of whose bytes count here. Of more
/// than 65,536 bytes the program takes the first 65,536, and its ground may be another.
pub fn report(record: &[u8]) -> String {
    let mut words = vec![0; WORDS];
    let mut text = vec![0; ROOM];
    let length = calls::sheet_report(record, &mut words, &mut text);
    text.truncate(length);
    String::from_utf8(text).expect("the library writes ASCII")
}

impl Judgement {
    /// What is said of a state of a site. A state that the sheet does not have is not reached, and
    /// nothing else is said of it; none where no sheet has such a site or state.
    pub fn local(&self, site: u8, state: u8) -> Option<Local> {
        let place = 8 * usize::from(site.checked_sub(1)?) + usize::from(state);
        let &[flags, decision, a, b, c, d] = self.locals.get(place).filter(|_| state < 8)?;
        let set = u32::from_be_bytes([a, b, c, d]);
        let found = (0..32).filter(|bit| set >> bit & 1 == 1);
        Some(Local {
            reached: flags & 1 != 0,
            committable: flags & 2 != 0,
            decision: match decision {
                0 => Decision::Unreached,
                1 => Decision::Abort,
                2 => Decision::Commit,
                _ => Decision::Blocked,
            },
            concurrent: found.map(|bit| (bit / 8 + 1, bit % 8)).collect(),
        })
    }
}
