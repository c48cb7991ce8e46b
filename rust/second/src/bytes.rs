//! Sites and steps as the C interface has them: bytes in, bytes out.

use crate::site::{self, lowest, Record, Sites, State, Step};

const STATES: [State; 5] = [State::Q, State::W, State::P, State::A, State::C];

/// A mask as a set: the bit of weight 2^(j-1) is site j.
pub fn set_of(mask: u8) -> Sites {
    (1..=8).filter(|j| mask >> (j - 1) & 1 == 1).collect()
}

/// A set of sites 1..8 as a mask.
pub fn mask_of(set: &Sites) -> u8 {
    set.iter().map(|j| 1 << (j - 1)).sum()
}

/// Eight bytes as a site record; none where the state byte means no state.
pub fn record_of(bytes: &[u8]) -> Option<Record> {
    Some(Record {
        n: bytes[0],
        number: bytes[1],
        state: *STATES.get(bytes[2] as usize)?,
        leader: bytes[3],
        known: set_of(bytes[4]),
        yes: set_of(bytes[5]),
        no: set_of(bytes[6]),
        acked: set_of(bytes[7]),
    })
}

/// A site record as eight bytes.
pub fn bytes_of(record: &Record) -> [u8; 8] {
    [
        record.n,
        record.number,
        record.state as u8,
        record.leader,
        mask_of(&record.known),
        mask_of(&record.yes),
        mask_of(&record.no),
        mask_of(&record.acked),
    ]
}

/// The step that K, O, M and V name: 13 for an unknown K, 14 for a vote that is none or for a
/// field that the step does not use and that is not 0.
pub fn step_of(k: u8, o: u8, m: u8, v: u8) -> Result<Step, u8> {
    let vote = [None, Some(true), Some(false)].get(v as usize).copied();
    match (k, o, m, vote) {
        (1, 0, 0, Some(Some(vote))) => Ok(Step::Begin(vote)),
        (2, from, kind, Some(vote)) if (kind == site::START) == vote.is_some() => {
            Ok(Step::Deliver { kind, from, vote })
        }
        (3, stopped, 0, Some(None)) => Ok(Step::Notice(stopped)),
        (4, 0, 0, Some(None)) => Ok(Step::TakeOver),
        (5, 0, 0, Some(None)) => Ok(Step::Conclude),
        (1..=5, ..) => Err(14),
        _ => Err(13),
    }
}

/// The bytes of a step's answer: outcome, kind, receivers, written, how many are awaited, the lowest.
type Answer = [u8; 6];

/// `fj_site_step`: one step of the site in these eight bytes.
pub fn site_step(site: &mut [u8], k: u8, o: u8, m: u8, v: u8, answer: &mut [u8]) -> u8 {
    let Some(answer) = answer.first_chunk_mut() else {
        return 15;
    };
    match stepped(site, k, o, m, v) {
        Ok((record, reply)) => {
            site.copy_from_slice(&record);
            *answer = reply;
            0
        }
        Err(ground) => {
            *answer = [2, 0, 0, 0, 0, 0];
            ground
        }
    }
}

/// The new record and the answer.
fn stepped(site: &[u8], k: u8, o: u8, m: u8, v: u8) -> Result<([u8; 8], Answer), u8> {
    let record = if site.len() == 8 { record_of(site) } else { None };
    let record = record.ok_or(1)?;
    let done = site::step(&record, &step_of(k, o, m, v)?)?;
    let kind = done.messages.first().map_or(0, |message| message.0);
    let receivers: Sites = done.messages.iter().map(|message| message.2).collect();
    let awaited = done.record.awaited();
    let reply = [
        done.passed as u8,
        kind,
        mask_of(&receivers),
        done.messages.len() as u8,
        awaited.len() as u8,
        lowest(&awaited),
    ];
    Ok((bytes_of(&done.record), reply))
}
