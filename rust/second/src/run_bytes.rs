//! Runs and events as the C interface has them.

use crate::bytes::{bytes_of, mask_of, record_of, set_of, step_of};
use crate::run::{event, Happening, Next, Run};
use crate::site::{lowest, Sites};

/// n, stopped, eight records of eight bytes, nine rows of eight senders' receivers.
const LENGTH: usize = 138;
const RECORDS: usize = 2;
const NETWORK: usize = 66;

/// The byte of the network that holds the receivers of a kind from a sender.
fn place(kind: u8, sender: u8) -> usize {
    NETWORK + 8 * (kind as usize - 1) + sender as usize - 1
}

/// These bytes as a run; none where their number is wrong or a state byte means no state.
pub fn run_of(bytes: &[u8]) -> Option<Run> {
    if bytes.len() != LENGTH {
        return None;
    }
    let records = bytes[RECORDS..NETWORK].chunks(8).map(record_of).collect::<Option<_>>()?;
    let pairs = (1..=9).flat_map(|kind| (1..=8).map(move |sender| (kind, sender)));
    let network = pairs
        .flat_map(|(kind, sender)| {
            set_of(bytes[place(kind, sender)]).into_iter().map(move |to| (kind, sender, to))
        })
        .collect();
    Some(Run { n: bytes[0], stopped: set_of(bytes[1]), records, network })
}

/// A run as bytes.
pub fn bytes_of_run(run: &Run) -> Vec<u8> {
    let mut bytes = vec![run.n, mask_of(&run.stopped)];
    bytes.extend(run.records.iter().flat_map(bytes_of));
    bytes.resize(LENGTH, 0);
    for &(kind, sender, to) in &run.network {
        bytes[place(kind, sender)] |= mask_of(&Sites::from([to]));
    }
    bytes
}

/// The happening that K, O, M, V and X name: 13 for an unknown K, 14 for a field that it does not
/// use and that is not 0, or a vote that is none.
pub fn happening_of(k: u8, o: u8, m: u8, v: u8, x: u8) -> Result<Happening, u8> {
    match k {
        1..=5 => {
            let step = step_of(k, o, m, v)?;
            if x == 0 {
                Ok(Happening::Step(step))
            } else {
                Err(14)
            }
        }
        6 if [o, m, v, x] == [0; 4] => Ok(Happening::Stop),
        6 => Err(14),
        17..=21 => Ok(Happening::StopDuring(step_of(k - 16, o, m, v)?, set_of(x))),
        _ => Err(13),
    }
}

/// `fj_run_fresh`.
pub fn run_fresh(n: u8, run: &mut [u8]) -> u8 {
    if run.len() != LENGTH {
        return 15;
    }
    let (fresh, ground) = match Run::fresh(n) {
        Ok(fresh) => (fresh, 0),
        Err(empty) => (empty, 1),
    };
    run.copy_from_slice(&bytes_of_run(&fresh));
    ground
}

/// `fj_run_event`: K, S, O, M, V and X are the fields of 01's event record.
#[allow(clippy::too_many_arguments)]
pub fn run_event(
    run: &mut [u8],
    k: u8,
    s: u8,
    o: u8,
    m: u8,
    v: u8,
    x: u8,
    answer: &mut [u8],
) -> u8 {
    let Some(answer) = answer.first_chunk_mut() else {
        return 15;
    };
    match happened(run, [k, s, o, m, v, x]) {
        Ok(next) => {
            run.copy_from_slice(&bytes_of_run(&next.run));
            *answer = reply(&next);
            0
        }
        Err(ground) => {
            *answer = [2, 0, 0, 0];
            ground
        }
    }
}

/// The bytes of an event's answer: outcome, written, how many are awaited, the lowest.
fn reply(Next { passed, left, awaited, .. }: &Next) -> [u8; 4] {
    [*passed as u8, left.len() as u8, awaited.len() as u8, lowest(awaited)]
}

/// The event that these fields name, in the run that these bytes are.
fn happened(run: &[u8], [k, s, o, m, v, x]: [u8; 6]) -> Result<Next, u8> {
    let run = run_of(run).ok_or(1)?;
    event(&run, s, &happening_of(k, o, m, v, x)?)
}
