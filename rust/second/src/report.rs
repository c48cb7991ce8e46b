//! 01's sheet program and the judge's C interface.

use crate::judge::{judge, Decision, Finding, Judgement, MOST};
use crate::rehearsal::{put, taken};
use crate::sheet::{read, Local, Mark};
use std::collections::BTreeSet;

/// The bytes of the judge's answer.
const OUT: usize = 206;

/// The bytes of the longest report: a first line of 26, a line of 114 for each of 32 states (with
/// all 24 states of the other sites in its set), a verdict of 36, and `tolerance not stated`.
const LONGEST: usize = 26 + 32 * 114 + 36 + 21;

/// The sheet program's text: the report of what it takes of its input.
pub fn sheets(input: &[u8]) -> String {
    report(&read(taken(input)).and_then(|sheet| judge(&sheet)))
}

/// The text of a judgement, or `refused N` only.
pub fn report(judged: &Result<Judgement, u8>) -> String {
    let judgement = match judged {
        Ok(judgement) => judgement,
        Err(ground) => return format!("refused {ground}\n"),
    };
    let mut text = format!("sheet {} sites {} states\n", judgement.sites, judgement.reach.len());
    for (local, found) in &judgement.findings {
        text += &line(*local, found);
    }
    text += &match judgement.witness {
        None => "verdict nonblocking\n".to_string(),
        Some((site, state, condition)) => {
            format!("verdict blocking at {site}.{state} condition {condition}\n")
        }
    };
    text + &last_line(judgement.tolerance)
}

/// 02: the tolerance where it is stated, "otherwise the last line reads `tolerance not stated`".
fn last_line(tolerance: Option<usize>) -> String {
    match tolerance {
        Some(stops) => format!("tolerance {stops}\n"),
        None => "tolerance not stated\n".to_string(),
    }
}

/// "Per state: site.state, mark (w, a, c), reached, set (or `-`), committable, decision."
fn line((site, state): Local, found: &Finding) -> String {
    let mark = match found.mark {
        Mark::Working => 'w',
        Mark::Abort => 'a',
        Mark::Commit => 'c',
    };
    let yes_no = |holds| if holds { 'y' } else { 'n' };
    let names: Vec<String> =
        found.set.iter().map(|(site, state)| format!("{site}.{state}")).collect();
    let set = if names.is_empty() { "-".to_string() } else { names.join(",") };
    let decision = match found.decision {
        Decision::Unreached => "-",
        Decision::Abort => "abort",
        Decision::Commit => "commit",
        Decision::Blocked => "blocked",
    };
    let (reached, committable) = (yes_no(found.reached), yes_no(found.committable));
    format!("{site}.{state} {mark} {reached} {set} {committable} {decision}\n")
}

/// Judges a sheet's bytes and leaves the reachable numbers in the lent words: "20 to 29 leave the
/// words; 30 and 31 set the first 4,096 to zero."
fn judge_in(bytes: &[u8], words: &mut [u64]) -> Result<Judgement, u8> {
    let words = words.get_mut(..MOST).ok_or(20)?;
    let sheet = read(bytes)?;
    words.fill(0);
    let judgement = judge(&sheet)?;
    let numbers: BTreeSet<u64> = judgement.reach.iter().map(|global| global.number()).collect();
    words.iter_mut().zip(numbers).for_each(|(word, number)| *word = number);
    Ok(judgement)
}

/// `fj_sheet_judge`.
pub fn sheet_judge(bytes: &[u8], words: &mut [u64], out: &mut [u8]) -> u8 {
    let Some(out) = out.get_mut(..OUT) else {
        return 15;
    };
    out.fill(0);
    match judge_in(bytes, words) {
        Ok(judgement) => {
            answer(&judgement, out);
            0
        }
        Err(ground) => ground,
    }
}

/// The judgement as bytes: eight, six zeros, then six for each of 32 local states. A tolerance that
/// is not stated is 0.
fn answer(judgement: &Judgement, out: &mut [u8]) {
    let states = judgement.reach.len();
    let (site, state, condition) = judgement.witness.unwrap_or_default();
    let head = [
        judgement.sites,
        (states / 256) as u8,
        (states % 256) as u8,
        judgement.witness.is_none() as u8,
        site,
        state,
        condition,
        judgement.tolerance.unwrap_or(0) as u8,
    ];
    out[..8].copy_from_slice(&head);
    for (&local, found) in &judgement.findings {
        let start = 14 + 6 * place(local);
        out[start] = found.reached as u8 + 2 * found.committable as u8;
        out[start + 1] = found.decision as u8;
        for &other in &found.set {
            out[start + 5 - place(other) / 8] += 1 << (place(other) % 8);
        }
    }
}

/// The place of a local state among 32.
fn place((site, state): Local) -> usize {
    8 * (usize::from(site) - 1) + usize::from(state)
}

/// `fj_sheet_report`: 0, and nothing is touched, where the room is smaller than the longest report.
pub fn sheet_report(bytes: &[u8], words: &mut [u64], room: &mut [u8]) -> usize {
    if room.len() < LONGEST {
        return 0;
    }
    put(&report(&judge_in(bytes, words)), room)
}
