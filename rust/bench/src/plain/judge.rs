//! The judge: what follows from the reachable numbers.

use super::collect::{in_a_table, in_words, local, Collect, MOST};
use super::journal::{push_number, put};
use super::sheet::Sheet;

const OUT: usize = 206;

#[derive(Clone, Copy, Default)]
pub struct Finding {
    reached: bool,
    committable: bool,
    /// 0 -, 1 abort, 2 commit, 3 blocked.
    decision: u8,
    /// The lowest condition broken, or 0.
    broken: u8,
    /// The bit of weight 2^(8 * site + state) for each local state, sites from 0.
    set: u32,
}

pub struct Judgement {
    sheet: Sheet,
    states: usize,
    findings: [Finding; 32],
    /// Site, state and condition, or zeros.
    witness: [u8; 3],
    /// 0 where none is stated.
    tolerance: u8,
}

/// What is said of each local state, over the reachable numbers.
fn findings(sheet: &Sheet, reach: &[u64]) -> [Finding; 32] {
    let everyone = (1u64 << sheet.sites) - 1;
    let mut together = [0u32; 32];
    let mut unvoted = 0u32;
    for &global in reach {
        let places = (0..sheet.sites as usize).map(|site| 8 * site + local(global, site));
        let all = places.clone().fold(0, |all, place| all | 1 << place);
        places.for_each(|place| together[place] |= all);
        if global >> 32 & 15 != everyone {
            unvoted |= all;
        }
    }
    let marked =
        |mark: u8| (0..32).filter(|&p| sheet.marks[p] == mark).fold(0, |m, p| m | 1u32 << p);
    let finals = (marked(1), marked(2));
    let mut findings = [Finding::default(); 32];
    for (site, &count) in sheet.counts.iter().enumerate() {
        for place in (8 * site..).take(count as usize) {
            let set = together[place] & !(0xFF << (8 * site));
            let committable = unvoted >> place & 1 == 0;
            let reached = together[place] != 0;
            findings[place] = finding(sheet.marks[place], reached, committable, set, finals);
        }
    }
    findings
}

fn finding(mark: u8, reached: bool, committable: bool, set: u32, finals: (u32, u32)) -> Finding {
    let (abort, commit) = (set & finals.0 != 0, set & finals.1 != 0);
    let broken = match (abort, commit) {
        (true, true) => 1,
        (false, true) if !committable => 2,
        _ => 0,
    };
    let decision = match (reached, broken, mark) {
        (false, _, _) => 0,
        (_, 1 | 2, _) => 3,
        (_, _, 1) => 1,
        (_, _, 2) => 2,
        _ if commit => 2,
        _ => 1,
    };
    Finding { reached, committable, decision, broken, set }
}

fn judge(collect: Collect, bytes: &[u8], words: &mut [u64]) -> Result<Judgement, u8> {
    let words = words.first_chunk_mut::<MOST>().ok_or(20)?;
    let sheet = Sheet::from_bytes(bytes)?;
    let states = match collect(&sheet, words) {
        Ok(states) => states,
        Err(ground) => {
            words.fill(0);
            return Err(ground);
        }
    };
    words[states..].fill(0);
    let findings = findings(&sheet, &words[..states]);
    let broken = findings.iter().position(|found| found.broken != 0);
    let witness = broken
        .map_or([0; 3], |place| [place as u8 / 8 + 1, place as u8 % 8, findings[place].broken]);
    let obeying = findings.chunks_exact(8).take(sheet.sites as usize);
    let obeying = obeying.filter(|site| site.iter().all(|found| found.broken == 0)).count();
    let tolerance = if obeying < 3 { 0 } else { obeying as u8 - 1 };
    Ok(Judgement { sheet, states, findings, witness, tolerance })
}

/// `fj_sheet_judge`.
pub fn sheet_judge(bytes: &[u8], words: &mut [u64], out: &mut [u8]) -> u8 {
    judge_by(in_words, bytes, words, out)
}

/// The same with a hash table in memory of its own.
pub fn sheet_judge_table(bytes: &[u8], words: &mut [u64], out: &mut [u8]) -> u8 {
    judge_by(in_a_table, bytes, words, out)
}

fn judge_by(collect: Collect, bytes: &[u8], words: &mut [u64], out: &mut [u8]) -> u8 {
    let Some(out) = out.first_chunk_mut::<OUT>() else {
        return 15;
    };
    out.fill(0);
    let judged = match judge(collect, bytes, words) {
        Ok(judged) => judged,
        Err(ground) => return ground,
    };
    let [high, low] = (judged.states as u16).to_be_bytes();
    let [site, state, condition] = judged.witness;
    let free = (condition == 0) as u8;
    let head = [judged.sheet.sites, high, low, free, site, state, condition, judged.tolerance];
    out[..8].copy_from_slice(&head);
    for (bytes, found) in out[14..].chunks_exact_mut(6).zip(&judged.findings) {
        bytes[0] = found.reached as u8 | (found.committable as u8) << 1;
        bytes[1] = found.decision;
        bytes[2..].copy_from_slice(&found.set.to_be_bytes());
    }
    0
}

fn push_local(text: &mut Vec<u8>, place: usize) {
    text.extend([b'1' + place as u8 / 8, b'.', b'0' + place as u8 % 8]);
}

fn push_line(text: &mut Vec<u8>, place: usize, mark: u8, found: &Finding) {
    let yes_no = |holds| if holds { b'y' } else { b'n' };
    push_local(text, place);
    text.extend([b' ', b"wac"[mark as usize], b' ', yes_no(found.reached), b' ']);
    if found.set == 0 {
        text.push(b'-');
    }
    let mut rest = found.set;
    while rest != 0 {
        push_local(text, rest.trailing_zeros() as usize);
        rest &= rest - 1;
        if rest != 0 {
            text.push(b',');
        }
    }
    text.extend([b' ', yes_no(found.committable), b' ']);
    text.extend_from_slice(["-", "abort", "commit", "blocked"][found.decision as usize].as_bytes());
    text.push(b'\n');
}

fn report(judged: &Judgement) -> Vec<u8> {
    let mut text = Vec::with_capacity(4096);
    text.extend_from_slice(b"sheet ");
    push_number(&mut text, judged.sheet.sites.into());
    text.extend_from_slice(b" sites ");
    push_number(&mut text, judged.states as u32);
    text.extend_from_slice(b" states\n");
    for (site, &count) in judged.sheet.counts.iter().enumerate() {
        for place in (8 * site..).take(count as usize) {
            push_line(&mut text, place, judged.sheet.marks[place], &judged.findings[place]);
        }
    }
    match judged.witness {
        [_, _, 0] => text.extend_from_slice(b"verdict nonblocking\n"),
        [site, state, condition] => {
            text.extend_from_slice(b"verdict blocking at ");
            text.extend([b'0' + site, b'.', b'0' + state]);
            text.extend_from_slice(b" condition ");
            text.extend([b'0' + condition, b'\n']);
        }
    }
    match judged.tolerance {
        0 => text.extend_from_slice(b"tolerance not stated\n"),
        stops => {
            text.extend_from_slice(b"tolerance ");
            text.extend([b'0' + stops, b'\n']);
        }
    }
    text
}

fn refused(ground: u8) -> Vec<u8> {
    let mut text = b"refused ".to_vec();
    push_number(&mut text, ground.into());
    text.push(b'\n');
    text
}

/// The longest report.
const LONGEST: usize = 3731;

/// `fj_sheet_report`.
pub fn sheet_report(bytes: &[u8], words: &mut [u64], room: &mut [u8]) -> usize {
    if room.len() < LONGEST {
        return 0;
    }
    let judged = judge(in_words, bytes, words);
    put(&judged.map_or_else(refused, |judged| report(&judged)), room)
}
