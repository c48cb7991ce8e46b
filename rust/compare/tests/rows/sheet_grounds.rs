//! "Grounds for refusal" of a sheet, 20 to 31: what each is about, what it leaves, and which is given
//! where a sheet has two faults.

use super::words::*;
use compare::inputs::drafts::{product, Draft, Move};
use compare::sheet::{Judging, ROOM};

/// The judge's answer to these bytes. Refused, "all else zero: 20 to 29 leave the words; 30 and 31 set
/// the first 4,096 to zero"; later words stay always. The report prints "`refused N` only", and leaves
/// the words as the judge does.
fn judged(program: Judging, bytes: &[u8]) -> u8 {
    let (mut words, mut out) = (vec![5; 4098], vec![9; 208]);
    let ground = (program.judge)(bytes, &mut words, &mut out);
    assert_eq!((&words[4096..], &out[206..]), (&[5, 5][..], &[9, 9][..]));
    match ground {
        0 => assert_ne!(out[0], 0),
        20..=29 => assert!(words.iter().all(|&word| word == 5)),
        _ => assert!(words[..4096].iter().all(|&word| word == 0)),
    }
    assert!(ground == 0 || out[..206].iter().all(|&byte| byte == 0));
    let (mut again, mut text) = (vec![5; 4098], vec![9; ROOM]);
    let length = (program.report)(bytes, &mut again, &mut text);
    let refused = format!("refused {ground}\n");
    assert!(ground == 0 || text[..length] == *refused.as_bytes());
    assert_eq!(again, words);
    ground
}

fn hold(rows: &[(u8, Draft)]) {
    for (program, (ground, sheet)) in each(JUDGES, rows) {
        assert_eq!(judged(program, &sheet.bytes()), *ground, "{sheet:?}");
    }
}

/// A sheet of two sites with two and three states, one of which is not reached: site 2 moves and
/// tells site 1, which commits. L is 38.
fn small() -> Draft {
    let marks = vec![vec![WORKING, COMMITTED], vec![WORKING, WORKING, ABORTED]];
    Draft::new(marks, 1, vec![go(2, 0, 1, 1, &[0], &[1]), go(1, 0, 1, 0, &[1], &[])])
}

/// The small sheet with a change.
fn but(change: impl FnOnce(&mut Draft)) -> Draft {
    let mut sheet = small();
    change(&mut sheet);
    sheet
}

/// The small sheet with one more transition.
fn and(more: Move) -> Draft {
    but(|sheet| sheet.moves.push(more))
}

/// "20: fewer than 4,096 words lent"; in C 15 first, for fewer than 206 bytes of room, and then
/// nothing is touched. Both come before whatever the bytes show, 21 and 22 here.
#[test]
fn words_and_room() {
    let rows = [(20, 4095, 206), (20, 0, 206), (15, 4096, 205), (15, 4095, 205), (15, 0, 0)];
    let second_version = but(|sheet| sheet.version = 2);
    for (program, (ground, lent, room)) in each(JUDGES, &rows) {
        for bytes in [small().bytes(), vec![], vec![0], second_version.bytes()] {
            let (mut words, mut out) = (vec![5; *lent], vec![9; *room]);
            assert_eq!((program.judge)(&bytes, &mut words, &mut out), *ground, "{bytes:?}");
            let left = if *ground == 15 { 9 } else { 0 };
            assert_eq!((words, out), (vec![5; *lent], vec![left; *room]));
        }
    }
}

/// "21: fewer than 2 bytes, not exactly 2 + L, or L = 0. 22: version not 1. 23: site or state count
/// missing or outside its range. 24: no transition count, count over 64, or L not what the counts
/// give."
#[test]
fn bytes_that_end_early() {
    let rows: [(u8, &[u8]); 18] = [
        (21, &[]),
        (21, &[0]),
        (21, &[0, 0]),
        (21, &[0, 0, 1]),
        (21, &[0, 1]),
        (21, &[0, 2, 1]),
        (21, &[1, 0, 1]),
        (22, &[0, 1, 0]),
        (22, &[0, 1, 2]),
        (23, &[0, 1, 1]),
        (23, &[0, 2, 1, 2]),
        (23, &[0, 3, 1, 2, 1]),
        (24, &[0, 4, 1, 2, 1, 1]),
        (24, &[0, 5, 1, 2, 1, 1, 0]),
        (24, &[0, 9, 1, 2, 1, 1, 0, 0, 0, 0, 0]),
        (24, &[0, 10, 1, 2, 1, 1, 0, 0, 0, 0, 0, 0]),
        (24, &[0, 11, 1, 2, 1, 1, 0, 0, 0, 0, 0, 0, 1]),
        (0, &[0, 11, 1, 2, 1, 1, 0, 0, 0, 0, 0, 0, 0]),
    ];
    for (program, (ground, bytes)) in each(JUDGES, &rows) {
        assert_eq!(judged(program, bytes), *ground, "{bytes:?}");
    }
}

#[test]
fn lengths_and_counts() {
    let copies = |count| but(|sheet| sheet.moves.resize(count, sheet.moves[0]));
    let counts = |counts: &[u8]| {
        Draft::new(counts.iter().map(|&n| vec![WORKING; n.into()]).collect(), 0, vec![])
    };
    hold(&[
        (0, small()),
        (21, but(|sheet| sheet.excess = -1)),
        (21, but(|sheet| sheet.excess = 1)),
        (21, but(|sheet| sheet.excess = 256)),
        (22, but(|sheet| sheet.version = 0)),
        (22, but(|sheet| sheet.version = 255)),
        (23, but(|sheet| sheet.sites = Some(0))),
        (23, but(|sheet| sheet.sites = Some(1))),
        (23, but(|sheet| sheet.sites = Some(5))),
        (23, but(|sheet| sheet.sites = Some(255))),
        (23, counts(&[1])),
        (23, counts(&[1, 1, 1, 1, 1])),
        (23, counts(&[0, 1])),
        (23, counts(&[9, 1])),
        (23, counts(&[1, 0])),
        (23, counts(&[1, 1, 1, 9])),
        (23, but(|sheet| sheet.counts[1] = 255)),
        (0, counts(&[1, 8])),
        (0, counts(&[8, 1, 1, 8])),
        (24, but(|sheet| sheet.counts[1] = 2)),
        (24, but(|sheet| sheet.counts[1] = 4)),
        (24, but(|sheet| sheet.cut = 1)),
        (24, but(|sheet| sheet.cut = 12)),
        (24, but(|sheet| sheet.pad = 1)),
        (24, but(|sheet| sheet.pad = 12)),
        (24, but(|sheet| sheet.transitions = Some(0))),
        (24, but(|sheet| sheet.transitions = Some(1))),
        (24, but(|sheet| sheet.transitions = Some(3))),
        (24, but(|sheet| sheet.transitions = Some(255))),
        (24, copies(65)),
        (0, copies(64)),
    ]);
}

/// "25: mark, site, state or vote outside its range." The states of a transition range over its own
/// site's count, and every mark is looked at, reached or not.
#[test]
fn ranges() {
    hold(&[
        (25, but(|sheet| sheet.marks[0][0] = 3)),
        (25, but(|sheet| sheet.marks[1][2] = 255)),
        (25, and(go(0, 0, 1, 0, &[2], &[]))),
        (25, and(go(3, 0, 1, 0, &[2], &[]))),
        (25, and(go(255, 0, 1, 0, &[2], &[]))),
        (25, and(go(1, 2, 1, 0, &[2], &[]))),
        (25, and(go(1, 0, 2, 0, &[2], &[]))),
        (25, and(go(2, 3, 1, 0, &[2], &[]))),
        (25, and(go(2, 0, 3, 0, &[2], &[]))),
        (25, and(go(2, 0, 255, 0, &[2], &[]))),
        (25, and(go(2, 0, 2, 2, &[2], &[]))),
        (25, and(go(2, 0, 2, 255, &[2], &[]))),
        (0, and(go(2, 0, 2, 1, &[2], &[]))),
    ]);
}

/// "26: a transition reads nothing. 27: a message read by two sites." All transitions are looked at,
/// possible or not. One site may read a message twice, and one that nobody reads is fine.
#[test]
fn readings() {
    hold(&[
        (26, and(go(2, 1, 2, 0, &[], &[]))),
        (26, and(go(2, 2, 2, 0, &[], &[5]))),
        (27, and(go(1, 0, 1, 0, &[0], &[]))),
        (27, and(go(1, 0, 1, 0, &[31, 0], &[]))),
        (27, but(|sheet| sheet.moves.extend([1, 2].map(|site| go(site, 0, 1, 0, &[31], &[]))))),
        (0, and(go(2, 0, 2, 0, &[0], &[]))),
        (0, but(|sheet| sheet.first = 0b1000_0001)),
        (0, and(go(2, 1, 2, 0, &[2], &[30]))),
    ]);
}

/// "28: abort to non-abort, or commit to non-commit", possible or not.
#[test]
fn final_states() {
    let between = |from, to| {
        let marks = vec![vec![WORKING], vec![WORKING, from, to]];
        Draft::new(marks, 1, vec![go(2, 0, 1, 0, &[0], &[]), go(2, 1, 2, 0, &[1], &[])])
    };
    hold(&[
        (28, between(ABORTED, WORKING)),
        (28, between(ABORTED, COMMITTED)),
        (28, between(COMMITTED, WORKING)),
        (28, between(COMMITTED, ABORTED)),
        (0, between(ABORTED, ABORTED)),
        (0, between(COMMITTED, COMMITTED)),
        (0, between(WORKING, ABORTED)),
        (0, between(WORKING, COMMITTED)),
        (0, between(WORKING, WORKING)),
    ]);
}

/// Site 2 has eight working states, and these transitions between them, each with its own message.
fn eight(ways: &[(u8, u8)], first: u32) -> Draft {
    let moves = (0..).zip(ways).map(|(message, &(from, to))| go(2, from, to, 0, &[message], &[]));
    Draft::new(vec![vec![WORKING], vec![WORKING; 8]], first, moves.collect())
}

/// "29: a cycle", of any length up to 8, from any state, whatever the messages allow. A chain of
/// eight states is none, nor are two ways from one state to another.
#[test]
fn cycles() {
    let chain = [(0, 1), (1, 2), (2, 3), (3, 4), (4, 5), (5, 6), (6, 7)];
    let ring = [&chain[..], &[(7, 0)]].concat();
    let downwards = [(7, 6), (6, 5), (5, 4), (4, 3), (3, 2), (2, 1), (1, 0)];
    for first in [0, u32::MAX] {
        hold(&[
            (29, eight(&[(0, 0)], first)),
            (29, eight(&[(7, 7)], first)),
            (29, eight(&[(0, 1), (1, 0)], first)),
            (29, eight(&[(5, 6), (6, 7), (7, 5)], first)),
            (29, eight(&[(0, 1), (1, 2), (2, 1)], first)),
            (29, eight(&ring, first)),
            (0, eight(&chain, first)),
            (0, eight(&downwards, first)),
            (0, eight(&[(0, 1), (0, 2), (1, 3), (2, 3), (0, 3)], first)),
        ]);
    }
}

/// "30: more than 4,096 reachable states": that many, and one more.
#[test]
fn reachable_states() {
    let full = product(&[8, 8, 8, 8], false);
    for program in JUDGES {
        assert!(report(program, &full.bytes()).starts_with("sheet 4 sites 4096 states\n"));
    }
    hold(&[(0, full), (30, product(&[8, 8, 8, 8], true))]);
}

/// What a transition that gives 31 leads to is reachable like any other, and makes the states here
/// too many.
#[test]
fn reachable_by_a_clash() {
    let mut sheet = largest();
    sheet.first |= 1 << 31;
    hold(&[(0, sheet.clone())]);
    sheet.moves.push(go(1, 6, 7, 1, &[6], &[31]));
    hold(&[(30, sheet)]);
}

/// "31: in a reachable state a possible transition writes a message still outstanding after its
/// reading": one outstanding at first, or one written before. What it reads itself it may write again;
/// what is never possible does not count.
#[test]
fn clashes() {
    let first = |first, writes: &[u32]| {
        but(|sheet| {
            sheet.first = first;
            sheet.moves[0] = go(2, 0, 1, 1, &[0], writes);
        })
    };
    let then = |first, reads| {
        but(|sheet| {
            sheet.first = first;
            sheet.moves.push(go(2, 1, 2, 0, &[reads], &[1]));
        })
    };
    hold(&[
        (31, first(0b101, &[2])),
        (31, first(0b101, &[1, 2])),
        (31, first(0b101, &[0, 2])),
        (31, first(0b011, &[1])),
        (31, then(0b101, 2)),
        (0, then(0b001, 2)),
        (0, first(0b001, &[0])),
        (0, first(0b001, &[0, 1, 2])),
        (0, first(0b100, &[2])),
    ]);
}

/// "Both programs take only the first 65,536 bytes": a sheet of that length they see whole, with its
/// wrong version. Of one more byte, the most that L can tell, the program misses the last; the calls
/// take it.
#[test]
fn sheets_about_the_limit() {
    let second_version = |length: usize| {
        let mut bytes = vec![2; length];
        bytes[..2].copy_from_slice(&[255, (length - 2 - 255 * 256) as u8]);
        bytes
    };
    for (program, length) in each(JUDGES, &[65_536, 65_537]) {
        assert_eq!(judged(program, &second_version(*length)), 22);
    }
    assert_eq!(second::report::sheets(&second_version(65_536)), "refused 22\n");
    assert_eq!(second::report::sheets(&second_version(65_537)), "refused 21\n");
}

/// The largest sheet: four sites that each go through eight states by messages of their own.
fn largest() -> Draft {
    let site = |site: u8| {
        (0..7)
            .map(move |from| go(site, from, from + 1, 0, &[u32::from(7 * (site - 1) + from)], &[]))
    };
    Draft::new(vec![vec![WORKING; 8]; 4], (1 << 28) - 1, (1..=4).flat_map(site).collect())
}

/// A change that gives a sheet a ground.
type Fault = fn(&mut Draft);

/// One fault of the largest sheet for each ground. None hides or mends another.
const FAULTS: [(u8, Fault); 11] = [
    (21, |sheet| sheet.excess = -1),
    (22, |sheet| sheet.version = 2),
    (23, |sheet| {
        sheet.counts[3] = 9;
        sheet.marks[3].push(WORKING);
    }),
    (24, |sheet| sheet.moves.resize(65, go(1, 0, 1, 0, &[0], &[]))),
    (25, |sheet| sheet.marks[0][0] = 3),
    (26, |sheet| sheet.moves.insert(0, go(1, 0, 1, 0, &[], &[]))),
    (27, |sheet| sheet.moves.insert(0, go(2, 0, 1, 0, &[0], &[]))),
    (28, |sheet| sheet.marks[2][6] = ABORTED),
    (29, |sheet| sheet.moves.insert(0, go(4, 7, 0, 0, &[27], &[]))),
    (30, |sheet| sheet.moves.insert(0, go(1, 6, 7, 1, &[6], &[]))),
    (31, |sheet| {
        sheet.first |= 1 << 31;
        sheet.moves.insert(0, go(2, 0, 1, 0, &[7], &[31]));
    }),
];

/// "Order: ascending within each group": of every two grounds the lower is given, and 20 before all.
#[test]
fn two_grounds_of_a_sheet() {
    let mut rows = vec![(0, largest())];
    for (place, (ground, fault)) in FAULTS.iter().enumerate() {
        let mut sheet = largest();
        fault(&mut sheet);
        rows.push((*ground, sheet.clone()));
        for (_, higher) in &FAULTS[place + 1..] {
            let mut both = sheet.clone();
            higher(&mut both);
            rows.push((*ground, both));
        }
    }
    hold(&rows);
    for (program, (_, sheet)) in each(JUDGES, &rows) {
        let (mut words, mut out) = (vec![5; 4095], vec![9; 206]);
        assert_eq!((program.judge)(&sheet.bytes(), &mut words, &mut out), 20);
        assert_eq!((words, out), (vec![5; 4095], vec![0; 206]));
    }
}
