//! 02, "Write sheets as well as judge them": the parts that the reader hands out, the record that the
//! writer makes of them, and the writer's grounds 23 to 29 and 32, one and two at once.

use super::words::*;
use compare::inputs::pattern;

/// Where the parts begin in their 810 bytes: "sites, 4 state counts, 32 marks (at 8 * (site - 1) +
/// state), 4 bytes first messages (big-endian), the number of transitions, 64 transitions of 12
/// bytes as in the record".
const SITES: usize = 0;
const COUNTS: usize = 1;
const MARKS: usize = 5;
const FIRST: usize = 37;
const NUMBER: usize = 41;
const MOVES: usize = 42;
const PARTS: usize = 810;

/// Two sites with two and three states: site 2 moves and tells site 1, which commits. State 2 of site
/// 2 is not reached.
const RECORD: [u8; 40] = [
    0, 38, 1, 2, 2, 3, 0, 2, 0, 0, 1, 0x80, 0, 0, 1, 2, // to the number of transitions
    2, 0, 1, 1, 0, 0, 0, 1, 0x40, 0, 0, 2, // site 2 reads 0 and writes 30 and 1
    1, 0, 1, 0, 0, 0, 0, 2, 0, 0, 0, 0, // site 1 reads 1
];

/// The same sheet's parts.
fn small() -> Vec<u8> {
    let mut parts = vec![0; PARTS];
    parts[..COUNTS + 2].copy_from_slice(&[2, 2, 3]);
    parts[MARKS + 1] = COMMITTED;
    parts[MARKS + 8 + 2] = ABORTED;
    parts[FIRST..MOVES].copy_from_slice(&[0x80, 0, 0, 1, 2]);
    parts[MOVES..MOVES + 24].copy_from_slice(&RECORD[16..]);
    parts
}

/// What the writer says of parts. Refused, "the room is unchanged"; else it has the record, "its own
/// length tells how long", and is unchanged past it.
fn written(program: compare::parts::Writing, parts: &[u8], room: usize) -> Result<Vec<u8>, u8> {
    let mut left = pattern(room);
    let ground = (program.write)(parts, &mut left);
    if ground != 0 {
        assert_eq!(left, pattern(room), "{ground}");
        return Err(ground);
    }
    let length = 2 + usize::from(left[0]) * 256 + usize::from(left[1]);
    assert_eq!(left[length..], pattern(room)[length..]);
    Ok(left[..length].to_vec())
}

/// The small sheet's parts with other bytes at these places.
fn but(changes: &[(usize, u8)]) -> Vec<u8> {
    let mut parts = small();
    changes.iter().for_each(|&(place, byte)| parts[place] = byte);
    parts
}

/// The small sheet with one more transition.
fn and(transition: [u8; 12]) -> Vec<u8> {
    let mut parts = but(&[(NUMBER, 3)]);
    parts[MOVES + 24..MOVES + 36].copy_from_slice(&transition);
    parts
}

fn refused(rows: &[(u8, Vec<u8>)]) {
    for (program, (ground, parts)) in each(WRITERS, rows) {
        assert_eq!(written(program, parts, 813), Err(*ground), "{parts:?}");
    }
}

/// "Every sheet that the reader accepts up to ground 29 is written with the same bytes, and every
/// sheet written is read back with the same parts."
#[test]
fn both_directions() {
    for program in WRITERS {
        let mut parts = pattern(812);
        assert_eq!((program.parts)(&RECORD, &mut parts), 0);
        assert_eq!(parts, [small(), pattern(812)[810..].to_vec()].concat());
        assert_eq!(written(program, &small(), 50), Ok(RECORD.to_vec()));
    }
}

/// 01's worked sheet, L = 113, whose parts are those of its bytes.
#[test]
fn the_worked_sheet() {
    let record = include_bytes!("../../../../crates/sheets/stdin");
    for program in WRITERS {
        let mut parts = vec![9; PARTS];
        assert_eq!((program.parts)(record, &mut parts), 0);
        assert_eq!(parts[..COUNTS + 4], [2, 4, 4, 0, 0]);
        assert_eq!(parts[MARKS..MARKS + 16], [0, 0, 1, 2, 0, 0, 0, 0, 0, 0, 1, 2, 0, 0, 0, 0]);
        assert_eq!(parts[FIRST..MOVES], record[14..19]);
        assert_eq!(parts[MOVES..MOVES + 96], record[19..]);
        let nothing = [&parts[MARKS + 16..FIRST], &parts[MOVES + 96..]].concat();
        assert!(nothing.iter().all(|&byte| byte == 0));
        assert_eq!(written(program, &parts, 115), Ok(record.to_vec()));
    }
}

/// "15 under 810 bytes, then 21 to 29, parts as they were."
#[test]
fn a_refused_reading_leaves_the_parts() {
    let other = |place: usize, byte: u8| {
        let mut record = RECORD.to_vec();
        record[place] = byte;
        record
    };
    let rows: [(u8, Vec<u8>); 9] = [
        (21, other(1, 37)),
        (22, other(2, 2)),
        (23, other(5, 9)),
        (24, other(15, 1)),
        (25, other(6, 3)),
        (26, other(23, 0)),
        (27, other(23, 2)),
        (28, other(8, ABORTED)),
        (29, other(18, 0)),
    ];
    for (program, (ground, record)) in each(WRITERS, &rows) {
        for (room, expected) in [(810, *ground), (811, *ground), (809, 15), (0, 15)] {
            let mut parts = pattern(room);
            assert_eq!((program.parts)(record, &mut parts), expected, "{record:?}");
            assert_eq!(parts, pattern(room));
        }
    }
}

/// "Parts that are not exactly 810 bytes long are 23."
#[test]
fn other_lengths() {
    let longer = [&small()[..], &[0]].concat();
    refused(&[
        (23, vec![]),
        (23, small()[..809].to_vec()),
        (23, longer),
        (23, vec![0; 810]),
        (23, RECORD.to_vec()),
    ]);
}

/// Counts outside their ranges, and "the count of an absent site with 23".
#[test]
fn counts() {
    let sites = [0, 1, 3, 5, 255].map(|byte| (23, but(&[(SITES, byte)])));
    let states = [0, 9, 255].map(|byte| (23, but(&[(COUNTS + 1, byte)])));
    let absent = [(2, 1), (3, 1), (3, 9), (2, 255)];
    let absent = absent.map(|(site, byte)| (23, but(&[(COUNTS + site, byte)])));
    refused(&[&sites[..], &states, &absent].concat());
}

/// More than 64 transitions, and "a transition beyond their number with 24": any of its bytes.
#[test]
fn transitions() {
    let number = [0, 1, 65, 255].map(|byte| (24, but(&[(NUMBER, byte)])));
    let beyond = (MOVES + 24..PARTS).map(|place| (24, but(&[(place, 1)])));
    refused(&number.into_iter().chain(beyond).collect::<Vec<_>>());
}

/// Marks, sites, states and votes outside their ranges, and "the mark of a state that is not there
/// with 25". A transition that the number counts and that is not there has site 0.
#[test]
fn ranges() {
    let there = [(MARKS, 3), (MARKS + 1, 255), (MARKS + 10, 3)];
    let absent = (2..8).chain(11..32).map(|mark| (MARKS + mark, 1));
    let mut rows: Vec<_> =
        there.into_iter().chain(absent).map(|change| (25, but(&[change]))).collect();
    for change in [(0, 0), (0, 3), (1, 3), (2, 3), (3, 2), (3, 255)] {
        rows.push((25, but(&[(MOVES + change.0, change.1)])));
    }
    rows.push((25, but(&[(NUMBER, 3)])));
    refused(&rows);
}

/// Grounds 26 to 29, as the reader has them.
#[test]
fn the_readers_grounds() {
    refused(&[
        (26, and([2, 1, 2, 0, 0, 0, 0, 0, 0, 0, 0, 0])),
        (27, and([1, 0, 1, 0, 0, 0, 0, 1, 0, 0, 0, 0])),
        (28, but(&[(MARKS, ABORTED)])),
        (28, but(&[(MARKS + 8, COMMITTED)])),
        (29, and([2, 2, 2, 0, 0, 0, 0, 1, 0, 0, 0, 0])),
        (29, and([2, 1, 0, 0, 0x80, 0, 0, 0, 0, 0, 0, 0])),
    ]);
}

/// "32, not enough room for the whole record", in every room that is too small, and in no other. It
/// is "tested after 29".
#[test]
fn rooms() {
    let cycle = and([2, 2, 2, 0, 0, 0, 0, 1, 0, 0, 0, 0]);
    for program in WRITERS {
        for room in 0..RECORD.len() {
            assert_eq!(written(program, &small(), room), Err(32), "{room}");
            assert_eq!(written(program, &cycle, room), Err(29), "{room}");
        }
        for room in RECORD.len()..RECORD.len() + 20 {
            assert_eq!(written(program, &small(), room), Ok(RECORD.to_vec()), "{room}");
        }
    }
}

/// "The writer applies grounds 23 to 29": 30 and 31 are the judge's, and such sheets are written.
#[test]
fn what_only_the_judge_refuses() {
    let clash = but(&[(FIRST + 3, 3)]);
    for program in WRITERS {
        let record = written(program, &clash, 813).expect("it is written");
        let (mut words, mut out) = (vec![0; 4096], vec![0; 206]);
        assert_eq!(fjadrimor::calls::sheet_judge(&record, &mut words, &mut out), 31);
    }
}

/// The least and the longest record: 13 and 813 bytes.
#[test]
fn the_least_and_the_longest() {
    let mut least = vec![0; PARTS];
    least[..3].copy_from_slice(&[2, 1, 1]);
    let mut longest = vec![0; PARTS];
    longest[..5].copy_from_slice(&[4, 8, 8, 8, 8]);
    longest[NUMBER] = 64;
    for transition in longest[MOVES..].chunks_mut(12) {
        transition.copy_from_slice(&[4, 6, 7, 1, 0x80, 0, 0, 0, 0xFF, 0xFF, 0xFF, 0xFF]);
    }
    let body = [&[4, 8, 8, 8, 8][..], &[0; 36], &longest[NUMBER..]].concat();
    for program in WRITERS {
        let record = Ok(vec![0, 11, 1, 2, 1, 1, 0, 0, 0, 0, 0, 0, 0]);
        assert_eq!(written(program, &least, 13), record);
        assert_eq!(written(program, &longest, 813), Ok([&[3, 43, 1][..], &body].concat()));
        assert_eq!(written(program, &longest, 812), Err(32));
    }
}

/// The small sheet with two more transitions of site 2: from 0 to 1 and from 1 to 2.
fn four() -> Vec<u8> {
    let mut parts = but(&[(NUMBER, 4)]);
    parts[MOVES + 24..MOVES + 36].copy_from_slice(&[2, 0, 1, 0, 0, 0, 0, 4, 0, 0, 0, 0]);
    parts[MOVES + 36..MOVES + 48].copy_from_slice(&[2, 1, 2, 0, 0, 0, 0, 8, 0, 0, 0, 0]);
    parts
}

/// One fault of these parts for each ground, two where it can be one of a sheet and one of something
/// where a sheet has nothing. None hides or mends another.
const FAULTS: [(u8, (usize, u8)); 10] = [
    (23, (COUNTS, 9)),
    (23, (COUNTS + 3, 1)),
    (24, (NUMBER, 65)),
    (24, (PARTS - 1, 1)),
    (25, (MARKS + 9, 3)),
    (25, (MARKS + 31, 1)),
    (26, (MOVES + 31, 0)),
    (27, (MOVES + 19, 3)),
    (28, (MARKS, ABORTED)),
    (29, (MOVES + 38, 1)),
];

/// Of every two grounds the lower is given, in a room that is too small, too.
#[test]
fn two_grounds_of_parts() {
    let faulty = |faults: &[(u8, (usize, u8))]| {
        let mut parts = four();
        faults.iter().for_each(|&(_, (place, byte))| parts[place] = byte);
        (faults[0].0, parts)
    };
    let mut rows = Vec::new();
    for (place, one) in FAULTS.iter().enumerate() {
        rows.push(faulty(&[*one]));
        rows.extend(FAULTS[place + 1..].iter().map(|other| faulty(&[*one, *other])));
    }
    refused(&rows);
    for (program, (ground, parts)) in each(WRITERS, &rows) {
        assert_eq!(written(program, parts, 12), Err(*ground), "{parts:?}");
    }
}
