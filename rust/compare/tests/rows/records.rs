//! "Event record" and its grounds, 10 to 15: the reader's and the writer's.

use super::words::*;
use compare::inputs::pattern;
use compare::journal::Journaling;

/// What the reader answers, and the six fields. Where it refuses, it leaves them as they were; two
/// more bytes of room it leaves always.
fn read(program: Journaling, journal: &[u8], at: usize) -> (u8, Vec<u8>) {
    let mut fields = pattern(8);
    let ground = (program.read)(journal, at, &mut fields);
    assert_eq!(fields[6..], pattern(8)[6..]);
    if ground != 0 {
        assert_eq!(fields, pattern(8), "{journal:?}");
    }
    (ground, fields[..6].to_vec())
}

/// Each ground of the reader alone, then every two that one record can have. "10: fewer than 2 bytes,
/// or (after 11) fewer than 9."
#[test]
fn grounds_of_the_reader() {
    let rows: [(u8, &[u8]); 31] = [
        (0, &[0, 7, 1, 1, 1, 0, 0, 1, 0]),
        (0, &[0, 7, 1, 1, 1, 0, 0, 1, 0, 255]),
        (10, &[]),
        (10, &[0]),
        (10, &[0, 7]),
        (10, &[0, 7, 1, 1, 1, 0, 0, 1]),
        (11, &[0, 6, 1, 1, 1, 0, 0, 1, 0]),
        (11, &[0, 8, 1, 1, 1, 0, 0, 1, 0, 0]),
        (11, &[1, 7, 1, 1, 1, 0, 0, 1, 0]),
        (11, &[7, 0, 1, 1, 1, 0, 0, 1, 0]),
        (12, &[0, 7, 0, 1, 1, 0, 0, 1, 0]),
        (12, &[0, 7, 2, 1, 1, 0, 0, 1, 0]),
        (13, &[0, 7, 1, 0, 1, 0, 0, 1, 0]),
        (14, &[0, 7, 1, 1, 9, 0, 0, 1, 0]),
        // 10 for a length that is not there, before all else.
        (10, &[1]),
        // 11 before the other 10.
        (11, &[0, 8]),
        (11, &[0, 6, 1, 1, 1, 0, 0, 1]),
        (11, &[255, 255, 1]),
        // 11 before 12, 13, 14.
        (11, &[0, 8, 2, 1, 1, 0, 0, 1, 0]),
        (11, &[0, 9, 1, 7, 1, 0, 0, 1, 0]),
        (11, &[7, 7, 1, 1, 9, 0, 0, 1, 0]),
        // 10 before 12, 13, 14.
        (10, &[0, 7, 2]),
        (10, &[0, 7, 2, 1, 1, 0, 0, 1]),
        (10, &[0, 7, 1, 7, 1, 0, 0, 1]),
        (10, &[0, 7, 1, 1, 9, 0, 0, 1]),
        // 12 before 13, 14.
        (12, &[0, 7, 2, 7, 1, 0, 0, 1, 0]),
        (12, &[0, 7, 0, 1, 9, 0, 0, 1, 0]),
        (12, &[0, 7, 255, 255, 255, 255, 255, 255, 255]),
        // 13 before 14.
        (13, &[0, 7, 1, 7, 9, 0, 0, 1, 0]),
        (13, &[0, 7, 1, 22, 0, 0, 0, 0, 0]),
        (13, &[0, 7, 1, 255, 255, 255, 255, 255, 255]),
    ];
    for (program, (ground, bytes)) in each(JOURNALS, &rows) {
        assert_eq!(read(program, bytes, 0).0, *ground, "{bytes:?}");
    }
}

/// In C the fields need six bytes of room: 15 comes before all else.
#[test]
fn room_for_the_fields() {
    let rows: [&[u8]; 6] = [
        &[0, 7, 1, 1, 1, 0, 0, 1, 0],
        &[],
        &[0, 8],
        &[0, 7, 2, 1, 1, 0, 0, 1, 0],
        &[0, 7, 1, 7, 1, 0, 0, 1, 0],
        &[0, 7, 1, 1, 9, 0, 0, 1, 0],
    ];
    for (program, bytes) in each(JOURNALS, &rows) {
        for room in [0, 5] {
            let mut fields = pattern(room);
            assert_eq!((program.read)(bytes, 0, &mut fields), 15, "{bytes:?}");
            assert_eq!(fields, pattern(room));
        }
    }
}

/// "Each record is read from the part of the journal where the last one ended." Past the end there
/// are no bytes.
#[test]
fn places_in_a_journal() {
    let journal =
        [[0, 7, 1, 1, 1, 0, 0, 1, 0], [0, 7, 1, 6, 2, 0, 0, 0, 0], [0, 7, 2, 6, 2, 0, 0, 0, 0]];
    let journal = [&journal.concat()[..], &[0, 7]].concat();
    for program in JOURNALS {
        assert_eq!(read(program, &journal, 0), (0, vec![1, 1, 0, 0, 1, 0]));
        assert_eq!(read(program, &journal, 9), (0, vec![6, 2, 0, 0, 0, 0]));
        let refused = [(18, 12), (27, 10), (28, 10), (29, 10), (30, 10), (usize::MAX, 10), (1, 11)];
        for (at, ground) in refused {
            assert_eq!(read(program, &journal, at).0, ground, "{at}");
        }
    }
}

/// The lowest and the highest number that a field may have.
type Range = (u8, u8);

const ZERO: Range = (0, 0);
const SITE: Range = (1, 8);
const VOTE: Range = (1, 2);
const ANY: Range = (0, 255);

/// "S: acting site, 1..8. O: sender or noticed site, 1..8, else 0. M: message 1..8 in a delivery, else
/// 0. V: 1 yes, 2 no at begin and delivery of Start, else 0. X: any set for 17 to 21, else 0." The
/// fields K S O M V X of a record, and what each but K may be while the others stay.
const FIELDS: [([u8; 6], [Range; 5]); 13] = [
    ([BEGIN, 1, 0, 0, AYE, 0], [SITE, ZERO, ZERO, VOTE, ZERO]),
    ([DELIVER, 2, 1, START, NAY, 0], [SITE, SITE, (1, 1), VOTE, ZERO]),
    ([DELIVER, 1, 2, YES, 0, 0], [SITE, SITE, (2, 8), ZERO, ZERO]),
    ([DELIVER, 1, 2, NO, 0, 0], [SITE, SITE, (2, 8), ZERO, ZERO]),
    ([DELIVER, 2, 1, MOVE_P, 0, 0], [SITE, SITE, (2, 8), ZERO, ZERO]),
    ([DELIVER, 2, 1, MOVE_W, 0, 0], [SITE, SITE, (2, 8), ZERO, ZERO]),
    ([DELIVER, 1, 2, ACK, 0, 0], [SITE, SITE, (2, 8), ZERO, ZERO]),
    ([DELIVER, 2, 1, COMMIT, 0, 0], [SITE, SITE, (2, 8), ZERO, ZERO]),
    ([DELIVER, 2, 1, ABORT, 0, 0], [SITE, SITE, (2, 8), ZERO, ZERO]),
    ([NOTICE, 2, 1, 0, 0, 0], [SITE, SITE, ZERO, ZERO, ZERO]),
    ([TAKE_OVER, 2, 0, 0, 0, 0], [SITE, ZERO, ZERO, ZERO, ZERO]),
    ([CONCLUDE, 2, 0, 0, 0, 0], [SITE, ZERO, ZERO, ZERO, ZERO]),
    ([STOP, 2, 0, 0, 0, 0], [SITE, ZERO, ZERO, ZERO, ZERO]),
];

/// Reads and writes a record in which one field has each of its 256 values in turn.
fn hold(fields: [u8; 6], ranges: [Range; 5]) {
    for (place, (lowest, highest)) in (1..).zip(ranges) {
        for (program, value) in each(JOURNALS, &(0..=255).collect::<Vec<u8>>()) {
            let mut fields = fields;
            fields[place] = *value;
            let ground = if (lowest..=highest).contains(value) { 0 } else { 14 };
            let record = [&[0, 7, 1][..], &fields].concat();
            let found = read(program, &record, 0);
            assert_eq!(found.0, ground, "{fields:?}");
            assert!(ground != 0 || found.1 == fields);
            let room = if ground == 0 { record } else { pattern(9) };
            assert_eq!(write(program, fields, 9, 0), (ground, room), "{fields:?}");
        }
    }
}

#[test]
fn ranges_of_the_fields() {
    for (fields, ranges) in FIELDS {
        hold(fields, ranges);
        let ([k, s, o, m, v, _], [of_s, of_o, of_m, of_v, _]) = (fields, ranges);
        if k != STOP {
            hold([DURING + k, s, o, m, v, 0b101], [of_s, of_o, of_m, of_v, ANY]);
        }
    }
}

/// "K: 1 begin, 2 deliver, 3 notice, 4 take over, 5 conclude, 6 stop, 17 to 21 a stop during 1 to 5."
/// Any other is 13, here with an S that is 14.
#[test]
fn kinds_of_record() {
    let known = [1, 2, 3, 4, 5, 6, 17, 18, 19, 20, 21];
    for (program, k) in each(JOURNALS, &(0..=255).collect::<Vec<u8>>()) {
        let ground = if known.contains(k) { 14 } else { 13 };
        assert_eq!(read(program, &[0, 7, 1, *k, 0, 0, 0, 0, 0], 0).0, ground, "{k}");
        assert_eq!(write(program, [*k, 0, 0, 0, 0, 0], 9, 0).0, ground, "{k}");
    }
}

/// What the writer answers, and what it leaves of a room of so many bytes.
fn write(
    program: Journaling,
    [k, s, o, m, v, x]: [u8; 6],
    length: usize,
    at: usize,
) -> (u8, Vec<u8>) {
    let mut room = pattern(length);
    ((program.write)(k, s, o, m, v, x, &mut room, at), room)
}

/// "The writer tests 14 (S and O too), then 15", in C after 13. Each alone, then every two: the
/// fields, the length of the room, and the place in it.
#[test]
fn grounds_of_the_writer() {
    let rows = [
        (13, [7, 1, 0, 0, 0, 0], 9, 0),
        (14, [STOP, 9, 0, 0, 0, 0], 9, 0),
        (15, [STOP, 1, 0, 0, 0, 0], 8, 0),
        (15, [STOP, 1, 0, 0, 0, 0], 0, 0),
        (15, [STOP, 1, 0, 0, 0, 0], 20, 12),
        (15, [STOP, 1, 0, 0, 0, 0], 20, 20),
        (15, [STOP, 1, 0, 0, 0, 0], 20, 21),
        (15, [STOP, 1, 0, 0, 0, 0], 20, usize::MAX),
        (13, [7, 9, 0, 0, 0, 0], 9, 0),
        (13, [0, 1, 0, 0, 0, 1], 9, 0),
        (13, [7, 1, 0, 0, 0, 0], 8, 0),
        (14, [STOP, 9, 0, 0, 0, 0], 8, 0),
        (14, [NOTICE, 1, 0, 0, 0, 0], 0, 0),
        (14, [DELIVER, 2, 9, MOVE_P, 0, 0], 20, 12),
        (14, [DELIVER, 2, 1, 9, 0, 0], 20, usize::MAX),
        (14, [DELIVER, 2, 1, START, 0, 0], 8, 0),
        (14, [BEGIN, 1, 0, 0, AYE, 1], 8, 0),
    ];
    for (program, (ground, fields, length, at)) in each(JOURNALS, &rows) {
        let expected = (*ground, pattern(*length));
        assert_eq!(write(program, *fields, *length, *at), expected, "{fields:?} {length} {at}");
    }
}

/// "The writer fills the next nine bytes of the room that is left, no others."
#[test]
fn the_nine_bytes_that_are_written() {
    for (program, at) in each(JOURNALS, &[0, 3, 11]) {
        let (ground, room) = write(program, [18, 8, 1, 1, 2, 0xA7], 20, *at);
        let before = pattern(20);
        let record = [0, 7, 1, 18, 8, 1, 1, 2, 0xA7];
        let expected = [&before[..*at], &record, &before[at + 9..]].concat();
        assert_eq!((ground, room), (0, expected));
    }
}
