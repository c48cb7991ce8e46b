//! "Grounds for refusal" of a single step: when a record is sound, who may be named, and which ground
//! is given where a call has two faults.

use super::words::*;
use compare::inputs::pattern;
use compare::site::Call;

/// Steps of every sort, which a sound record takes or refuses, but never with 1.
const STEPS: [[u8; 4]; 6] = [
    [BEGIN, 0, 0, AYE],
    [DELIVER, 1, START, AYE],
    [DELIVER, 1, MOVE_P, 0],
    [NOTICE, 1, 0, 0],
    [TAKE_OVER, 0, 0, 0],
    [CONCLUDE, 0, 0, 0],
];

/// "It is sound when n is 2..8, number 1..n, leader 1..own number, no set names itself or a site
/// above n."
#[test]
fn records_that_are_not_sound() {
    let records: [Site; 20] = [
        [0, 1, Q, 1, 0, 0, 0, 0],
        [1, 1, Q, 1, 0, 0, 0, 0],
        [9, 1, Q, 1, 0, 0, 0, 0],
        [255, 1, Q, 1, 0, 0, 0, 0],
        [3, 0, Q, 1, 0, 0, 0, 0],
        [3, 0, Q, 0, 0, 0, 0, 0],
        [3, 4, Q, 1, 0, 0, 0, 0],
        [3, 255, Q, 1, 0, 0, 0, 0],
        [3, 2, Q, 0, 0, 0, 0, 0],
        [3, 2, Q, 3, 0, 0, 0, 0],
        [3, 2, Q, 255, 0, 0, 0, 0],
        [3, 1, Q, 2, 0, 0, 0, 0],
        [3, 2, Q, 1, 0b0010, 0, 0, 0],
        [3, 2, Q, 1, 0, 0b0010, 0, 0],
        [3, 2, Q, 1, 0, 0, 0b0010, 0],
        [3, 2, Q, 1, 0, 0, 0, 0b0010],
        [3, 2, Q, 1, 0b1000, 0, 0, 0],
        [3, 2, Q, 1, 0, 0b1000, 0, 0],
        [3, 2, Q, 1, 0, 0, 0b1000, 0],
        [3, 2, Q, 1, 0, 0, 0, 0b1000],
    ];
    for (program, site) in each(SITES, &records) {
        for fields in STEPS {
            assert_eq!(step(program, *site, fields), "1", "{site:?} {fields:?}");
        }
    }
}

#[test]
fn records_that_are_just_sound() {
    let records: [Site; 6] = [
        [2, 1, Q, 1, 0b10, 0b10, 0b10, 0b10],
        [2, 2, C, 2, 0b01, 0b01, 0b01, 0b01],
        [3, 2, A, 2, 0b101, 0b101, 0b101, 0b101],
        [8, 1, W, 1, 0b11111110, 0b11111110, 0b11111110, 0b11111110],
        [8, 8, P, 8, 0b01111111, 0b01111111, 0b01111111, 0b01111111],
        [8, 8, P, 1, 0, 0, 0, 0],
    ];
    for (program, site) in each(SITES, &records) {
        for fields in STEPS {
            assert_ne!(step(program, *site, fields), "1", "{site:?} {fields:?}");
        }
    }
}

/// Ground 2: "site outside 1..n, notice about itself, unknown message or wrong ends".
#[test]
fn wrong_names() {
    let steps = [
        [NOTICE, 0, 0, 0],
        [NOTICE, 2, 0, 0],
        [NOTICE, 4, 0, 0],
        [NOTICE, 255, 0, 0],
        [DELIVER, 0, MOVE_P, 0],
        [DELIVER, 4, ACK, 0],
        [DELIVER, 255, ACK, 0],
        [DELIVER, 2, ACK, 0],
        [DELIVER, 0, START, AYE],
        [DELIVER, 3, START, AYE],
        [DELIVER, 1, 0, 0],
        [DELIVER, 1, 9, 0],
        [DELIVER, 1, 255, 0],
        [DELIVER, 1, YES, 0],
        [DELIVER, 3, YES, 0],
        [DELIVER, 3, NO, 0],
        [DELIVER, 1, ACK, 0],
        [DELIVER, 3, ABORT, 0],
    ];
    for (program, fields) in each(SITES, &steps) {
        assert_eq!(step(program, [3, 2, W, 1, 0, 0, 0, 0], *fields), "2", "{fields:?}");
    }
}

/// Site 2 of 3 in q; the same with bytes that are no record (too few, too many, a state above 4);
/// the same and not sound.
const SOUND: &[u8] = &[3, 2, Q, 1, 0, 0, 0, 0];
const SEVEN: &[u8] = &[3, 2, Q, 1, 0, 0, 0];
const NINE: &[u8] = &[3, 2, Q, 1, 0, 0, 0, 0, 0];
const NO_STATE: &[u8] = &[3, 2, 5, 1, 0, 0, 0, 0];
const UNSOUND: &[u8] = &[3, 2, Q, 3, 0, 0, 0, 0];

/// Steps that are refused at the sound one with 13, 14, 2, 5 and 6.
const UNKNOWN: [u8; 4] = [6, 0, 0, 0];
const NO_VOTE: [u8; 4] = [BEGIN, 0, 0, 0];
const ITSELF: [u8; 4] = [NOTICE, 2, 0, 0];
const OUT_OF_TURN: [u8; 4] = [BEGIN, 0, 0, AYE];
const CONFLICT: [u8; 4] = [DELIVER, 1, MOVE_P, 0];

/// Each fault alone, then every two faults that one call can have; the third number is the room for
/// the answer, of which a step needs six bytes. The order is 15, 1 (no record), 13, 14, 1 (not
/// sound), 2, 5, 6. No step can have both 2 and 5, nor 5 and 6.
const ORDER: [(u8, &[u8], [u8; 4], usize); 44] = [
    (15, SOUND, [NOTICE, 1, 0, 0], 5),
    (1, SEVEN, [NOTICE, 1, 0, 0], 6),
    (1, NINE, [NOTICE, 1, 0, 0], 6),
    (1, NO_STATE, [NOTICE, 1, 0, 0], 6),
    (13, SOUND, UNKNOWN, 6),
    (14, SOUND, NO_VOTE, 6),
    (1, UNSOUND, [NOTICE, 1, 0, 0], 6),
    (2, SOUND, ITSELF, 6),
    (5, SOUND, OUT_OF_TURN, 6),
    (6, SOUND, CONFLICT, 6),
    (15, SEVEN, [NOTICE, 1, 0, 0], 5),
    (15, NO_STATE, [NOTICE, 1, 0, 0], 0),
    (15, SOUND, UNKNOWN, 5),
    (15, SOUND, NO_VOTE, 5),
    (15, UNSOUND, [NOTICE, 1, 0, 0], 5),
    (15, SOUND, ITSELF, 5),
    (15, SOUND, OUT_OF_TURN, 5),
    (15, SOUND, CONFLICT, 5),
    (1, SEVEN, UNKNOWN, 6),
    (1, SEVEN, NO_VOTE, 6),
    (1, SEVEN, ITSELF, 6),
    (1, SEVEN, OUT_OF_TURN, 6),
    (1, SEVEN, CONFLICT, 6),
    (1, NO_STATE, UNKNOWN, 6),
    (1, NO_STATE, NO_VOTE, 6),
    (1, NO_STATE, ITSELF, 6),
    (1, NO_STATE, OUT_OF_TURN, 6),
    (1, NO_STATE, CONFLICT, 6),
    (13, SOUND, [0, 9, 9, 9], 6),
    (13, SOUND, [6, 0, 0, 3], 6),
    (13, SOUND, [17, 0, 0, 0], 6),
    (13, UNSOUND, UNKNOWN, 6),
    (13, SOUND, [6, 2, 0, 0], 6),
    (14, UNSOUND, NO_VOTE, 6),
    (14, UNSOUND, [NOTICE, 1, 1, 0], 6),
    (14, SOUND, [NOTICE, 2, 0, 1], 6),
    (14, SOUND, [DELIVER, 9, 9, AYE], 6),
    (14, SOUND, [BEGIN, 1, 0, AYE], 6),
    (14, SOUND, [TAKE_OVER, 0, 0, 1], 6),
    (14, SOUND, [DELIVER, 1, MOVE_P, AYE], 6),
    (1, UNSOUND, ITSELF, 6),
    (1, UNSOUND, OUT_OF_TURN, 6),
    (1, UNSOUND, CONFLICT, 6),
    (2, SOUND, [DELIVER, 3, MOVE_P, 0], 6),
];

/// A refused call leaves the site, and an answer of outcome 2 and zeros, but after 15 none at all.
#[test]
fn order_of_the_grounds() {
    for (program, (ground, site, fields, room)) in each(SITES, &ORDER) {
        let call = Call { site: site.to_vec(), fields: *fields, room: *room };
        let answer = if *ground == 15 { pattern(*room) } else { vec![2, 0, 0, 0, 0, 0] };
        let expected = (*ground, site.to_vec(), answer);
        assert_eq!(call.made(program), expected, "{site:?} {fields:?} {room}");
    }
}

/// Ground 14 in a step: "V: 1 yes, 2 no at begin and delivery of Start, else 0", and a field that
/// the step does not use is 0. A Start without a vote has a wrong V, whatever its state and ends.
#[test]
fn fields_of_a_step() {
    let wrong = [
        [BEGIN, 0, 0, 0],
        [BEGIN, 0, 0, 3],
        [BEGIN, 1, 0, AYE],
        [BEGIN, 0, 1, AYE],
        [DELIVER, 1, START, 0],
        [DELIVER, 1, START, 3],
        [DELIVER, 9, START, 0],
        [DELIVER, 3, YES, AYE],
        [DELIVER, 3, NO, NAY],
        [DELIVER, 1, MOVE_P, AYE],
        [DELIVER, 1, MOVE_W, 255],
        [DELIVER, 3, ACK, AYE],
        [DELIVER, 1, COMMIT, AYE],
        [DELIVER, 1, ABORT, NAY],
        [DELIVER, 1, 0, AYE],
        [DELIVER, 1, 9, AYE],
        [NOTICE, 1, 1, 0],
        [NOTICE, 1, 0, AYE],
        [TAKE_OVER, 1, 0, 0],
        [TAKE_OVER, 0, 1, 0],
        [TAKE_OVER, 0, 0, AYE],
        [CONCLUDE, 1, 0, 0],
        [CONCLUDE, 0, 1, 0],
        [CONCLUDE, 0, 0, AYE],
    ];
    for (program, fields) in each(SITES, &wrong) {
        for state in STATES {
            let found = step(program, [3, 2, state, 1, 0b001, 0, 0, 0], *fields);
            assert_eq!(found, "14", "{state} {fields:?}");
        }
    }
}

/// Ground 13 in a step: K is 1 to 5.
#[test]
fn kinds_of_step() {
    for (program, k) in each(SITES, &[0, 6, 7, 16, 17, 18, 19, 20, 21, 22, 255]) {
        assert_eq!(step(program, [3, 2, Q, 1, 0, 0, 0, 0], [*k, 0, 0, 0]), "13", "{k}");
    }
}
