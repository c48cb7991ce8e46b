//! "Tables to run and compare": the starred rows.

use super::words::*;
use compare::site::Call;
use fjadrimor::calls::SITE_ANSWER;

#[test]
fn rows_1_and_2() {
    for (program, n) in each(RUNS, &[1, 9]) {
        let mut bytes = vec![7; 138];
        assert_eq!((program.fresh)(*n, &mut bytes), 1);
        assert_eq!(Run(bytes), run(0), "a refused fresh has n 0 everywhere");
    }
}

/// The number of a row, its record, its step, and the ground with the record and the answer afterwards.
type Row = (u8, Site, [u8; 4], (u8, Site, [u8; SITE_ANSWER]));

/// By 02, Ask 4 each answer ends with the lowest site awaited: in row 3 site 2.
#[test]
fn rows_3_to_10() {
    let [in_q, in_w] = [Q, W].map(|state| [3, 2, state, 1, 0, 0, 0, 0]);
    let [first, begun] = [Q, W].map(|state| [8, 1, state, 1, 0, 0, 0, 0]);
    let (prepared, late) = ([3, 3, P, 1, 1, 0, 0, 0], [3, 3, W, 2, 1, 0, 0, 0]);
    let (unasked, gone) = ([3, 2, Q, 1, 1, 0, 0, 0], [3, 2, A, 2, 1, 0, 0, 0]);
    let (last, leads) = ([2, 2, P, 1, 1, 0, 0, 0], [2, 2, P, 2, 1, 0, 0, 0]);
    let posted = [2, 2, C, 2, 1, 0, 0, 0];
    let rows: [Row; 9] = [
        (3, first, [BEGIN, 0, 0, AYE], (0, begun, [0, START, 0b11111110, 7, 7, 2])),
        (4, in_q, [BEGIN, 0, 0, AYE], (5, in_q, [2, 0, 0, 0, 0, 0])),
        (5, in_q, [DELIVER, 1, START, AYE], (0, in_w, [0, YES, 0b1, 1, 0, 0])),
        (6, in_q, [DELIVER, 1, MOVE_P, 0], (6, in_q, [2, 0, 0, 0, 0, 0])),
        (7, late, [DELIVER, 1, MOVE_P, 0], (0, late, [1, 0, 0, 0, 0, 0])),
        (8, prepared, [DELIVER, 2, MOVE_W, 0], (0, late, [0, ACK, 0b10, 1, 0, 0])),
        (9, unasked, [TAKE_OVER, 0, 0, 0], (0, gone, [0, ABORT, 0b100, 1, 0, 0])),
        (10, last, [TAKE_OVER, 0, 0, 0], (0, leads, [0, 0, 0, 0, 0, 0])),
        (10, leads, [CONCLUDE, 0, 0, 0], (0, posted, [0, 0, 0, 0, 0, 0])),
    ];
    for (program, (row, site, fields, (ground, after, answer))) in each(SITES, &rows) {
        let made = Call { site: site.to_vec(), fields: *fields, room: SITE_ANSWER }.made(program);
        assert_eq!(made, (*ground, after.to_vec(), answer.to_vec()), "row {row}");
    }
}

#[test]
fn row_11() {
    for program in JOURNALS {
        let mut fields = [9; 6];
        assert_eq!((program.read)(&[0, 7, 2, 1, 1, 0, 0, 1, 0], 0, &mut fields), 12);
        assert_eq!(fields, [9; 6]);
    }
}
