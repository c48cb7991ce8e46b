//! "Grounds for refusal" of an event: when a run is sound, and which ground is given where an event
//! has two faults.

use super::words::*;
use compare::inputs::pattern;

/// The byte of a run at which a site's record begins.
fn place(number: usize) -> usize {
    2 + 8 * (number - 1)
}

/// "It is sound when its records are, each with the run's n and its place's number, stopped sites are
/// within 1..n, known-stopped sets lie within the stopped set, message ends are right, none is
/// addressed to a stopped site."
#[test]
fn runs_that_are_not_sound() {
    let runs = [
        run(3).with(0, 0),
        run(3).with(0, 1),
        run(3).with(0, 2),
        run(3).with(0, 4),
        run(3).with(0, 9),
        run(9),
        run(0),
        run(3).with(place(2), 4),
        run(3).with(place(2) + 1, 3),
        run(3).with(place(2) + 3, 3),
        run(3).with(place(2) + 3, 0),
        run(3).with(place(3) + 5, 0b0100),
        run(3).with(place(3) + 6, 0b1000),
        run(3).with(place(1) + 7, 0b0001),
        run(3).stopped(0b1000),
        run(3).stopped(0b10000001),
        run(3).with(place(2) + 4, 0b001),
        run(3).stopped(0b010).with(place(3) + 4, 0b011),
        run(3).sent(START, 1, 0b001),
        run(3).sent(START, 2, 0b100),
        run(3).sent(START, 1, 0b1000),
        run(3).sent(YES, 1, 0b010),
        run(3).sent(YES, 3, 0b010),
        run(3).sent(NO, 4, 0b001),
        run(3).sent(MOVE_P, 2, 0b001),
        run(3).sent(MOVE_W, 3, 0b100),
        run(3).sent(ACK, 1, 0b100),
        run(3).sent(ACK, 2, 0b100),
        run(3).sent(COMMIT, 2, 0b1100),
        run(3).sent(ABORT, 2, 0b011),
        run(3).sent(9, 1, 0b010),
        run(3).sent(9, 8, 0b001),
        run(3).stopped(0b010).sent(START, 1, 0b110),
        run(3).stopped(0b001).sent(YES, 2, 0b001),
    ];
    for (program, run) in each(RUNS, &runs) {
        for fields in [[BEGIN, 1, 0, 0, AYE, 0], [STOP, 3, 0, 0, 0, 0], [CONCLUDE, 9, 0, 0, 0, 0]] {
            assert_eq!(event(program, run, fields), "1", "{fields:?} in {run:?}");
        }
    }
}

/// A stopped site's record and what it has sent are like any other's; a stop that nobody knows of is
/// none the worse.
#[test]
fn runs_that_are_just_sound() {
    let runs = [
        run(2),
        run(8),
        run(8).stopped(0b11111111),
        run(8).sent(START, 1, 0b11111110).sent(ACK, 8, 0b01111111).sent(MOVE_P, 7, 0b10000000),
        run(3).stopped(0b001).site([3, 2, Q, 1, 0b001, 0b101, 0b101, 0b101]),
        run(3).stopped(0b101).site([3, 1, P, 1, 0b100, 0, 0, 0]).sent(COMMIT, 1, 0b010),
        run(3).site([3, 2, W, 2, 0, 0, 0, 0]),
    ];
    for (program, run) in each(RUNS, &runs) {
        assert_eq!(event(program, run, [STOP, 9, 0, 0, 0, 0]), "2", "{run:?}");
    }
}

/// A run of three in which nothing has happened but that site 3 has stopped; site 2 knows it or not.
fn without_3() -> Run {
    run(3).stopped(0b100)
}

fn knowing() -> Run {
    without_3().site([3, 2, Q, 1, 0b100, 0, 0, 0])
}

/// A run that is not sound: site 1 stands in it with the record of another.
fn unsound(run: Run) -> Run {
    run.with(place(1) + 1, 2)
}

/// Each ground of an event alone.
#[test]
fn grounds_of_a_run() {
    let rows = [
        (1, unsound(run(3)), [STOP, 3, 0, 0, 0, 0]),
        (2, run(3), [STOP, 0, 0, 0, 0, 0]),
        (2, run(3), [STOP, 4, 0, 0, 0, 0]),
        (2, run(3), [BEGIN, 255, 0, 0, AYE, 0]),
        (3, without_3(), [STOP, 3, 0, 0, 0, 0]),
        (4, run(3), [DELIVER, 2, 1, START, AYE, 0]),
        (4, run(3).sent(START, 1, 0b100), [DELIVER, 2, 1, START, AYE, 0]),
        (4, run(3).sent(MOVE_W, 1, 0b010), [DELIVER, 2, 1, ABORT, 0, 0]),
        (4, run(3).sent(ABORT, 2, 0b100), [DELIVER, 3, 1, ABORT, 0, 0]),
        (4, run(3), [NOTICE, 2, 3, 0, 0, 0]),
        (4, knowing(), [NOTICE, 2, 3, 0, 0, 0]),
        (5, run(3), [BEGIN, 2, 0, 0, AYE, 0]),
        (5, run(3), [TAKE_OVER, 2, 0, 0, 0, 0]),
        (5, without_3(), [TAKE_OVER, 2, 0, 0, 0, 0]),
        (5, run(3), [CONCLUDE, 1, 0, 0, 0, 0]),
        (6, run(3).sent(MOVE_P, 1, 0b010), [DELIVER, 2, 1, MOVE_P, 0, 0]),
    ];
    hold(&rows);
}

/// Every two grounds of 1 to 6 that one event can have: the lower is given. What 4 is about, a
/// message or a notice, is never what 5 is about, and so it is with 5 and 6.
#[test]
fn two_grounds_of_a_run() {
    let stranger = run(3).sent(MOVE_P, 1, 0b010);
    let rows = [
        // 1 and another.
        (1, unsound(run(3)), [STOP, 4, 0, 0, 0, 0]),
        (1, unsound(run(3)), [NOTICE, 2, 2, 0, 0, 0]),
        (1, unsound(without_3()), [STOP, 3, 0, 0, 0, 0]),
        (1, unsound(run(3)), [DELIVER, 2, 1, START, AYE, 0]),
        (1, unsound(run(3)), [BEGIN, 2, 0, 0, AYE, 0]),
        (1, unsound(stranger), [DELIVER, 2, 1, MOVE_P, 0, 0]),
        // 2 and 3.
        (2, without_3(), [NOTICE, 3, 3, 0, 0, 0]),
        (2, without_3(), [NOTICE, 3, 4, 0, 0, 0]),
        (2, without_3(), [DELIVER, 3, 1, 9, 0, 0]),
        (2, without_3(), [DELIVER, 3, 2, YES, 0, 0]),
        // 2 and 4.
        (2, run(3), [NOTICE, 2, 2, 0, 0, 0]),
        (2, run(3), [NOTICE, 2, 0, 0, 0, 0]),
        (2, run(3), [NOTICE, 2, 4, 0, 0, 0]),
        (2, run(3), [NOTICE, 4, 3, 0, 0, 0]),
        (2, run(3), [DELIVER, 2, 1, 0, 0, 0]),
        (2, run(3), [DELIVER, 2, 1, 9, 0, 0]),
        (2, run(3), [DELIVER, 2, 1, ACK, 0, 0]),
        (2, run(3), [DELIVER, 2, 4, ACK, 0, 0]),
        (2, run(3), [DELIVER, 4, 1, START, AYE, 0]),
        // 2 and 5.
        (2, run(3), [BEGIN, 4, 0, 0, AYE, 0]),
        (2, run(3), [TAKE_OVER, 0, 0, 0, 0, 0]),
        (2, run(3), [CONCLUDE, 9, 0, 0, 0, 0]),
        // 2 and 6.
        (2, run(3), [DELIVER, 2, 3, MOVE_P, 0, 0]),
        // 3 and 4.
        (3, without_3(), [DELIVER, 3, 1, START, AYE, 0]),
        (3, without_3(), [NOTICE, 3, 2, 0, 0, 0]),
        (3, run(3).stopped(0b110).site([3, 3, Q, 1, 0b010, 0, 0, 0]), [NOTICE, 3, 2, 0, 0, 0]),
        // 3 and 5.
        (3, without_3(), [BEGIN, 3, 0, 0, AYE, 0]),
        (3, without_3(), [TAKE_OVER, 3, 0, 0, 0, 0]),
        (3, without_3(), [CONCLUDE, 3, 0, 0, 0, 0]),
        // 3 and 6.
        (3, without_3(), [DELIVER, 3, 1, MOVE_P, 0, 0]),
        // 4 and 6.
        (4, run(3), [DELIVER, 2, 1, MOVE_P, 0, 0]),
        (4, run(3).sent(MOVE_P, 1, 0b100), [DELIVER, 2, 1, MOVE_P, 0, 0]),
    ];
    hold(&rows);
}

/// A stop inside a step "is refused as that step would be", whatever X names.
fn hold(rows: &[(u8, Run, [u8; 6])]) {
    for (program, (ground, run, fields)) in each(RUNS, rows) {
        let expected = ground.to_string();
        assert_eq!(event(program, run, *fields), expected, "{fields:?} in {run:?}");
        let [k, s, o, m, v, _] = *fields;
        for x in [0, 0b010, 0b11111111].into_iter().filter(|_| k != STOP) {
            let cut = [DURING + k, s, o, m, v, x];
            assert_eq!(event(program, run, cut), expected, "{cut:?} in {run:?}");
        }
    }
}

/// A call with so many bytes of room for the answer, of which an event needs four. A refused one
/// leaves the run, and an answer of outcome 2 and zeros, but after 15 none at all.
fn call(ground: u8, run: &Run, fields: [u8; 6], room: usize) {
    let answer = if ground == 15 { pattern(room) } else { vec![2, 0, 0, 0] };
    for program in RUNS {
        let found = compare::run::happen(program, &run.0, fields, room);
        let expected = (ground, run.0.clone(), answer.clone());
        assert_eq!(found, expected, "{fields:?} {room} in {run:?}");
    }
}

/// A run without its last byte, one with a byte more, and one with a state above 4 at place 8: these
/// bytes are no run.
fn no_runs(run: &Run) -> [Run; 3] {
    let short = Run(run.0[..137].to_vec());
    let long = Run([&run.0[..], &[0]].concat());
    [short, long, run.clone().with(place(8) + 2, 5)]
}

/// The grounds of the call come before those of the event: 15, 1 (no run), 13, 14, then 1 (not sound)
/// to 6. Each alone, and every two that one call can have.
#[test]
fn grounds_of_the_call() {
    let good = [STOP, 2, 0, 0, 0, 0];
    let unknown = [7, 2, 0, 0, 0, 0];
    let no_vote = [BEGIN, 1, 0, 0, 0, 0];
    for fields in [good, unknown, no_vote] {
        call(15, &run(3), fields, 3);
        call(15, &run(3), fields, 0);
        call(15, &unsound(run(3)), fields, 3);
        no_runs(&run(3)).iter().for_each(|bytes| call(15, bytes, fields, 3));
        no_runs(&run(3)).iter().for_each(|bytes| call(1, bytes, fields, 4));
    }
    call(13, &run(3), unknown, 4);
    call(14, &run(3), no_vote, 4);
    call(13, &run(3), [7, 2, 0, 0, 3, 0], 4);
    call(13, &run(3), [0, 0, 9, 9, 9, 9], 4);
    call(13, &unsound(run(3)), unknown, 4);
    call(13, &run(3), [16, 4, 0, 0, 0, 0], 4);
    call(13, &without_3(), [22, 3, 0, 0, 0, 0], 4);
    call(14, &unsound(run(3)), no_vote, 4);
    call(14, &run(3), [STOP, 4, 1, 0, 0, 0], 4);
    call(14, &without_3(), [STOP, 3, 0, 0, 0, 1], 4);
    call(14, &run(3), [DELIVER, 2, 1, START, 0, 0], 4);
    call(14, &run(3), [BEGIN, 2, 0, 0, 3, 0], 4);
    call(14, &run(3).sent(MOVE_P, 1, 0b010), [DELIVER, 2, 1, MOVE_P, AYE, 0], 4);
}

/// 15 and both forms of 1 with each of the event's other grounds.
#[test]
fn grounds_of_the_call_and_of_the_event() {
    let events = [
        (2, run(3), [STOP, 4, 0, 0, 0, 0]),
        (3, without_3(), [STOP, 3, 0, 0, 0, 0]),
        (4, run(3), [DELIVER, 2, 1, START, AYE, 0]),
        (5, run(3), [BEGIN, 2, 0, 0, AYE, 0]),
        (6, run(3).sent(MOVE_P, 1, 0b010), [DELIVER, 2, 1, MOVE_P, 0, 0]),
    ];
    for (ground, run, fields) in events {
        call(ground, &run, fields, 4);
        call(15, &run, fields, 3);
        no_runs(&run).iter().for_each(|bytes| call(1, bytes, fields, 4));
        call(1, &unsound(run), fields, 4);
    }
}

/// Ground 14 in an event: V as in a step, and 0 in a field that the event does not use; X is any set
/// in a stop during a step and 0 in all else. Sites and messages out of range are 2.
#[test]
fn fields_of_an_event() {
    let wrong = [
        [BEGIN, 1, 0, 0, 0, 0],
        [BEGIN, 1, 0, 0, 3, 0],
        [BEGIN, 1, 1, 0, AYE, 0],
        [BEGIN, 1, 0, 1, AYE, 0],
        [BEGIN, 1, 0, 0, AYE, 1],
        [DELIVER, 2, 1, START, 0, 0],
        [DELIVER, 2, 1, START, 3, 0],
        [DELIVER, 2, 1, START, AYE, 1],
        [DELIVER, 2, 1, ABORT, AYE, 0],
        [DELIVER, 2, 1, ABORT, 0, 1],
        [NOTICE, 2, 3, 1, 0, 0],
        [NOTICE, 2, 3, 0, 1, 0],
        [NOTICE, 2, 3, 0, 0, 1],
        [TAKE_OVER, 2, 1, 0, 0, 0],
        [TAKE_OVER, 2, 0, 1, 0, 0],
        [TAKE_OVER, 2, 0, 0, 1, 0],
        [TAKE_OVER, 2, 0, 0, 0, 1],
        [CONCLUDE, 2, 1, 0, 0, 0],
        [CONCLUDE, 2, 0, 1, 0, 0],
        [CONCLUDE, 2, 0, 0, 1, 0],
        [CONCLUDE, 2, 0, 0, 0, 1],
        [STOP, 2, 1, 0, 0, 0],
        [STOP, 2, 0, 1, 0, 0],
        [STOP, 2, 0, 0, 1, 0],
        [STOP, 2, 0, 0, 0, 1],
        [DURING + BEGIN, 1, 0, 0, 0, 0],
        [DURING + BEGIN, 1, 1, 0, AYE, 0],
        [DURING + DELIVER, 2, 1, START, 0, 0],
        [DURING + DELIVER, 2, 1, ABORT, NAY, 0],
        [DURING + NOTICE, 2, 3, 1, 0, 0],
        [DURING + TAKE_OVER, 2, 0, 0, 1, 0],
        [DURING + CONCLUDE, 2, 1, 0, 0, 0],
    ];
    for (program, fields) in each(RUNS, &wrong) {
        assert_eq!(event(program, &run(3), *fields), "14", "{fields:?}");
    }
}

/// Ground 13 in an event: K is 1 to 6 or 17 to 21.
#[test]
fn kinds_of_event() {
    for (program, k) in each(RUNS, &[0, 7, 8, 15, 16, 22, 23, 24, 255]) {
        assert_eq!(event(program, &run(3), [*k, 1, 0, 0, 0, 0]), "13", "{k}");
    }
}
