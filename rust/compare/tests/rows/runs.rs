//! "The run": what each event leaves of a run, told as all that is not as before.

use super::words::*;

/// A run, an event K S O M V X, and what comes of it.
type Row = (Run, [u8; 6], &'static str);

fn hold(rows: &[Row]) {
    for (program, (run, fields, expected)) in each(RUNS, rows) {
        assert_eq!(event(program, run, *fields), *expected, "{fields:?} in {run:?}");
    }
}

/// A run of three in which site 1 has begun and its Start is outstanding.
fn begun() -> Run {
    run(3).site([3, 1, W, 1, 0, 0, 0, 0]).sent(START, 1, 0b110)
}

/// A run of three in which site 1 has stopped, as site 2 knows.
fn led_by_2(state: u8, leader: u8) -> Run {
    run(3).stopped(0b001).site([3, 2, state, leader, 0b001, 0, 0, 0])
}

/// "Fresh: all in q, following 1, all sets empty, no messages. Places above n: filled like the others
/// when fresh. A refused fresh is the same with n 0 in run and records."
#[test]
fn fresh() {
    for n in 0..=255 {
        let (ground, expected) = if (2..=8).contains(&n) { (0, run(n)) } else { (1, run(0)) };
        for program in RUNS {
            let mut bytes = vec![9; 138];
            assert_eq!((program.fresh)(n, &mut bytes), ground, "{n}");
            assert_eq!(Run(bytes), expected, "{n}");
        }
    }
    for (program, length) in each(RUNS, &[0, 137, 139]) {
        for n in [1, 3] {
            let mut bytes = vec![9; *length];
            assert_eq!((program.fresh)(n, &mut bytes), 15);
            assert_eq!(bytes, vec![9; *length]);
        }
    }
}

/// "A message to a stopped site is counted as written and doesn't enter the network"; "all" leaves
/// out who is known stopped.
#[test]
fn begin() {
    let knowing = run(3).stopped(0b100).site([3, 1, Q, 1, 0b100, 0, 0, 0]);
    let [aye, nay] = [AYE, NAY].map(|vote| [BEGIN, 1, 0, 0, vote, 0]);
    hold(&[
        (run(3), aye, "taken 2 written 2 awaited, ring 2, 1:w1, +Start 1>2,3"),
        (run(3), nay, "taken 2 written 0 awaited, 1:a1, +Abort 1>2,3"),
        (run(3).stopped(0b100), aye, "taken 2 written 2 awaited, ring 2, 1:w1, +Start 1>2"),
        (run(3).stopped(0b110), nay, "taken 2 written 0 awaited, 1:a1"),
        (knowing.clone(), aye, "taken 1 written 1 awaited, ring 2, 1:w1, +Start 1>2"),
        (knowing, nay, "taken 1 written 0 awaited, 1:a1, +Abort 1>2"),
    ]);
}

/// "Deliver (taken out of the network, even if passed over)". What a stopped site has sent may still
/// arrive; a Yes to a stopped site 1 is counted, and does not enter.
#[test]
fn deliver() {
    let [aye, nay] = [AYE, NAY].map(|vote| [DELIVER, 2, 1, START, vote, 0]);
    let without_1 = run(3).stopped(0b001).sent(START, 1, 0b110);
    let in_w = begun().site([3, 2, W, 1, 0, 0, 0, 0]);
    let voting = begun().sent(YES, 2, 0b001).sent(NO, 3, 0b001);
    let prepared = voting.clone().site([3, 1, P, 1, 0, 0b010, 0, 0]);
    hold(&[
        (begun(), aye, "taken 1 written 0 awaited, 2:w1, -Start 1>2, +Yes 2>1"),
        (begun(), nay, "taken 1 written 0 awaited, 2:a1, -Start 1>2, +No 2>1"),
        (without_1.clone(), aye, "taken 1 written 0 awaited, 2:w1, -Start 1>2"),
        (without_1, nay, "taken 1 written 0 awaited, 2:a1, -Start 1>2"),
        (in_w.clone(), aye, "passed 0 written 0 awaited, -Start 1>2"),
        (in_w, nay, "passed 0 written 0 awaited, -Start 1>2"),
        (
            voting.clone(),
            [DELIVER, 1, 2, YES, 0, 0],
            "taken 0 written 1 awaited, ring 3, 1:w1 yes=2, -Yes 2>1",
        ),
        (
            voting,
            [DELIVER, 1, 3, NO, 0, 0],
            "taken 0 written 1 awaited, ring 2, 1:w1 no=3, -No 3>1",
        ),
        (
            prepared.clone(),
            [DELIVER, 1, 2, YES, 0, 0],
            "passed 0 written 2 awaited, ring 2, -Yes 2>1",
        ),
        (prepared, [DELIVER, 1, 3, NO, 0, 0], "passed 0 written 2 awaited, ring 2, -No 3>1"),
    ]);
}

/// From below the leader followed nothing changes but the network; a Commit in c and an Abort in a
/// change the leader too.
#[test]
fn passed_over() {
    let old = |kind| run(3).site([3, 3, Q, 2, 0, 0, 0, 0]).sent(kind, 1, 0b110);
    let decided = |state, kind| run(4).site([4, 4, state, 1, 0, 0, 0, 0]).sent(kind, 2, 0b1100);
    let message = |from, kind| [DELIVER, 3, from, kind, 0, 0];
    hold(&[
        (old(START), [DELIVER, 3, 1, START, AYE, 0], "passed 0 written 0 awaited, -Start 1>3"),
        (old(MOVE_P), message(1, MOVE_P), "passed 0 written 0 awaited, -Move-p 1>3"),
        (old(MOVE_W), message(1, MOVE_W), "passed 0 written 0 awaited, -Move-w 1>3"),
        (old(COMMIT), message(1, COMMIT), "passed 0 written 0 awaited, -Commit 1>3"),
        (old(ABORT), message(1, ABORT), "passed 0 written 0 awaited, -Abort 1>3"),
        (
            decided(C, COMMIT),
            [DELIVER, 4, 2, COMMIT, 0, 0],
            "passed 0 written 0 awaited, 4:c2, -Commit 2>4",
        ),
        (
            decided(A, ABORT),
            [DELIVER, 4, 2, ABORT, 0, 0],
            "passed 0 written 0 awaited, 4:a2, -Abort 2>4",
        ),
    ]);
}

/// The outstanding messages are a set: one that is there already is written, counted, and is there.
#[test]
fn written_again() {
    let acknowledged = led_by_2(W, 2).sent(MOVE_W, 2, 0b100).sent(ACK, 3, 0b010);
    hold(&[
        (
            acknowledged,
            [DELIVER, 3, 2, MOVE_W, 0, 0],
            "taken 1 written 0 awaited, 3:w2, -Move-w 2>3",
        ),
        (
            run(3).sent(START, 1, 0b100),
            [BEGIN, 1, 0, 0, AYE, 0],
            "taken 2 written 2 awaited, ring 2, 1:w1, +Start 1>2",
        ),
    ]);
}

#[test]
fn notice_take_over_conclude() {
    let without_3 = |run: Run| run.stopped(0b101);
    let answered = |state| led_by_2(state, 2).site([3, 2, state, 2, 0b001, 0, 0, 0b100]);
    let first = |state, yes, acked| run(3).site([3, 1, state, 1, 0, yes, 0, acked]);
    let [notice, take_over, conclude] =
        [[NOTICE, 2, 1, 0, 0, 0], [TAKE_OVER, 2, 0, 0, 0, 0], [CONCLUDE, 2, 0, 0, 0, 0]];
    let conclude_1 = [CONCLUDE, 1, 0, 0, 0, 0];
    hold(&[
        (run(3).stopped(0b001), notice, "taken 0 written 0 awaited, 2:q1 known=1"),
        (led_by_2(Q, 1), take_over, "taken 1 written 0 awaited, 2:a2, +Abort 2>3"),
        (led_by_2(W, 1), take_over, "taken 1 written 1 awaited, ring 3, 2:w2, +Move-w 2>3"),
        (led_by_2(P, 1), take_over, "taken 1 written 1 awaited, ring 3, 2:p2, +Move-p 2>3"),
        (led_by_2(A, 1), take_over, "taken 1 written 0 awaited, 2:a2, +Abort 2>3"),
        (led_by_2(C, 1), take_over, "taken 1 written 0 awaited, 2:c2, +Commit 2>3"),
        (without_3(led_by_2(P, 1)), take_over, "taken 1 written 1 awaited, ring 3, 2:p2"),
        (answered(W), conclude, "taken 1 written 0 awaited, 2:a2, +Abort 2>3"),
        (answered(P), conclude, "taken 1 written 0 awaited, 2:c2, +Commit 2>3"),
        (without_3(answered(P)), conclude, "taken 1 written 0 awaited, 2:c2"),
        (first(W, 0b110, 0), conclude_1, "taken 2 written 2 awaited, ring 2, 1:p1, +Move-p 1>2,3"),
        (first(P, 0, 0b110), conclude_1, "taken 2 written 0 awaited, 1:c1, +Commit 1>2,3"),
    ]);
}

/// "All" is every other site not known stopped, lower ones too where a leader does not know them
/// stopped: then the message has wrong ends, and the run that is left is not sound.
#[test]
fn a_leader_that_does_not_know_the_lower_sites_stopped() {
    let answered = run(3).site([3, 2, W, 2, 0, 0, 0, 0b101]);
    let conclude = [CONCLUDE, 2, 0, 0, 0, 0];
    hold(&[
        (answered.clone(), conclude, "taken 2 written 0 awaited, 2:a2, +Abort 2>1,3"),
        (answered.site([3, 2, A, 2, 0, 0, 0, 0b101]).sent(ABORT, 2, 0b101), conclude, "1"),
    ]);
}

/// "A stop removes what is addressed to the site." What it has sent stays, its record stays, and
/// "after any stop the awaited number is 0", and nobody is to be rung.
#[test]
fn stop() {
    let stop = |site| [STOP, site, 0, 0, 0, 0];
    let busy = begun()
        .sent(YES, 2, 0b001)
        .sent(NO, 3, 0b001)
        .sent(MOVE_W, 2, 0b100)
        .sent(ACK, 3, 0b011)
        .sent(ABORT, 1, 0b100);
    hold(&[
        (run(3), stop(1), "taken 0 written 0 awaited, stopped=1"),
        (begun(), stop(1), "taken 0 written 0 awaited, stopped=1"),
        (begun(), stop(2), "taken 0 written 0 awaited, stopped=2, -Start 1>2"),
        (
            busy.clone(),
            stop(1),
            "taken 0 written 0 awaited, stopped=1, -Yes 2>1, -No 3>1, -Ack 3>1",
        ),
        (
            busy,
            stop(3),
            "taken 0 written 0 awaited, stopped=3, -Start 1>3, -Move-w 2>3, -Abort 1>3",
        ),
        (run(3).stopped(0b011), stop(3), "taken 0 written 0 awaited, stopped=1,2,3"),
    ]);
}

/// "A stop inside a step holds that step and the set of receivers whose messages still leave;
/// receivers it doesn't write to are ignored. It counts only messages that leave. Its whole record
/// stays as before the step."
#[test]
fn stop_during_begin() {
    let cut = |vote, x| [DURING + BEGIN, 1, 0, 0, vote, x];
    let knowing = run(3).stopped(0b100).site([3, 1, Q, 1, 0b100, 0, 0, 0]);
    hold(&[
        (run(3), cut(AYE, 0), "taken 0 written 0 awaited, stopped=1"),
        (run(3), cut(AYE, 0b010), "taken 1 written 0 awaited, stopped=1, +Start 1>2"),
        (run(3), cut(AYE, 0b110), "taken 2 written 0 awaited, stopped=1, +Start 1>2,3"),
        (run(3), cut(NAY, 0b100), "taken 1 written 0 awaited, stopped=1, +Abort 1>3"),
        (run(3), cut(AYE, 0b11111001), "taken 0 written 0 awaited, stopped=1"),
        (run(3), cut(AYE, 0b11111111), "taken 2 written 0 awaited, stopped=1, +Start 1>2,3"),
        (run(3).stopped(0b100), cut(AYE, 0b100), "taken 1 written 0 awaited, stopped=1,3"),
        (
            run(3).stopped(0b100),
            cut(AYE, 0b110),
            "taken 2 written 0 awaited, stopped=1,3, +Start 1>2",
        ),
        (knowing.clone(), cut(AYE, 0b100), "taken 0 written 0 awaited, stopped=1,3"),
        (knowing, cut(AYE, 0b110), "taken 1 written 0 awaited, stopped=1,3, +Start 1>2"),
    ]);
}

/// The delivered message is gone with all else that is addressed to the site. A stop during a step
/// that is passed over is taken, as "any accepted stop" is, and no message leaves.
#[test]
fn stop_during_deliver() {
    let start = |vote, x| [DURING + DELIVER, 2, 1, START, vote, x];
    let old = run(3).site([3, 3, W, 2, 0, 0, 0, 0]).sent(MOVE_P, 1, 0b100);
    let moved = run(3).site([3, 3, P, 1, 0, 0, 0, 0]).sent(MOVE_W, 2, 0b100).sent(START, 1, 0b100);
    let decided = run(4).site([4, 4, C, 1, 0, 0, 0, 0]).sent(COMMIT, 2, 0b1000);
    let voting = begun().sent(YES, 2, 0b001).sent(NO, 3, 0b001);
    hold(&[
        (begun(), start(AYE, 0), "taken 0 written 0 awaited, stopped=2, -Start 1>2"),
        (begun(), start(AYE, 1), "taken 1 written 0 awaited, stopped=2, -Start 1>2, +Yes 2>1"),
        (begun(), start(NAY, 1), "taken 1 written 0 awaited, stopped=2, -Start 1>2, +No 2>1"),
        (begun(), start(AYE, 0b11111110), "taken 0 written 0 awaited, stopped=2, -Start 1>2"),
        (
            run(3).stopped(0b001).sent(START, 1, 0b010),
            start(AYE, 1),
            "taken 1 written 0 awaited, stopped=1,2, -Start 1>2",
        ),
        (
            old,
            [DURING + DELIVER, 3, 1, MOVE_P, 0, 0b11111111],
            "taken 0 written 0 awaited, stopped=3, -Move-p 1>3",
        ),
        (
            moved,
            [DURING + DELIVER, 3, 2, MOVE_W, 0, 0b010],
            "taken 1 written 0 awaited, stopped=3, -Start 1>3, -Move-w 2>3, +Ack 3>2",
        ),
        (
            decided,
            [DURING + DELIVER, 4, 2, COMMIT, 0, 0b11111111],
            "taken 0 written 0 awaited, stopped=4, -Commit 2>4",
        ),
        (
            voting,
            [DURING + DELIVER, 1, 2, YES, 0, 0b11111111],
            "taken 0 written 0 awaited, stopped=1, -Yes 2>1, -No 3>1",
        ),
    ]);
}

/// The leader followed, the sets heard and the acknowledgements stay as they were, too.
#[test]
fn stop_during_notice_take_over_conclude() {
    let cut = |step, x| [DURING + step, 2, 0, 0, 0, x];
    let acked = |state, leader| led_by_2(state, leader).site([3, 2, state, leader, 1, 0, 0, 0b100]);
    let without_3 = acked(P, 2).stopped(0b101);
    let voted = run(3).site([3, 1, W, 1, 0, 0b110, 0, 0]);
    hold(&[
        (
            run(3).stopped(0b001),
            [DURING + NOTICE, 2, 1, 0, 0, 0b11111111],
            "taken 0 written 0 awaited, stopped=1,2",
        ),
        (acked(Q, 1), cut(TAKE_OVER, 0), "taken 0 written 0 awaited, stopped=1,2"),
        (acked(Q, 1), cut(TAKE_OVER, 0b101), "taken 1 written 0 awaited, stopped=1,2, +Abort 2>3"),
        (acked(P, 1), cut(TAKE_OVER, 0b100), "taken 1 written 0 awaited, stopped=1,2, +Move-p 2>3"),
        (acked(P, 2), cut(CONCLUDE, 0b011), "taken 0 written 0 awaited, stopped=1,2"),
        (acked(P, 2), cut(CONCLUDE, 0b100), "taken 1 written 0 awaited, stopped=1,2, +Commit 2>3"),
        (without_3, cut(CONCLUDE, 0b100), "taken 1 written 0 awaited, stopped=1,2,3"),
        (
            voted,
            [DURING + CONCLUDE, 1, 0, 0, 0, 0b100],
            "taken 1 written 0 awaited, stopped=1, +Move-p 1>3",
        ),
    ]);
}

/// "Places above n: handed back as given", whatever stands there that has a state.
#[test]
fn places_above_n() {
    let strange = begun().with(26, 77).with(31, 0xFF).with(60, 4).with(61, 200).with(65, 0b1000);
    hold(&[
        (
            strange.clone(),
            [DELIVER, 2, 1, START, AYE, 0],
            "taken 1 written 0 awaited, 2:w1, -Start 1>2, +Yes 2>1",
        ),
        (strange, [STOP, 3, 0, 0, 0, 0], "taken 0 written 0 awaited, stopped=3, -Start 1>3"),
    ]);
}
