//! "Site and messages": what each message does, by the state of the site that it reaches (q, w, p,
//! a, c) and by where its sender stands to the leader followed.

use super::words::*;

/// Site 4 of 5 follows site 2, so that 1 is below the leader, 2 is the leader and 3 above it. All
/// its sets hold something, and stay.
const FOLLOWS_2: Site = [5, 4, Q, 2, 0b00001, 0b00010, 0b00100, 0b10000];
/// The same site follows itself, and awaits 2 and 3.
const FOLLOWS_4: Site = [5, 4, Q, 4, 0b00001, 0b00010, 0b00100, 0b10000];

/// "From a sender below the leader followed: passed over, no change."
const BELOW: &str = "passed q2 | passed w2 | passed p2 | passed a2 | passed c2";
const BELOW_A_LEADER: &str =
    "passed q4 | passed w4 awaits 2, ring 2 | passed p4 awaits 2, ring 2 | passed a4 | passed c4";

#[test]
fn move_p() {
    hold(&[
        (FOLLOWS_2, [DELIVER, 1, MOVE_P, 0], BELOW),
        (FOLLOWS_2, [DELIVER, 2, MOVE_P, 0], "6 | p2 Ack>2 | p2 Ack>2 | 6 | c2 Ack>2"),
        (FOLLOWS_2, [DELIVER, 3, MOVE_P, 0], "6 | p3 Ack>3 | p3 Ack>3 | 6 | c3 Ack>3"),
        (FOLLOWS_4, [DELIVER, 1, MOVE_P, 0], BELOW_A_LEADER),
        (FOLLOWS_4, [DELIVER, 3, MOVE_P, 0], BELOW_A_LEADER),
    ]);
}

#[test]
fn move_w() {
    let from_2 = "w2 Ack>2 | w2 Ack>2 | w2 Ack>2 | a2 Ack>2 | 6";
    let from_3 = "w3 Ack>3 | w3 Ack>3 | w3 Ack>3 | a3 Ack>3 | 6";
    hold(&[
        (FOLLOWS_2, [DELIVER, 1, MOVE_W, 0], BELOW),
        (FOLLOWS_2, [DELIVER, 2, MOVE_W, 0], from_2),
        (FOLLOWS_2, [DELIVER, 3, MOVE_W, 0], from_3),
        (FOLLOWS_4, [DELIVER, 1, MOVE_W, 0], BELOW_A_LEADER),
        (FOLLOWS_4, [DELIVER, 3, MOVE_W, 0], BELOW_A_LEADER),
    ]);
}

/// In c a Commit is passed over, and "passed over so, the leader still changes".
#[test]
fn commit() {
    hold(&[
        (FOLLOWS_2, [DELIVER, 1, COMMIT, 0], BELOW),
        (FOLLOWS_2, [DELIVER, 2, COMMIT, 0], "6 | 6 | c2 | 6 | passed c2"),
        (FOLLOWS_2, [DELIVER, 3, COMMIT, 0], "6 | 6 | c3 | 6 | passed c3"),
        (FOLLOWS_4, [DELIVER, 1, COMMIT, 0], BELOW_A_LEADER),
        (FOLLOWS_4, [DELIVER, 3, COMMIT, 0], BELOW_A_LEADER),
    ]);
}

/// In a an Abort is passed over, and "passed over so, the leader still changes".
#[test]
fn abort() {
    hold(&[
        (FOLLOWS_2, [DELIVER, 1, ABORT, 0], BELOW),
        (FOLLOWS_2, [DELIVER, 2, ABORT, 0], "a2 | a2 | 6 | passed a2 | 6"),
        (FOLLOWS_2, [DELIVER, 3, ABORT, 0], "a3 | a3 | 6 | passed a3 | 6"),
        (FOLLOWS_4, [DELIVER, 1, ABORT, 0], BELOW_A_LEADER),
        (FOLLOWS_4, [DELIVER, 3, ABORT, 0], BELOW_A_LEADER),
    ]);
}

/// A Start comes from site 1, which is the leader or below it. It makes nobody the leader.
#[test]
fn start() {
    let follows_1 = [5, 4, Q, 1, 0, 0b00010, 0b00100, 0b10000];
    let yes = "w1 Yes>1 | passed w1 | passed p1 | passed a1 | passed c1";
    let no = "a1 No>1 | passed w1 | passed p1 | passed a1 | passed c1";
    hold(&[
        (follows_1, [DELIVER, 1, START, AYE], yes),
        (follows_1, [DELIVER, 1, START, NAY], no),
        (FOLLOWS_2, [DELIVER, 1, START, AYE], BELOW),
        (FOLLOWS_2, [DELIVER, 1, START, NAY], BELOW),
        (FOLLOWS_4, [DELIVER, 1, START, AYE], BELOW_A_LEADER),
        (FOLLOWS_4, [DELIVER, 1, START, NAY], BELOW_A_LEADER),
    ]);
}

/// "Yes or No: site 1 in w records it. Otherwise passed over." Of the others, 2 has said Yes and 4
/// has acknowledged; then 3 is heard.
#[test]
fn yes_and_no() {
    let first = [4, 1, Q, 1, 0, 0b0010, 0, 0b1000];
    let yes =
        "passed q1 | w1 yes=2,3 awaits 1, ring 4 | passed p1 awaits 2, ring 2 | passed a1 | passed c1";
    let no =
        "passed q1 | w1 no=3 awaits 1, ring 4 | passed p1 awaits 2, ring 2 | passed a1 | passed c1";
    hold(&[(first, [DELIVER, 3, YES, 0], yes), (first, [DELIVER, 3, NO, 0], no)]);
}

/// "Ack: recorded by a leader in p, or in w if it isn't site 1. Otherwise passed over." At site 1,
/// at site 3 that leads, and at site 3 that follows 1 and 2.
#[test]
fn ack() {
    let at_1 = "passed q1 | passed w1 awaits 4, ring 2 | p1 acked=5 awaits 3, ring 2 | \
                passed a1 | passed c1";
    let at_3 = "passed q3 | w3 acked=5 awaits 3, ring 1 | p3 acked=5 awaits 3, ring 1 | \
                passed a3 | passed c3";
    let under_1 = "passed q1 | passed w1 | passed p1 | passed a1 | passed c1";
    let under_2 = "passed q2 | passed w2 | passed p2 | passed a2 | passed c2";
    hold(&[
        ([5, 1, Q, 1, 0, 0, 0, 0], [DELIVER, 5, ACK, 0], at_1),
        ([5, 3, Q, 3, 0, 0, 0, 0], [DELIVER, 5, ACK, 0], at_3),
        ([5, 3, Q, 1, 0, 0, 0, 0], [DELIVER, 5, ACK, 0], under_1),
        ([5, 3, Q, 2, 0b1, 0, 0, 0], [DELIVER, 5, ACK, 0], under_2),
    ]);
}

/// What is recorded already is taken again, a Yes does not take a No back, and a site that is known
/// stopped is heard like any other.
#[test]
fn heard_again() {
    let rows: [(Site, [u8; 4], &str); 8] = [
        ([4, 1, W, 1, 0, 0b0100, 0, 0], [DELIVER, 3, YES, 0], "w1 awaits 2, ring 2"),
        ([4, 1, W, 1, 0, 0, 0b0100, 0], [DELIVER, 3, NO, 0], "w1 awaits 2, ring 2"),
        ([4, 1, W, 1, 0, 0, 0b0100, 0], [DELIVER, 3, YES, 0], "w1 yes=3 awaits 2, ring 2"),
        ([4, 1, W, 1, 0, 0b0100, 0, 0], [DELIVER, 3, NO, 0], "w1 no=3 awaits 2, ring 2"),
        ([4, 1, W, 1, 0b0100, 0, 0, 0], [DELIVER, 3, YES, 0], "w1 yes=3 awaits 2, ring 2"),
        ([4, 1, P, 1, 0, 0, 0, 0b0100], [DELIVER, 3, ACK, 0], "p1 awaits 2, ring 2"),
        ([4, 2, W, 2, 0b0001, 0, 0, 0b0100], [DELIVER, 3, ACK, 0], "w2 awaits 1, ring 4"),
        ([4, 2, P, 2, 0b0101, 0, 0, 0], [DELIVER, 3, ACK, 0], "p2 acked=3 awaits 1, ring 4"),
    ];
    for (program, (site, fields, expected)) in each(SITES, &rows) {
        assert_eq!(step(program, *site, *fields), *expected, "{site:?} {fields:?}");
    }
}

/// A Yes, a No and an Ack go to their one receiver, even where it is known stopped.
#[test]
fn replies_to_a_known_stopped_site() {
    let site = [3, 3, Q, 1, 0b011, 0, 0, 0];
    let yes = "w1 Yes>1 | passed w1 | passed p1 | passed a1 | passed c1";
    let no = "a1 No>1 | passed w1 | passed p1 | passed a1 | passed c1";
    hold(&[
        (site, [DELIVER, 1, START, AYE], yes),
        (site, [DELIVER, 1, START, NAY], no),
        (site, [DELIVER, 2, MOVE_P, 0], "6 | p2 Ack>2 | p2 Ack>2 | 6 | c2 Ack>2"),
        (site, [DELIVER, 2, MOVE_W, 0], "w2 Ack>2 | w2 Ack>2 | w2 Ack>2 | a2 Ack>2 | 6"),
    ]);
}

/// The receivers that a message of each kind may have from senders 1 to 8, among eight sites:
/// "1 Start (from site 1 to a higher), 2 Yes, 3 No (from a higher to 1), 4 Move-p, 5 Move-w,
/// 7 Commit, 8 Abort (from a lower to a higher), 6 Ack (from a higher to a lower)". No other number
/// is a kind.
const ENDS: [(u8, [u8; 8]); 10] = [
    (0, [0, 0, 0, 0, 0, 0, 0, 0]),
    (START, [0b11111110, 0, 0, 0, 0, 0, 0, 0]),
    (YES, [0, 1, 1, 1, 1, 1, 1, 1]),
    (NO, [0, 1, 1, 1, 1, 1, 1, 1]),
    (MOVE_P, HIGHER),
    (MOVE_W, HIGHER),
    (ACK, [0, 0b1, 0b11, 0b111, 0b1111, 0b11111, 0b111111, 0b1111111]),
    (COMMIT, HIGHER),
    (ABORT, HIGHER),
    (9, [0, 0, 0, 0, 0, 0, 0, 0]),
];
const HIGHER: [u8; 8] = [
    0b11111110, 0b11111100, 0b11111000, 0b11110000, 0b11100000, 0b11000000, 0b10000000, 0b00000000,
];

/// A message with other ends is refused with 2, and no other is.
#[test]
fn ends() {
    for (program, (kind, receivers)) in each(SITES, &ENDS) {
        for (from, to) in (1..=8).flat_map(|from| (1..=8).map(move |to| (from, to))) {
            let fields = [DELIVER, from, *kind, if *kind == START { AYE } else { 0 }];
            let found = step(program, [8, to, W, 1, 0, 0, 0, 0], fields);
            let right = receivers[usize::from(from) - 1] >> (to - 1) & 1 == 1;
            assert_eq!(found != "2", right, "{kind} from {from} to {to}: {found}");
        }
    }
}
