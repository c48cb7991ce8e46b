//! "Protocol sheets": small sheets whose reachable states can be counted on a page, with their whole
//! reports, and the numbers that the judge leaves in the words lent to it.

use super::words::*;
use compare::inputs::drafts::{product, Draft};
use compare::inputs::obeying::obeyed_by;
use compare::sheet::{OUT, ROOM};

/// A sheet's report, and the numbers of its reachable states.
fn hold(sheet: &Draft, text: &str, numbers: &[u64]) {
    for program in JUDGES {
        assert_eq!(report(program, &sheet.bytes()), text);
        let mut words = vec![5; 4098];
        assert_eq!((program.judge)(&sheet.bytes(), &mut words, &mut [0; 206]), 0);
        assert_eq!(words[..numbers.len()], *numbers);
        assert!(words[numbers.len()..4096].iter().all(|&word| word == 0));
        assert_eq!(words[4096..], [5, 5]);
    }
}

/// "Outstanding + 2^32 × votes + 2^36 × (s1 + 8·s2 + 64·s3 + 512·s4)", without a carry.
fn number(outstanding: u64, votes: u64, states: [u64; 4]) -> u64 {
    let [s1, s2, s3, s4] = states;
    outstanding | votes << 32 | s1 << 36 | s2 << 39 | s3 << 42 | s4 << 45
}

/// "Two-phase commit with two sites (states 0 q, 1 w, 2 a, 3 c; site 1 may abort after a yes and votes
/// yes as it commits; L = 113)." Message 0 is the request, 1 start, 2 no, 3 yes, 4 abort, 5 commit.
fn two_phase() -> Draft {
    let marks = vec![vec![WORKING, WORKING, ABORTED, COMMITTED]; 2];
    let moves = vec![
        go(1, 0, 1, 0, &[0], &[1]),
        go(1, 1, 2, 0, &[2], &[]),
        go(1, 1, 2, 0, &[3], &[4]),
        go(1, 1, 3, 1, &[3], &[5]),
        go(2, 0, 1, 1, &[1], &[3]),
        go(2, 0, 2, 0, &[1], &[2]),
        go(2, 1, 2, 0, &[4], &[]),
        go(2, 1, 3, 0, &[5], &[]),
    ];
    Draft::new(marks, 1, moves)
}

#[test]
fn the_worked_sheet() {
    assert_eq!(two_phase().bytes()[..2], [0, 113]);
    assert_eq!(two_phase().bytes(), include_bytes!("../../../../crates/sheets/stdin"));
    let text = "sheet 2 sites 9 states\n\
                1.0 w y 2.0 n abort\n\
                1.1 w y 2.0,2.1,2.2 n abort\n\
                1.2 a y 2.1,2.2 n abort\n\
                1.3 c y 2.1,2.3 y commit\n\
                2.0 w y 1.0,1.1 n abort\n\
                2.1 w y 1.1,1.2,1.3 n blocked\n\
                2.2 a y 1.1,1.2 n abort\n\
                2.3 c y 1.3 y commit\n\
                verdict blocking at 2.1 condition 1\n\
                tolerance not stated\n";
    let numbers = [
        number(1 << 0, 0b00, [0, 0, 0, 0]),
        number(1 << 1, 0b00, [1, 0, 0, 0]),
        number(1 << 3, 0b10, [1, 1, 0, 0]),
        number(1 << 4, 0b10, [2, 1, 0, 0]),
        number(1 << 5, 0b11, [3, 1, 0, 0]),
        number(1 << 2, 0b00, [1, 2, 0, 0]),
        number(0, 0b00, [2, 2, 0, 0]),
        number(0, 0b10, [2, 2, 0, 0]),
        number(0, 0b11, [3, 3, 0, 0]),
    ];
    hold(&two_phase(), text, &numbers);
}

/// "The same two sites with a prepared state between w and c on each side, site 1 voting as it enters
/// p: 11 states, nonblocking"; and by 02 "both two-site examples in 01 change in that line", the
/// last. State 4 is p; message 5 is prepare, 6 ack, 7 commit.
#[test]
fn the_worked_sheet_with_a_prepared_state() {
    let marks = vec![vec![WORKING, WORKING, ABORTED, COMMITTED, WORKING]; 2];
    let mut moves = two_phase().moves;
    moves[3] = go(1, 1, 4, 1, &[3], &[5]);
    moves[7] = go(2, 1, 4, 0, &[5], &[6]);
    moves.extend([go(1, 4, 3, 0, &[6], &[7]), go(2, 4, 3, 0, &[7], &[])]);
    let text = "sheet 2 sites 11 states\n\
                1.0 w y 2.0 n abort\n\
                1.1 w y 2.0,2.1,2.2 n abort\n\
                1.2 a y 2.1,2.2 n abort\n\
                1.3 c y 2.3,2.4 y commit\n\
                1.4 w y 2.1,2.4 y abort\n\
                2.0 w y 1.0,1.1 n abort\n\
                2.1 w y 1.1,1.2,1.4 n abort\n\
                2.2 a y 1.1,1.2 n abort\n\
                2.3 c y 1.3 y commit\n\
                2.4 w y 1.3,1.4 y commit\n\
                verdict nonblocking\n\
                tolerance not stated\n";
    let numbers = [
        number(1 << 0, 0b00, [0, 0, 0, 0]),
        number(1 << 1, 0b00, [1, 0, 0, 0]),
        number(1 << 3, 0b10, [1, 1, 0, 0]),
        number(1 << 4, 0b10, [2, 1, 0, 0]),
        number(1 << 5, 0b11, [4, 1, 0, 0]),
        number(1 << 2, 0b00, [1, 2, 0, 0]),
        number(0, 0b00, [2, 2, 0, 0]),
        number(0, 0b10, [2, 2, 0, 0]),
        number(0, 0b11, [3, 3, 0, 0]),
        number(1 << 7, 0b11, [3, 4, 0, 0]),
        number(1 << 6, 0b11, [4, 4, 0, 0]),
    ];
    hold(&Draft::new(marks, 1, moves), text, &numbers);
}

/// The bytes of the judge's answer on the worked sheet: sites, states, nonblocking, the verdict's
/// site, state and condition, 0 for a tolerance that is not stated, zeros; then for each local state what is reached (1) and
/// committable (2), its decision, and its set.
#[test]
fn the_answer_on_the_worked_sheet() {
    let head = [2, 0, 9, 0, 2, 1, 1, 0, 0, 0, 0, 0, 0, 0];
    let first = [
        [1, 1, 0, 0, 0b0001, 0],
        [1, 1, 0, 0, 0b0111, 0],
        [1, 1, 0, 0, 0b0110, 0],
        [3, 2, 0, 0, 0b1010, 0],
    ];
    let second = [
        [1, 1, 0, 0, 0, 0b0011],
        [1, 3, 0, 0, 0, 0b1110],
        [1, 1, 0, 0, 0, 0b0110],
        [3, 2, 0, 0, 0, 0b1000],
    ];
    let mut expected = head.to_vec();
    for site in [first, second] {
        expected.extend(site.concat());
        expected.extend([0; 24]);
    }
    expected.extend([0; 96]);
    for program in JUDGES {
        let mut out = vec![9; 206];
        assert_eq!((program.judge)(&two_phase().bytes(), &mut vec![0; 4096], &mut out), 0);
        assert_eq!(out, expected);
    }
}

/// Site 2 moves and tells site 1, which commits; whether each votes as it does.
fn told(votes: [u8; 2]) -> Draft {
    let marks = vec![vec![WORKING, COMMITTED], vec![WORKING, WORKING]];
    let moves = vec![go(2, 0, 1, votes[1], &[0], &[1]), go(1, 0, 1, votes[0], &[1], &[])];
    Draft::new(marks, 1, moves)
}

/// "Committable: in each global state with it, all sites have voted yes": the site itself, every
/// other, and in each such state.
#[test]
fn committable() {
    let report = |committable: &str| {
        format!(
            "sheet 2 sites 3 states\n\
             1.0 w y 2.0,2.1 n abort\n\
             1.1 c y 2.1 {committable} commit\n\
             2.0 w y 1.0 n abort\n\
             2.1 w y 1.0,1.1 n blocked\n\
             verdict blocking at 2.1 condition 2\n\
             tolerance not stated\n"
        )
    };
    for (votes, committable) in [([1, 1], "y"), ([0, 1], "n"), ([1, 0], "n"), ([0, 0], "n")] {
        let [one, two] = votes.map(u64::from);
        let numbers = [
            number(1 << 0, 0b00, [0, 0, 0, 0]),
            number(1 << 1, two << 1, [0, 1, 0, 0]),
            number(0, two << 1 | one, [1, 1, 0, 0]),
        ];
        hold(&told(votes), &report(committable), &numbers);
    }
}

/// Both sites vote; then site 1 goes to a final state, and site 2 after it to a commit state.
fn agreed(mark: u8) -> Draft {
    let marks = vec![vec![WORKING, WORKING, mark], vec![WORKING, WORKING, COMMITTED]];
    let moves = vec![
        go(1, 0, 1, 1, &[0], &[1]),
        go(2, 0, 1, 1, &[1], &[2]),
        go(1, 1, 2, 0, &[2], &[3]),
        go(2, 1, 2, 0, &[3], &[]),
    ];
    Draft::new(marks, 1, moves)
}

fn numbers_of_agreed() -> [u64; 5] {
    [
        number(1 << 0, 0b00, [0, 0, 0, 0]),
        number(1 << 1, 0b01, [1, 0, 0, 0]),
        number(1 << 2, 0b11, [1, 1, 0, 0]),
        number(1 << 3, 0b11, [2, 1, 0, 0]),
        number(0, 0b11, [2, 2, 0, 0]),
    ]
}

/// "Else a final state's own": 1.2 decides abort with a commit state in its set, and 2.2 commit with
/// an abort state in its own. Conditions look at the set and not at the state's own mark.
#[test]
fn a_final_state_decides_its_own() {
    let text = "sheet 2 sites 5 states\n\
                1.0 w y 2.0 n abort\n\
                1.1 w y 2.0,2.1 n abort\n\
                1.2 a y 2.1,2.2 y abort\n\
                2.0 w y 1.0,1.1 n abort\n\
                2.1 w y 1.1,1.2 y abort\n\
                2.2 c y 1.2 y commit\n\
                verdict nonblocking\n\
                tolerance not stated\n";
    hold(&agreed(ABORTED), text, &numbers_of_agreed());
}

/// "Else commit if its set holds a commit state, abort if not": 2.1, which is committable.
#[test]
fn a_working_state_decides_by_its_set() {
    let text = "sheet 2 sites 5 states\n\
                1.0 w y 2.0 n abort\n\
                1.1 w y 2.0,2.1 n abort\n\
                1.2 c y 2.1,2.2 y commit\n\
                2.0 w y 1.0,1.1 n abort\n\
                2.1 w y 1.1,1.2 y commit\n\
                2.2 c y 1.2 y commit\n\
                verdict nonblocking\n\
                tolerance not stated\n";
    hold(&agreed(COMMITTED), text, &numbers_of_agreed());
}

/// "Else blocked where a condition is broken", in final states too. Each site aborts or commits by
/// itself: one site may read a message in several transitions.
#[test]
fn a_final_state_can_be_blocked() {
    let alone = |site, message| [1, 2].map(|to| go(site, 0, to, 0, &[message], &[]));
    let marks = vec![vec![WORKING, ABORTED, COMMITTED]; 2];
    let sheet = Draft::new(marks, 0b11, [alone(1, 0), alone(2, 1)].concat());
    let text = "sheet 2 sites 9 states\n\
                1.0 w y 2.0,2.1,2.2 n blocked\n\
                1.1 a y 2.0,2.1,2.2 n blocked\n\
                1.2 c y 2.0,2.1,2.2 n blocked\n\
                2.0 w y 1.0,1.1,1.2 n blocked\n\
                2.1 a y 1.0,1.1,1.2 n blocked\n\
                2.2 c y 1.0,1.1,1.2 n blocked\n\
                verdict blocking at 1.0 condition 1\n\
                tolerance not stated\n";
    let numbers = [
        number(0b11, 0, [0, 0, 0, 0]),
        number(0b10, 0, [1, 0, 0, 0]),
        number(0b10, 0, [2, 0, 0, 0]),
        number(0b01, 0, [0, 1, 0, 0]),
        number(0b00, 0, [1, 1, 0, 0]),
        number(0b00, 0, [2, 1, 0, 0]),
        number(0b01, 0, [0, 2, 0, 0]),
        number(0b00, 0, [1, 2, 0, 0]),
        number(0b00, 0, [2, 2, 0, 0]),
    ];
    hold(&sheet, text, &numbers);
}

/// "A blocking verdict shows the lowest site, state, condition broken, in that order." Here 1.0
/// breaks condition 2 and 1.1 condition 1; site 2 obeys.
#[test]
fn the_lowest_is_shown() {
    let marks = vec![vec![WORKING, WORKING], vec![WORKING, COMMITTED, ABORTED]];
    let moves =
        vec![go(2, 0, 1, 0, &[0], &[]), go(1, 0, 1, 0, &[1], &[2]), go(2, 0, 2, 0, &[2], &[])];
    let text = "sheet 2 sites 5 states\n\
                1.0 w y 2.0,2.1 n blocked\n\
                1.1 w y 2.0,2.1,2.2 n blocked\n\
                2.0 w y 1.0,1.1 n abort\n\
                2.1 c y 1.0,1.1 n commit\n\
                2.2 a y 1.1 n abort\n\
                verdict blocking at 1.0 condition 2\n\
                tolerance not stated\n";
    let numbers = [
        number(0b011, 0, [0, 0, 0, 0]),
        number(0b101, 0, [1, 0, 0, 0]),
        number(0b010, 0, [0, 1, 0, 0]),
        number(0b100, 0, [1, 1, 0, 0]),
        number(0b001, 0, [1, 2, 0, 0]),
    ];
    hold(&Draft::new(marks, 0b011, moves), text, &numbers);
}

/// A lower site is shown before a lower state and a lower condition: 1.2 breaks condition 2, and 2.0
/// condition 1.
#[test]
fn the_lowest_site_comes_first() {
    let marks = vec![vec![WORKING, ABORTED, COMMITTED], vec![WORKING, COMMITTED]];
    let moves =
        vec![go(1, 0, 1, 0, &[0], &[]), go(1, 0, 2, 0, &[0], &[1]), go(2, 0, 1, 0, &[1], &[])];
    let text = "sheet 2 sites 4 states\n\
                1.0 w y 2.0 n abort\n\
                1.1 a y 2.0 n abort\n\
                1.2 c y 2.0,2.1 n blocked\n\
                2.0 w y 1.0,1.1,1.2 n blocked\n\
                2.1 c y 1.2 n blocked\n\
                verdict blocking at 1.2 condition 2\n\
                tolerance not stated\n";
    let numbers = [
        number(1 << 0, 0, [0, 0, 0, 0]),
        number(0, 0, [1, 0, 0, 0]),
        number(1 << 1, 0, [2, 0, 0, 0]),
        number(0, 0, [2, 1, 0, 0]),
    ];
    hold(&Draft::new(marks, 1, moves), text, &numbers);
}

/// Condition 1 alone: all have voted before site 1 is in 1.2, which is committable, and then site 2
/// aborts or commits.
#[test]
fn committable_and_blocked() {
    let marks = vec![vec![WORKING; 3], vec![WORKING, WORKING, ABORTED, COMMITTED]];
    let moves = vec![
        go(1, 0, 1, 1, &[0], &[1]),
        go(2, 0, 1, 1, &[1], &[2]),
        go(1, 1, 2, 0, &[2], &[3]),
        go(2, 1, 2, 0, &[3], &[]),
        go(2, 1, 3, 0, &[3], &[]),
    ];
    let text = "sheet 2 sites 6 states\n\
                1.0 w y 2.0 n abort\n\
                1.1 w y 2.0,2.1 n abort\n\
                1.2 w y 2.1,2.2,2.3 y blocked\n\
                2.0 w y 1.0,1.1 n abort\n\
                2.1 w y 1.1,1.2 y abort\n\
                2.2 a y 1.2 y abort\n\
                2.3 c y 1.2 y commit\n\
                verdict blocking at 1.2 condition 1\n\
                tolerance not stated\n";
    let numbers = [
        number(1 << 0, 0b00, [0, 0, 0, 0]),
        number(1 << 1, 0b01, [1, 0, 0, 0]),
        number(1 << 2, 0b11, [1, 1, 0, 0]),
        number(1 << 3, 0b11, [2, 1, 0, 0]),
        number(0, 0b11, [2, 2, 0, 0]),
        number(0, 0b11, [2, 3, 0, 0]),
    ];
    hold(&Draft::new(marks, 1, moves), text, &numbers);
}

/// Sites 2, 3, 1 vote in turn, site 2 moves again, and site 1 commits: only site 3, which never learns
/// that all have voted, is blocked. Two obeying sites have no tolerance.
#[test]
fn three_sites_of_which_two_obey() {
    let marks = vec![vec![WORKING, WORKING, COMMITTED], vec![WORKING; 3], vec![WORKING, WORKING]];
    let moves = vec![
        go(2, 0, 1, 1, &[0], &[1]),
        go(3, 0, 1, 1, &[1], &[2]),
        go(1, 0, 1, 1, &[2], &[3]),
        go(2, 1, 2, 0, &[3], &[4]),
        go(1, 1, 2, 0, &[4], &[]),
    ];
    let text = "sheet 3 sites 6 states\n\
                1.0 w y 2.0,2.1,3.0,3.1 n abort\n\
                1.1 w y 2.1,2.2,3.1 y abort\n\
                1.2 c y 2.2,3.1 y commit\n\
                2.0 w y 1.0,3.0 n abort\n\
                2.1 w y 1.0,1.1,3.0,3.1 n abort\n\
                2.2 w y 1.1,1.2,3.1 y commit\n\
                3.0 w y 1.0,2.0,2.1 n abort\n\
                3.1 w y 1.0,1.1,1.2,2.1,2.2 n blocked\n\
                verdict blocking at 3.1 condition 2\n\
                tolerance not stated\n";
    let numbers = [
        number(1 << 0, 0b000, [0, 0, 0, 0]),
        number(1 << 1, 0b010, [0, 1, 0, 0]),
        number(1 << 2, 0b110, [0, 1, 1, 0]),
        number(1 << 3, 0b111, [1, 1, 1, 0]),
        number(1 << 4, 0b111, [1, 2, 1, 0]),
        number(0, 0b111, [2, 2, 1, 0]),
    ];
    hold(&Draft::new(marks, 1, moves), text, &numbers);
}

/// How many sites, how many of them obey, the verdict, the tolerance in words and in the answer.
type Tolerance = (usize, usize, &'static str, &'static str, u8);

/// 02: "The tolerance is stated only when three or more sites obey, as that count less one; otherwise
/// the last line reads `tolerance not stated`." In the judge's answer it is then 0.
const TOLERANCES: [Tolerance; 12] = [
    (2, 0, "verdict blocking at 1.3 condition 2", "tolerance not stated", 0),
    (2, 1, "verdict blocking at 2.1 condition 2", "tolerance not stated", 0),
    (2, 2, "verdict nonblocking", "tolerance not stated", 0),
    (3, 0, "verdict blocking at 1.3 condition 2", "tolerance not stated", 0),
    (3, 1, "verdict blocking at 2.1 condition 2", "tolerance not stated", 0),
    (3, 2, "verdict blocking at 3.1 condition 2", "tolerance not stated", 0),
    (3, 3, "verdict nonblocking", "tolerance 2", 2),
    (4, 0, "verdict blocking at 1.3 condition 2", "tolerance not stated", 0),
    (4, 1, "verdict blocking at 2.1 condition 2", "tolerance not stated", 0),
    (4, 2, "verdict blocking at 3.1 condition 2", "tolerance not stated", 0),
    (4, 3, "verdict blocking at 4.1 condition 2", "tolerance 2", 2),
    (4, 4, "verdict nonblocking", "tolerance 3", 3),
];

/// The lowest sites obey, and the next one has voted and waits while another commits; where none
/// obeys, nobody has voted as site 1 commits beside others.
#[test]
fn the_tolerance_by_the_number_of_obeying_sites() {
    for (program, (sites, obeying, verdict, tolerance, number)) in each(JUDGES, &TOLERANCES) {
        let set: Vec<bool> = (0..*sites).map(|site| site < *obeying).collect();
        let sheet = obeyed_by(&set, false).bytes();
        let text = report(program, &sheet);
        assert!(text.ends_with(&format!("\n{verdict}\n{tolerance}\n")), "{set:?}\n{text}");
        let mut out = [9; OUT];
        assert_eq!((program.judge)(&sheet, &mut [0; 4096], &mut out), 0);
        assert_eq!(out[7], *number, "{set:?}");
    }
}

/// The longest text: four sites of eight states that are found together in every way, all blocked,
/// for beside each there is a site that has aborted and one that has committed. It fills the least
/// room to its end; with a byte less nothing is touched.
#[test]
fn the_longest_report() {
    let mut sheet = product(&[8; 4], false);
    for (marks, last) in sheet.marks.iter_mut().zip([ABORTED, COMMITTED, ABORTED, COMMITTED]) {
        marks[7] = last;
    }
    for program in JUDGES {
        let told = |room: usize| {
            let mut text = vec![b'?'; room];
            let length = (program.report)(&sheet.bytes(), &mut [0; 4096], &mut text);
            (length, String::from_utf8(text).expect("text"))
        };
        let (length, text) = told(ROOM);
        assert_eq!((length, text.matches(" blocked\n").count()), (ROOM, 32));
        assert!(text.ends_with("\ntolerance not stated\n"));
        assert_eq!(told(ROOM - 1), (0, "?".repeat(ROOM - 1)));
    }
}

/// "A transition is possible where its site is in `from` and all it reads is outstanding; it takes
/// these away, then adds what it writes." 1.1 needs a message that is never there; the last state of
/// site 4 is far from the first, with a vote and the two highest messages. What it reads and writes
/// again is outstanding as before. An unreached state is committable, decides `-` and blocks nothing.
#[test]
fn what_is_possible() {
    let marks = vec![vec![WORKING, COMMITTED], vec![ABORTED], vec![WORKING], vec![WORKING; 8]];
    let moves = vec![go(1, 0, 1, 1, &[0, 1], &[]), go(4, 0, 7, 1, &[30, 31], &[31])];
    let text = "sheet 4 sites 2 states\n\
                1.0 w y 2.0,3.0,4.0,4.7 n abort\n\
                1.1 c n - y -\n\
                2.0 a y 1.0,3.0,4.0,4.7 n abort\n\
                3.0 w y 1.0,2.0,4.0,4.7 n abort\n\
                4.0 w y 1.0,2.0,3.0 n abort\n\
                4.1 w n - y -\n\
                4.2 w n - y -\n\
                4.3 w n - y -\n\
                4.4 w n - y -\n\
                4.5 w n - y -\n\
                4.6 w n - y -\n\
                4.7 w y 1.0,2.0,3.0 n abort\n\
                verdict nonblocking\n\
                tolerance 3\n";
    let numbers = [
        number(1 | 1 << 30 | 1 << 31, 0b0000, [0, 0, 0, 0]),
        number(1 | 1 << 31, 0b1000, [0, 0, 0, 7]),
    ];
    hold(&Draft::new(marks, 1 | 1 << 30 | 1 << 31, moves), text, &numbers);
}

/// Votes are part of the global state, and a vote of 0 takes none back: site 1 goes to state 1 with
/// and without its vote, and on to state 2.
#[test]
fn votes() {
    let marks = vec![vec![WORKING; 3], vec![COMMITTED]];
    let moves =
        vec![go(1, 0, 1, 1, &[0], &[1]), go(1, 0, 1, 0, &[0], &[1]), go(1, 1, 2, 0, &[1], &[])];
    let text = "sheet 2 sites 5 states\n\
                1.0 w y 2.0 n blocked\n\
                1.1 w y 2.0 n blocked\n\
                1.2 w y 2.0 n blocked\n\
                2.0 c y 1.0,1.1,1.2 n commit\n\
                verdict blocking at 1.0 condition 2\n\
                tolerance not stated\n";
    let numbers = [
        number(1 << 0, 0b00, [0, 0, 0, 0]),
        number(1 << 1, 0b00, [1, 0, 0, 0]),
        number(1 << 1, 0b01, [1, 0, 0, 0]),
        number(0, 0b00, [2, 0, 0, 0]),
        number(0, 0b01, [2, 0, 0, 0]),
    ];
    hold(&Draft::new(marks, 1, moves), text, &numbers);
}

/// Sheets without transitions. With nothing outstanding the one state has the number 0.
#[test]
fn no_transitions() {
    let two = "sheet 2 sites 1 states\n\
               1.0 w y 2.0 n abort\n\
               2.0 w y 1.0 n abort\n\
               verdict nonblocking\n\
               tolerance not stated\n";
    hold(&Draft::new(vec![vec![WORKING]; 2], 0, vec![]), two, &[0]);
    hold(&Draft::new(vec![vec![WORKING]; 2], 1 << 31, vec![]), two, &[1 << 31]);
    let three = "sheet 3 sites 1 states\n\
                 1.0 a y 2.0,3.0 n blocked\n\
                 2.0 c y 1.0,3.0 n commit\n\
                 3.0 w y 1.0,2.0 n blocked\n\
                 verdict blocking at 1.0 condition 2\n\
                 tolerance not stated\n";
    hold(&Draft::new(vec![vec![ABORTED], vec![COMMITTED], vec![WORKING]], 0, vec![]), three, &[0]);
}
