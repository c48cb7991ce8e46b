//! 02, "A day's journal in one call": what it answers, where it ends, and what it leaves of the run.

use super::words::*;
use compare::day::RunJournal;
use compare::inputs::days::longest;
use compare::inputs::pattern;
use fjadrimor::calls::DAY_ANSWER;

/// The records of these events K S O M V X.
fn journal(events: &[[u8; 6]]) -> Vec<u8> {
    events.iter().flat_map(|event| [&[0, 7, 1], &event[..]].concat()).collect()
}

/// A day in words: what is returned, the accepted events, the messages written, the place, the sites
/// awaited, the lowest of them if there is one, and then all of the run that is not as before. The
/// byte after the answer must stay.
fn day(program: RunJournal, run: &Run, journal: &[u8]) -> String {
    let (mut after, mut answer) = (run.0.clone(), pattern(DAY_ANSWER + 1));
    let returned = program(&mut after, journal, &mut answer);
    assert_eq!(answer.pop(), pattern(DAY_ANSWER + 1).pop());
    let number = |at: usize| u64::from_be_bytes(answer[at..at + 8].try_into().unwrap());
    let counts = format!("{} accepted {} written, at {}", number(0), number(8), number(16));
    let answer = format!("{returned}: {counts}, {}", awaited(answer[24], answer[25]));
    [vec![answer], changes(&run.0, &after)].concat().join(", ")
}

/// A run, a journal, and what comes of it.
type Row = (Run, Vec<u8>, &'static str);

fn hold(rows: &[Row]) {
    for (program, (run, journal, expected)) in each(DAYS, rows) {
        assert_eq!(day(program, run, journal), *expected, "{journal:?} in {run:?}");
    }
}

/// 01's worked rehearsal, without its first byte.
const CLOSE: [[u8; 6]; 8] = [
    [BEGIN, 1, 0, 0, AYE, 0],
    [DELIVER, 2, 1, START, AYE, 0],
    [DELIVER, 1, 2, YES, 0, 0],
    [CONCLUDE, 1, 0, 0, 0, 0],
    [DELIVER, 2, 1, MOVE_P, 0, 0],
    [DELIVER, 1, 2, ACK, 0, 0],
    [CONCLUDE, 1, 0, 0, 0, 0],
    [DELIVER, 2, 1, COMMIT, 0, 0],
];

/// "Events are taken from the front until .. no byte is left (no refusal)": `end 8 5` of the
/// rehearsal, and each shorter day. The place is then the journal's length.
#[test]
fn the_worked_close_day_by_day() {
    let close = journal(&CLOSE);
    let days = [
        "0: 0 accepted 0 written, at 0, 0 awaited",
        "0: 1 accepted 1 written, at 9, 1 awaited, ring 2, 1:w1, +Start 1>2",
        "0: 2 accepted 2 written, at 18, 0 awaited, 1:w1, 2:w1, +Yes 2>1",
        "0: 3 accepted 2 written, at 27, 0 awaited, 1:w1 yes=2, 2:w1",
        "0: 4 accepted 3 written, at 36, 1 awaited, ring 2, 1:p1 yes=2, 2:w1, +Move-p 1>2",
        "0: 5 accepted 4 written, at 45, 0 awaited, 1:p1 yes=2, 2:p1, +Ack 2>1",
        "0: 6 accepted 4 written, at 54, 0 awaited, 1:p1 yes=2 acked=2, 2:p1",
        "0: 7 accepted 5 written, at 63, 0 awaited, 1:c1 yes=2 acked=2, 2:p1, +Commit 1>2",
        "0: 8 accepted 5 written, at 72, 0 awaited, 1:c1 yes=2 acked=2, 2:c1",
    ];
    let row = |(count, expected): (usize, _)| (run(2), close[..9 * count].to_vec(), expected);
    hold(&(0..).zip(days).map(row).collect::<Vec<Row>>());
}

/// "Until reader or run refuses one": each ground of the run and of the reader, after an accepted
/// Begin; "the run is as after the accepted ones", and nothing after the refused one counts.
#[test]
fn the_first_refusal_ends_it() {
    let refused: [(u8, &[u8]); 12] = [
        (2, &[0, 7, 1, CONCLUDE, 4, 0, 0, 0, 0]),
        (3, &[0, 7, 1, STOP, 3, 0, 0, 0, 0]),
        (4, &[0, 7, 1, DELIVER, 1, 2, YES, 0, 0]),
        (4, &[0, 7, 1, NOTICE, 1, 2, 0, 0, 0]),
        (5, &[0, 7, 1, BEGIN, 1, 0, 0, AYE, 0]),
        (6, &[0, 7, 1, DELIVER, 2, 1, MOVE_P, 0, 0]),
        (11, &[0, 9, 1, STOP, 2, 0, 0, 0, 0]),
        (12, &[0, 7, 2, STOP, 2, 0, 0, 0, 0]),
        (13, &[0, 7, 1, 7, 2, 0, 0, 0, 0]),
        (14, &[0, 7, 1, STOP, 9, 0, 0, 0, 0]),
        (14, &[0, 7, 1, DELIVER, 2, 1, START, 0, 0]),
        (14, &[0, 7, 1, STOP, 2, 0, 0, 0, 1]),
    ];
    let before = run(3).stopped(0b100).sent(MOVE_P, 1, 0b010);
    let begin = journal(&CLOSE[..1]);
    let stop = journal(&[[STOP, 2, 0, 0, 0, 0]]);
    for (program, (ground, bytes)) in each(DAYS, &refused) {
        let expected = "1 accepted 2 written, at 9, 2 awaited, ring 2, 1:w1, +Start 1>2";
        let told = day(program, &before, &[&begin, *bytes, &stop].concat());
        assert_eq!(told, format!("{ground}: {expected}"), "{bytes:?}");
    }
}

/// A journal that is cut: 10 where a record has too few bytes.
#[test]
fn cut_anywhere() {
    let close = journal(&CLOSE);
    for (program, length) in each(DAYS, &(0..close.len()).collect::<Vec<usize>>()) {
        let whole = day(program, &run(2), &close[..length / 9 * 9]);
        let ground = if length % 9 == 0 { "0:" } else { "10:" };
        let told = day(program, &run(2), &close[..*length]);
        assert_eq!(told, whole.replacen("0:", ground, 1), "{length}");
    }
}

/// "The last accepted one's awaited number (else 0)", and by 02, Ask 4 the lowest awaited site: also
/// where a later one is refused; 0 after a stop; that of a later event that awaits nobody is 0.
#[test]
fn awaited_of_the_last_accepted() {
    let begin = [BEGIN, 1, 0, 0, AYE, 0];
    let stop = [STOP, 4, 0, 0, 0, 0];
    hold(&[
        (
            run(4),
            journal(&[begin, begin]),
            "5: 1 accepted 3 written, at 9, 3 awaited, ring 2, 1:w1, +Start 1>2,3,4",
        ),
        (
            run(4),
            journal(&[begin, stop, stop]),
            "3: 2 accepted 3 written, at 18, 0 awaited, stopped=4, 1:w1, +Start 1>2,3",
        ),
        (run(4), journal(&[[CONCLUDE, 1, 0, 0, 0, 0]]), "5: 0 accepted 0 written, at 0, 0 awaited"),
        (
            run(4),
            journal(&[begin, stop, [NOTICE, 1, 4, 0, 0, 0], stop]),
            "3: 3 accepted 3 written, at 27, 2 awaited, ring 2, stopped=4, 1:w1 known=4, \
             +Start 1>2,3",
        ),
    ]);
}

/// "For each record the reader comes first, then the run: an unsound run is refused with 1 at the
/// first record that can be read, and a journal without a byte refuses nothing whatever the run."
#[test]
fn the_reader_comes_before_the_run() {
    let rows: [(&[u8], u8); 7] = [
        (&[], 0),
        (&[0], 10),
        (&[0, 8], 11),
        (&[0, 7, 2, STOP, 2, 0, 0, 0, 0], 12),
        (&[0, 7, 1, 7, 2, 0, 0, 0, 0], 13),
        (&[0, 7, 1, STOP, 9, 0, 0, 0, 0], 14),
        (&[0, 7, 1, STOP, 8, 0, 0, 0, 0], 1),
    ];
    let unsound = [run(0), run(3).with(0, 9), run(3).stopped(0b1000), run(3).sent(9, 8, 1)];
    for (program, (bytes, ground)) in each(DAYS, &rows) {
        for run in &unsound {
            let expected = format!("{ground}: 0 accepted 0 written, at 0, 0 awaited");
            assert_eq!(day(program, run, bytes), expected, "{bytes:?} in {run:?}");
        }
    }
}

/// A sound run in which site 2 leads though site 1 runs: its Abort to site 1 goes a way that no
/// message goes. That event is accepted, and the next one that can be read is refused with 1.
#[test]
fn a_run_that_loses_soundness_on_the_way() {
    let led = run(2).site([2, 2, W, 2, 0, 0, 0, 0b01]);
    let (begin, conclude) = ([BEGIN, 1, 0, 0, AYE, 0], [CONCLUDE, 2, 0, 0, 0, 0]);
    let lost = "2 accepted 2 written, at 18, 0 awaited, 1:w1, 2:a2, +Start 1>2, +Abort 2>1";
    let day = journal(&[begin, conclude]);
    let rows: [(&[u8], u8); 4] = [
        (&[], 0),
        (&[0, 7], 10),
        (&journal(&[begin]), 1),
        (&journal(&[[STOP, 9, 0, 0, 0, 0]]), 14),
    ];
    for (program, (rest, ground)) in each(DAYS, &rows) {
        let told = self::day(program, &led, &[&day, *rest].concat());
        assert_eq!(told, format!("{ground}: {lost}"));
    }
}

/// A call with so many bytes of answer: what it returns, and what it leaves of run and answer.
fn call(program: RunJournal, run: &[u8], journal: &[u8], room: usize) -> (u8, Vec<u8>, Vec<u8>) {
    let (mut run, mut answer) = (run.to_vec(), pattern(room));
    (program(&mut run, journal, &mut answer), run, answer)
}

/// "15 first of all, for an answer under 26 bytes, with nothing touched; 1 for bytes that are no run,
/// before the journal is looked at, with 26 zeros."
#[test]
fn the_grounds_of_the_interface() {
    let fresh = run(2).0;
    let no_runs = [
        Vec::new(),
        fresh[1..].to_vec(),
        [&fresh[..], &[0]].concat(),
        run(2).with(2 + 2, 5).0,
        run(2).with(2 + 8 * 7 + 2, 255).0,
    ];
    let journals = [Vec::new(), vec![0], vec![0, 8], journal(&CLOSE)];
    for (program, journal) in each(DAYS, &journals) {
        for bytes in &no_runs {
            let zeros = [&[0; 26][..], &pattern(30)[26..]].concat();
            assert_eq!(call(program, bytes, journal, 30), (1, bytes.clone(), zeros));
        }
        for (run, room) in no_runs.iter().chain([&fresh]).flat_map(|run| [(run, 0), (run, 25)]) {
            assert_eq!(call(program, run, journal, room), (15, run.clone(), pattern(room)));
        }
    }
}

/// The longest close of n sites is accepted whole, in one call: 2n² + 3n - 1 events, which write as
/// many messages as 01's bound has. Ten megabytes of it are no special case.
#[test]
fn the_longest_closes() {
    for (program, n) in each(DAYS, &[2, 3, 4, 5, 6, 7, 8]) {
        let (close, sites) = (longest(*n), usize::from(*n));
        let events = 2 * sites.pow(2) + 3 * sites - 1;
        let messages = 5 * (sites - 1) + 3 * (sites - 1) * (sites - 2) / 2;
        let counts = format!("{events} accepted {messages} written, at {}, 0 awaited", 9 * events);
        let told = day(program, &run(*n), &close);
        assert!(told.starts_with(&format!("0: {counts}")), "{told}");
        let long = close.repeat((10 << 20) / close.len() + 1);
        assert_eq!(day(program, &run(*n), &long), told.replacen("0:", "3:", 1));
    }
}
