//! "The rehearsal program": its text, line by line.

use super::words::*;
use compare::journal::{Journaling, AMPLE};

/// The number of sites, and the records of these fields.
fn journal(n: u8, events: &[[u8; 6]]) -> Vec<u8> {
    let mut bytes = vec![n];
    events.iter().for_each(|event| bytes.extend([&[0, 7, 1], &event[..]].concat()));
    bytes
}

fn rehearsal(program: Journaling, input: &[u8]) -> String {
    let mut text = vec![0; AMPLE];
    let length = (program.rehearse)(input, &mut text);
    String::from_utf8_lossy(&text[..length]).into_owned()
}

const CLOSE: [[u8; 6]; 8] = [
    [BEGIN, 1, 0, 0, AYE, 0],
    [DELIVER, 2, 1, START, AYE, 0],
    [DELIVER, 1, 2, YES, 0, 0],
    [CONCLUDE, 1, 0, 0, 0, 0],
    [DELIVER, 2, 1, MOVE_P, 0, 0],
    [DELIVER, 1, 2, ACK, 0, 0],
    [CONCLUDE, 1, 0, 0, 0, 0],
    [DELIVER, 2, 1, COMMIT, 0, 0],
];

/// "For n = 2 and begin yes, Start (yes), Yes, conclude, Move-p, Ack, conclude, Commit." 02, Ask 4:
/// "01's example gains `2`, `-`, `-`, `2`, `-`, `-`, `-`, `-` on its eight lines."
#[test]
fn the_worked_rehearsal() {
    let text = "sites 2\n1 taken wq 2\n2 taken ww -\n3 taken ww -\n4 taken pw 2\n5 taken pp -\n\
                6 taken pp -\n7 taken cp -\n8 taken cc -\nend 8 5\n";
    assert_eq!(text, include_str!("../../../../crates/rehearsal/stdout"));
    for program in JOURNALS {
        assert_eq!(rehearsal(program, &journal(2, &CLOSE)), text);
    }
}

/// "Where n is missing or not 2..8: `refused 1` alone."
#[test]
fn without_a_number_of_sites() {
    let inputs: [&[u8]; 6] = [&[], &[0], &[1], &[9], &[255, 0, 7], &[1, 0, 7, 1, 6, 1, 0, 0, 0, 0]];
    for (program, input) in each(JOURNALS, &inputs) {
        assert_eq!(rehearsal(program, input), "refused 1\n", "{input:?}");
    }
    for program in JOURNALS {
        assert_eq!(rehearsal(program, &[2]), "sites 2\nend 0 0\n");
        assert_eq!(rehearsal(program, &[8]), "sites 8\nend 0 0\n");
    }
}

/// "Per record: its place, `taken` (any accepted stop too), `passed` or `refused N`, and a letter per
/// site, upper case if stopped. Last: events accepted, messages written." A refused event has a line
/// with letters, and the rehearsal goes on; passed ones and stops are accepted. 02, Ask 4: "The
/// rehearsal line for a taken or passed event gains a final field, the lowest site awaited by the
/// acting site after the event, or `-`; it is `-` after a stop."
#[test]
fn every_word() {
    let events = [
        [BEGIN, 1, 0, 0, AYE, 0],
        [BEGIN, 1, 0, 0, AYE, 0],
        [DELIVER, 2, 1, START, AYE, 0],
        [DURING + DELIVER, 3, 1, START, AYE, 0b001],
        [STOP, 4, 0, 0, 0, 0],
        [NOTICE, 1, 4, 0, 0, 0],
        [NOTICE, 1, 4, 0, 0, 0],
        [DURING + CONCLUDE, 1, 0, 0, 0, 0b010],
        [NOTICE, 2, 1, 0, 0, 0],
        [TAKE_OVER, 2, 0, 0, 0, 0],
        [DELIVER, 2, 1, ABORT, 0, 0],
        [NOTICE, 2, 9, 0, 0, 0],
    ];
    let text = "sites 4\n\
                1 taken wqqq 2\n\
                2 refused 5 wqqq\n\
                3 taken wwqq -\n\
                4 taken wwQq -\n\
                5 taken wwQQ -\n\
                6 taken wwQQ 2\n\
                7 refused 4 wwQQ\n\
                8 taken WwQQ -\n\
                9 taken WwQQ -\n\
                10 taken WwQQ 3\n\
                11 passed WwQQ 3\n\
                12 bad 14\n\
                end 9 8\n";
    for program in JOURNALS {
        assert_eq!(rehearsal(program, &journal(4, &events)), text);
    }
}

/// "A bad record gives `K bad N`, K its place, then the last line." Nothing more is read.
#[test]
fn a_bad_record() {
    let bad: [(&[u8], &str); 6] = [
        (&[0], "2 bad 10"),
        (&[0, 7, 1, 1], "2 bad 10"),
        (&[0, 8], "2 bad 11"),
        (&[0, 7, 2, 0, 0, 0, 0, 0, 0], "2 bad 12"),
        (&[0, 7, 1, 7, 1, 0, 0, 0, 0], "2 bad 13"),
        (&[0, 7, 1, 6, 9, 0, 0, 0, 0], "2 bad 14"),
    ];
    for (program, (bytes, line)) in each(JOURNALS, &bad) {
        let text = format!("sites 2\n1 taken wq 2\n{line}\nend 1 1\n");
        let begun = journal(2, &CLOSE[..1]);
        assert_eq!(rehearsal(program, &[&begun[..], bytes].concat()), text);
        if bytes.len() == 9 {
            let more = [&begun[..], bytes, &begun[1..]].concat();
            assert_eq!(rehearsal(program, &more), text);
        }
    }
}

/// "Both programs take only the first 65,536 bytes": n, 7,281 records and six bytes.
#[test]
fn a_journal_over_the_limit() {
    let long = journal(2, &[[CONCLUDE, 1, 0, 0, 0, 0]; 7300]);
    for (program, length) in each(JOURNALS, &[65_536, 65_537, long.len()]) {
        let text = rehearsal(program, &long[..*length]);
        assert!(text.ends_with("\n7281 refused 5 qq\n7282 bad 10\nend 0 0\n"));
    }
    for program in JOURNALS {
        let text = rehearsal(program, &long[..65_530]);
        assert!(text.ends_with("\n7281 refused 5 qq\nend 0 0\n"));
    }
}
