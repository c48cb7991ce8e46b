//! 01's worked rehearsal and the edges of the text.

use second::journal::{read, write};
use second::rehearsal::rehearse;

fn record(fields: [u8; 6]) -> Vec<u8> {
    let mut room = vec![0; 9];
    assert_eq!(write(fields, &mut room), Ok(()));
    room
}

fn journal(n: u8, events: &[[u8; 6]]) -> Vec<u8> {
    let mut bytes = vec![n];
    events.iter().for_each(|&event| bytes.extend(record(event)));
    bytes
}

#[test]
fn the_worked_example() {
    let events = [
        [1, 1, 0, 0, 1, 0],
        [2, 2, 1, 1, 1, 0],
        [2, 1, 2, 2, 0, 0],
        [5, 1, 0, 0, 0, 0],
        [2, 2, 1, 4, 0, 0],
        [2, 1, 2, 6, 0, 0],
        [5, 1, 0, 0, 0, 0],
        [2, 2, 1, 7, 0, 0],
    ];
    let text = include_str!("../../../crates/rehearsal/stdout");
    assert_eq!(rehearse(&journal(2, &events)), text);
}

/// "The lowest site awaited by the acting site after the event, or `-`": of three awaited ones the
/// next after each vote; a higher one that answers first changes nothing.
#[test]
fn the_lowest_awaited() {
    let start = |to| [2, to, 1, 1, 1, 0];
    let yes = |from| [2, 1, from, 2, 0, 0];
    let events = [[1, 1, 0, 0, 1, 0], start(3), yes(3), start(2), yes(2), start(4), yes(4)];
    let text = "sites 4\n1 taken wqqq 2\n2 taken wqwq -\n3 taken wqwq 2\n4 taken wwwq -\n\
                5 taken wwwq 4\n6 taken wwww -\n7 taken wwww -\nend 7 6\n";
    assert_eq!(rehearse(&journal(4, &events)), text);
}

#[test]
fn no_sites_and_no_records() {
    for input in [&[][..], &[0], &[1], &[9], &[255, 0, 7]] {
        assert_eq!(rehearse(input), "refused 1\n");
    }
    assert_eq!(rehearse(&[8]), "sites 8\nend 0 0\n");
}

#[test]
fn refused_stopped_and_bad() {
    let mut bytes = journal(2, &[[4, 2, 0, 0, 0, 0], [17, 1, 0, 0, 1, 255], [6, 1, 0, 0, 0, 0]]);
    bytes.extend([0, 7]);
    let text = "sites 2\n1 refused 5 qq\n2 taken Qq -\n3 refused 3 Qq\n4 bad 10\nend 1 1\n";
    assert_eq!(rehearse(&bytes), text);
}

#[test]
fn row_11_and_the_reader_s_order() {
    assert_eq!(read(&[0, 7, 2, 0, 0, 0, 0, 0, 0]), Err(12));
    assert_eq!(read(&[0, 8]), Err(11));
    assert_eq!(read(&[0, 7]), Err(10));
    assert_eq!(read(&[0]), Err(10));
    assert_eq!(read(&[0, 7, 1, 7, 9, 0, 0, 0, 0]), Err(13));
    assert_eq!(read(&[0, 7, 1, 6, 9, 0, 0, 0, 0]), Err(14));
}

#[test]
fn a_journal_over_the_limit() {
    let text = rehearse(&journal(2, &[[4, 2, 0, 0, 0, 0]; 7300]));
    assert!(text.ends_with("7281 refused 5 qq\n7282 bad 10\nend 0 0\n"));
}
