//! Journals: written, read and rehearsed.

use fjadrimor::{Event, Journal, Kind, Refusal, Sites, Step, Vote};

fn act(site: u8, step: Step) -> Event {
    Event::Act { site, step }
}

fn deliver(site: u8, kind: Kind, from: u8) -> Event {
    act(site, Step::Deliver { kind, from })
}

fn journal(n: u8, events: &[Event]) -> Journal {
    let mut journal = Journal::new(n);
    events.iter().for_each(|event| journal.push(*event).expect("an event for a record"));
    journal
}

/// Document 01's example.
#[test]
fn a_good_close_of_two() {
    let events = [
        act(1, Step::Begin(Vote::Yes)),
        act(2, Step::Start { from: 1, vote: Vote::Yes }),
        deliver(1, Kind::Yes, 2),
        act(1, Step::Conclude),
        deliver(2, Kind::MoveP, 1),
        deliver(1, Kind::Ack, 2),
        act(1, Step::Conclude),
        deliver(2, Kind::Commit, 1),
    ];
    let text = include_str!("../../../crates/rehearsal/stdout");
    assert_eq!(journal(2, &events).rehearse(), text);
}

#[test]
fn every_kind_of_event_is_read_as_it_was_written() {
    let steps = [
        Step::Begin(Vote::No),
        Step::Start { from: 1, vote: Vote::Yes },
        Step::Deliver { kind: Kind::Abort, from: 8 },
        Step::Notice(7),
        Step::TakeOver,
        Step::Conclude,
    ];
    let leaving = Sites::from_mask(0xA5);
    let mut events = vec![Event::Stop { site: 8 }];
    for step in steps {
        events.push(act(3, step));
        events.push(Event::StopDuring { site: 4, step, leaving });
    }
    let written = journal(8, &events);
    let read: Result<Vec<Event>, Refusal> = written.events().collect();
    assert_eq!(read, Ok(events));
    assert_eq!(Journal::from_bytes(written.bytes().to_vec()), written);
}

#[test]
fn what_no_record_holds_is_refused_and_not_added() {
    let mut empty = Journal::new(2);
    let wrong = [
        act(0, Step::TakeOver),
        act(9, Step::TakeOver),
        act(1, Step::Notice(9)),
        deliver(2, Kind::Start, 1),
    ];
    for event in wrong {
        assert_eq!(empty.push(event), Err(Refusal::WrongField), "{event:?}");
    }
    assert_eq!(empty.bytes(), [2]);
}

/// Row 11, with a good record before it and one after.
#[test]
fn reading_ends_at_a_bad_record() {
    let good = [0, 7, 1, 1, 1, 0, 0, 1, 0];
    let mut bytes = vec![2];
    bytes.extend(good);
    bytes.extend([0, 7, 2, 1, 1, 0, 0, 1, 0]);
    bytes.extend(good);
    let journal = Journal::from_bytes(bytes);
    let begin = act(1, Step::Begin(Vote::Yes));
    assert!(journal.events().eq([Ok(begin), Err(Refusal::WrongVersion)]));
    assert_eq!(journal.rehearse(), "sites 2\n1 taken wq 2\n2 bad 12\nend 1 1\n");
}

#[test]
fn without_a_number_of_sites_there_is_nothing() {
    let journal = Journal::from_bytes(Vec::new());
    assert_eq!(journal.events().count(), 0);
    assert_eq!(journal.rehearse(), "refused 1\n");
}

/// 65,536 bytes of records are rehearsed, and their text has room.
#[test]
fn the_longest_journal() {
    let journal = journal(8, &vec![act(1, Step::Conclude); 7300]);
    assert!(journal.rehearse().ends_with("\n7281 refused 5 qqqqqqqq\n7282 bad 10\nend 0 0\n"));
}
