//! Runs, from fresh and from bytes.

use fjadrimor::{Event, Kind, Message, Outcome, Refusal, Run, Sites, State, Step, Vote};

fn act(site: u8, step: Step) -> Event {
    Event::Act { site, step }
}

fn deliver(site: u8, kind: Kind, from: u8) -> Event {
    act(site, Step::Deliver { kind, from })
}

#[test]
fn rows_1_and_2_fresh_needs_two_to_eight_sites() {
    for n in 0..=255 {
        let fresh = Run::fresh(n).map(|run| run.n());
        let expected = if (2..=8).contains(&n) { Ok(n) } else { Err(Refusal::NotSound) };
        assert_eq!(fresh, expected);
    }
}

/// The Commit to site 3 leaves, the one to site 2 does not: site 2 takes over and both post.
#[test]
fn a_coordinator_that_stops_in_the_middle_of_commit() {
    let mut run = Run::fresh(3).unwrap();
    let vote = Vote::Yes;
    let prepared = [
        act(1, Step::Begin(vote)),
        act(2, Step::Start { from: 1, vote }),
        act(3, Step::Start { from: 1, vote }),
        deliver(1, Kind::Yes, 2),
        deliver(1, Kind::Yes, 3),
        act(1, Step::Conclude),
        deliver(2, Kind::MoveP, 1),
        deliver(3, Kind::MoveP, 1),
        deliver(1, Kind::Ack, 2),
        deliver(1, Kind::Ack, 3),
    ];
    prepared.into_iter().for_each(|event| assert!(run.happens(event).is_ok(), "{event:?}"));

    let leaving = Sites::from_iter([3]);
    let stop = Event::StopDuring { site: 1, step: Step::Conclude, leaving };
    let ran = run.happens(stop).unwrap();
    assert_eq!((ran.outcome, ran.written), (Outcome::Taken, 1));
    assert_eq!((ran.awaited, ran.lowest), (0, None));
    assert_eq!(run.stopped(), Sites::from_iter([1]));
    let commit = Message { kind: Kind::Commit, from: 1, to: 3 };
    assert!(run.outstanding().eq([commit]));
    assert_eq!(run.happens(deliver(2, Kind::Commit, 1)), Err(Refusal::NotThere));

    let ending = [
        deliver(3, Kind::Commit, 1),
        act(2, Step::Notice(1)),
        act(2, Step::TakeOver),
        deliver(3, Kind::MoveP, 2),
        deliver(2, Kind::Ack, 3),
        act(2, Step::Conclude),
    ];
    ending.into_iter().for_each(|event| assert!(run.happens(event).is_ok(), "{event:?}"));
    let states = [1, 2, 3].map(|number| run.site(number).unwrap().state());
    assert_eq!(states, [State::Prepared, State::Commit, State::Commit]);
}

/// Whom site 1 awaits, vote by vote: the lowest is the one to ring. Who answers a vote awaits nobody,
/// and a notice takes out who has stopped.
#[test]
fn the_lowest_awaited_is_the_one_to_ring() {
    let mut run = Run::fresh(4).unwrap();
    let vote = Vote::Yes;
    let story = [
        (act(1, Step::Begin(vote)), 3, Some(2)),
        (act(3, Step::Start { from: 1, vote }), 0, None),
        (deliver(1, Kind::Yes, 3), 2, Some(2)),
        (act(2, Step::Start { from: 1, vote }), 0, None),
        (deliver(1, Kind::Yes, 2), 1, Some(4)),
        (Event::Stop { site: 4 }, 0, None),
        (act(1, Step::Notice(4)), 0, None),
    ];
    for (event, awaited, lowest) in story {
        let ran = run.happens(event).unwrap();
        assert_eq!((ran.awaited, ran.lowest), (awaited, lowest), "{event:?}");
    }
}

#[test]
fn refused_events_change_nothing() {
    let fresh = Run::fresh(2).unwrap();
    let refusals = [
        (act(3, Step::Conclude), 2),
        (deliver(2, Kind::Commit, 1), 4),
        (act(2, Step::Notice(1)), 4),
        (act(2, Step::TakeOver), 5),
        (deliver(2, Kind::Start, 1), 14),
        (Event::StopDuring { site: 2, step: Step::Conclude, leaving: Sites::default() }, 5),
    ];
    for (event, number) in refusals {
        let mut run = fresh;
        assert_eq!(run.happens(event).map_err(Refusal::number), Err(number), "{event:?}");
        assert_eq!(run, fresh);
    }
}

#[test]
fn a_run_has_records_at_its_own_sites_only() {
    let run = Run::fresh(3).unwrap();
    let has = |number: &u8| run.site(*number).is_some();
    assert!((0..=255).filter(has).eq([1, 2, 3]));
}

#[test]
fn only_sound_runs_come_from_bytes() {
    let run = Run::fresh(4).unwrap();
    assert_eq!(Run::from_bytes(run.bytes()), Ok(run));
    for (place, byte) in [(0, 1), (1, 16), (2, 3), (4, 5), (137, 1), (66, 1)] {
        let mut bytes = run.bytes();
        bytes[place] = byte;
        assert_eq!(Run::from_bytes(bytes), Err(Refusal::NotSound), "{byte} at {place}");
    }
}
