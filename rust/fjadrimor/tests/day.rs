//! A day's journal: events handed over together, and where they end.

use fjadrimor::{Day, Event, Journal, Kind, Refusal, Run, Sites, State, Step, Vote};

fn act(site: u8, step: Step) -> Event {
    Event::Act { site, step }
}

fn deliver(site: u8, kind: Kind, from: u8) -> Event {
    act(site, Step::Deliver { kind, from })
}

/// A close of three in which site 3 stops while it votes: its Yes leaves, and the others post.
fn close() -> Vec<Event> {
    let vote = Vote::Yes;
    let start = Step::Start { from: 1, vote };
    vec![
        act(1, Step::Begin(vote)),
        act(2, start),
        Event::StopDuring { site: 3, step: start, leaving: Sites::from_iter([1]) },
        deliver(1, Kind::Yes, 2),
        deliver(1, Kind::Yes, 3),
        act(1, Step::Conclude),
        deliver(2, Kind::MoveP, 1),
        deliver(1, Kind::Ack, 2),
        act(1, Step::Notice(3)),
        act(1, Step::Conclude),
        deliver(2, Kind::Commit, 1),
    ]
}

fn journal(events: &[Event]) -> Journal {
    let mut journal = Journal::new(3);
    events.iter().for_each(|event| journal.push(*event).expect("an event for a record"));
    journal
}

/// The answer where nothing is handed over.
const NOTHING: Day =
    Day { accepted: 0, written: 0, place: 0, awaited: 0, lowest: None, refusal: None };

/// The same events by one call after another: the run, and what the day's answer has of them.
fn one_by_one(mut run: Run, events: &[Event]) -> (Run, Day) {
    let mut day = NOTHING;
    for event in events {
        match run.happens(*event) {
            Ok(ran) => {
                day.accepted += 1;
                day.written += usize::from(ran.written);
                day.place += 9;
                (day.awaited, day.lowest) = (ran.awaited, ran.lowest);
            }
            Err(refusal) => {
                day.refusal = Some(refusal);
                break;
            }
        }
    }
    (run, day)
}

#[test]
fn a_close_in_one_call() {
    let mut run = Run::fresh(3).unwrap();
    let day = run.journal(journal(&close()).records());
    assert_eq!(day, Day { accepted: 11, written: 8, place: 99, ..NOTHING });
    let states = [1, 2, 3].map(|number| run.site(number).unwrap().state());
    assert_eq!(states, [State::Commit, State::Commit, State::First]);
}

/// Cut after any record, and with any record left out, it comes out as one call after another would.
#[test]
fn as_one_call_after_another() {
    let fresh = Run::fresh(3).unwrap();
    for place in 0..=close().len() {
        let shorter = close()[..place].to_vec();
        let mut without = close();
        without.drain(place..without.len().min(place + 1));
        for events in [shorter, without] {
            let mut run = fresh;
            let day = run.journal(journal(&events).records());
            assert_eq!((run, day), one_by_one(fresh, &events), "{events:?}");
        }
    }
}

#[test]
fn what_was_accepted_before_a_bad_record_counts() {
    let good = journal(&close()[..4]);
    let damaged: [(&[u8], Refusal); 6] = [
        (&[0], Refusal::TooShort),
        (&[0, 7, 1, 6, 2], Refusal::TooShort),
        (&[0, 9], Refusal::WrongLength),
        (&[0, 7, 2, 6, 2, 0, 0, 0, 0], Refusal::WrongVersion),
        (&[0, 7, 1, 7, 2, 0, 0, 0, 0], Refusal::UnknownK),
        (&[0, 7, 1, 6, 9, 0, 0, 0, 0], Refusal::WrongField),
    ];
    for (bytes, refusal) in damaged {
        let mut run = Run::fresh(3).unwrap();
        let day = run.journal(&[good.records(), bytes].concat());
        let (lowest, refusal) = (Some(3), Some(refusal));
        assert_eq!(day, Day { accepted: 4, written: 4, place: 36, awaited: 1, lowest, refusal });
        assert_eq!(run, one_by_one(Run::fresh(3).unwrap(), &close()[..4]).0);
    }
}

/// An operator finds the refused record by its place, puts in what is missing, and hands over the
/// rest.
#[test]
fn a_day_goes_on_where_it_ended() {
    let mut events = close();
    let missing = events.remove(7);
    let handed_over = journal(&events);
    let mut run = Run::fresh(3).unwrap();
    let day = run.journal(handed_over.records());
    assert_eq!((day.refusal, day.place), (Some(Refusal::NotAllowed), 8 * 9));
    run.happens(missing).unwrap();
    let rest = run.journal(&handed_over.records()[day.place..]);
    assert_eq!((rest.refusal, day.accepted + rest.accepted), (None, 10));
    assert_eq!(run, one_by_one(Run::fresh(3).unwrap(), &close()).0);
}

#[test]
fn an_empty_journal_refuses_nothing() {
    let mut run = Run::fresh(3).unwrap();
    assert_eq!(run.journal(Journal::from_bytes(Vec::new()).records()), NOTHING);
    assert_eq!(run, Run::fresh(3).unwrap());
}

/// Site 2 leads in w without knowing that site 1 has stopped, and site 1 runs: its Abort to site 1
/// goes the wrong way. That event counts, and the next is refused.
#[test]
fn a_run_may_lose_soundness_on_the_way() {
    let mut bytes = Run::fresh(2).unwrap().bytes();
    bytes[10..18].copy_from_slice(&[2, 2, 1, 2, 0, 0, 0, 1]);
    let mut run = Run::from_bytes(bytes).unwrap();
    let events = [act(1, Step::Begin(Vote::Yes)), act(2, Step::Conclude), Event::Stop { site: 1 }];
    let day = run.journal(journal(&events).records());
    let refusal = Some(Refusal::NotSound);
    assert_eq!(day, Day { accepted: 2, written: 2, place: 18, refusal, ..NOTHING });
    assert_eq!(Run::from_bytes(run.bytes()), Err(Refusal::NotSound));
    assert_eq!(run.journal(&[]).refusal, None);
}

/// Ten megabytes are a journal like any other.
#[test]
fn a_long_journal() {
    let mut long = journal(&close()).records().to_vec();
    while long.len() < 10 << 20 {
        long.extend_from_within(..99);
    }
    let day = Run::fresh(3).unwrap().journal(&long);
    let refusal = Some(Refusal::NotAllowed);
    assert_eq!(day, Day { accepted: 11, written: 8, place: 99, refusal, ..NOTHING });
}
