//! Sites: the starred rows on a single step, a whole close, and bytes that are no record.

use fjadrimor::{Kind, Outcome, Refusal, Site, Sites, State, Step, Vote};
use std::collections::VecDeque;

fn site(bytes: [u8; 8]) -> Site {
    Site::from_bytes(bytes).expect("a sound record")
}

fn set(sites: &[u8]) -> Sites {
    sites.iter().copied().collect()
}

#[test]
fn row_3_begin_yes() {
    let mut first = Site::fresh(8, 1).unwrap();
    let done = first.step(Step::Begin(Vote::Yes)).unwrap();
    assert_eq!((done.written, done.awaited, done.lowest), (7, 7, Some(2)));
    assert_eq!((done.message, done.receivers), (Some(Kind::Start), set(&[2, 3, 4, 5, 6, 7, 8])));
}

#[test]
fn row_4_begin_at_site_2_is_refused_and_changes_nothing() {
    let mut second = Site::fresh(3, 2).unwrap();
    assert_eq!(second.step(Step::Begin(Vote::Yes)), Err(Refusal::NotAllowed));
    assert_eq!(second, Site::fresh(3, 2).unwrap());
}

#[test]
fn row_5_start_yes_in_q() {
    let mut second = Site::fresh(3, 2).unwrap();
    let done = second.step(Step::Start { from: 1, vote: Vote::Yes }).unwrap();
    assert_eq!((done.message, done.receivers), (Some(Kind::Yes), set(&[1])));
    assert_eq!(second.state(), State::Wait);
}

#[test]
fn row_6_move_p_in_q() {
    let mut second = Site::fresh(3, 2).unwrap();
    let refused = second.step(Step::Deliver { kind: Kind::MoveP, from: 1 });
    assert_eq!(refused, Err(Refusal::Conflict));
}

#[test]
fn row_7_move_p_of_an_old_leader() {
    let before = site([3, 3, 1, 2, 1, 0, 0, 0]);
    let mut third = before;
    let done = third.step(Step::Deliver { kind: Kind::MoveP, from: 1 }).unwrap();
    assert_eq!((done.outcome, done.message, done.written), (Outcome::Passed, None, 0));
    assert_eq!(third, before);
}

#[test]
fn row_8_move_w_in_p() {
    let mut third = site([3, 3, 2, 1, 1, 0, 0, 0]);
    let done = third.step(Step::Deliver { kind: Kind::MoveW, from: 2 }).unwrap();
    assert_eq!((done.message, done.receivers), (Some(Kind::Ack), set(&[2])));
    assert_eq!((third.state(), third.leader()), (State::Wait, 2));
}

#[test]
fn row_9_take_over_in_q() {
    let mut second = site([3, 2, 0, 1, 1, 0, 0, 0]);
    let done = second.step(Step::TakeOver).unwrap();
    assert_eq!((done.message, done.receivers), (Some(Kind::Abort), set(&[3])));
    assert_eq!(second.state(), State::Abort);
}

#[test]
fn row_10_take_over_in_p_and_conclude() {
    let mut second = site([2, 2, 2, 1, 1, 0, 0, 0]);
    let done = second.step(Step::TakeOver).unwrap();
    assert_eq!((done.written, done.awaited, done.lowest), (0, 0, None));
    assert_eq!(second.state(), State::Prepared);
    second.step(Step::Conclude).unwrap();
    assert_eq!(second.state(), State::Commit);
    assert!(second.state().is_decided());
}

/// What each site keeps is its own record; the messages are all that goes between them.
#[test]
fn a_close_of_eight_sites_by_messages_alone() {
    let mut sites: Vec<Site> = (1..=8).map(|number| Site::fresh(8, number).unwrap()).collect();
    let mut network = VecDeque::new();
    let take = |sites: &mut Vec<Site>, network: &mut VecDeque<_>, at: u8, step| {
        let done = sites[usize::from(at) - 1].step(step)?;
        network.extend(done.messages().map(|(kind, to)| (kind, at, to)));
        Ok::<(), Refusal>(())
    };
    take(&mut sites, &mut network, 1, Step::Begin(Vote::Yes)).unwrap();
    while let Some((kind, from, to)) = network.pop_front() {
        let step = match kind {
            Kind::Start => Step::Start { from, vote: Vote::Yes },
            _ => Step::Deliver { kind, from },
        };
        take(&mut sites, &mut network, to, step).unwrap();
        while take(&mut sites, &mut network, to, Step::Conclude).is_ok() {}
    }
    assert!(sites.iter().all(|site| site.state() == State::Commit));
    assert_eq!(sites[0].yes_heard(), set(&[2, 3, 4, 5, 6, 7, 8]));
    assert_eq!(sites[0].acknowledged(), set(&[2, 3, 4, 5, 6, 7, 8]));
    assert_eq!((sites[0].no_heard(), sites[0].known_stopped()), (set(&[]), set(&[])));
}

#[test]
fn other_steps_are_refused_with_their_number() {
    let mut second = Site::fresh(3, 2).unwrap();
    let refusals = [
        (Step::Notice(2), 2),
        (Step::Notice(4), 2),
        (Step::Deliver { kind: Kind::Yes, from: 1 }, 2),
        (Step::Deliver { kind: Kind::Start, from: 1 }, 14),
        (Step::TakeOver, 5),
        (Step::Conclude, 5),
    ];
    for (step, number) in refusals {
        assert_eq!(second.step(step).map_err(Refusal::number), Err(number), "{step:?}");
    }
}

#[test]
fn only_sound_records_are_sites() {
    for n in 0..=255 {
        for number in 0..=255 {
            let sound = (2..=8).contains(&n) && (1..=n).contains(&number);
            assert_eq!(Site::fresh(n, number).is_ok(), sound, "site {number} of {n}");
        }
    }
    let unsound = [
        [3, 2, 5, 1, 0, 0, 0, 0],
        [3, 2, 255, 1, 0, 0, 0, 0],
        [3, 2, 0, 3, 0, 0, 0, 0],
        [3, 2, 0, 0, 0, 0, 0, 0],
        [3, 2, 0, 1, 2, 0, 0, 0],
        [3, 2, 0, 1, 0, 8, 0, 0],
        [255; 8],
    ];
    for bytes in unsound {
        assert_eq!(Site::from_bytes(bytes), Err(Refusal::NotSound), "{bytes:?}");
    }
}

#[test]
fn a_record_comes_back_as_its_bytes() {
    let bytes = [8, 7, 2, 3, 0b11, 0b100, 0b1000, 0b1000_0000];
    let seventh = site(bytes);
    assert_eq!(seventh.bytes(), bytes);
    assert_eq!((seventh.n(), seventh.number(), seventh.state().letter()), (8, 7, 'p'));
    assert_eq!((seventh.leader(), seventh.known_stopped()), (3, set(&[1, 2])));
    assert_eq!((seventh.yes_heard(), seventh.no_heard()), (set(&[3]), set(&[4])));
    assert_eq!(seventh.acknowledged(), set(&[8]));
}
