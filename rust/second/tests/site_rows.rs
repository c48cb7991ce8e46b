//! 01, "Tables to run and compare": the rows on a single site step.

use second::bytes::{set_of, site_step};
use second::site::{lowest, step, Record, State, Step, ABORT, ACK, MOVE_P, MOVE_W, START, YES};

fn site(n: u8, number: u8, state: State, leader: u8, known: u8) -> Record {
    Record { state, leader, known: set_of(known), ..Record::fresh(n, number) }
}

fn deliver(kind: u8, from: u8) -> Step {
    Step::Deliver { kind, from, vote: (kind == START).then_some(true) }
}

#[test]
fn row_3_begin_yes() {
    let done = step(&Record::fresh(8, 1), &Step::Begin(true)).ok().unwrap();
    let awaited = done.record.awaited();
    assert_eq!((done.messages.len(), awaited.len(), lowest(&awaited)), (7, 7, 2));
}

#[test]
fn row_4_begin_at_site_2() {
    assert_eq!(step(&Record::fresh(3, 2), &Step::Begin(true)).err(), Some(5));
}

#[test]
fn row_5_start_yes_in_q() {
    let done = step(&Record::fresh(3, 2), &deliver(START, 1)).ok().unwrap();
    assert_eq!(done.record.state, State::W);
    assert_eq!(done.messages, [(YES, 2, 1)].into());
}

#[test]
fn row_6_move_p_in_q() {
    assert_eq!(step(&Record::fresh(3, 2), &deliver(MOVE_P, 1)).err(), Some(6));
}

#[test]
fn row_7_move_p_from_an_old_leader() {
    let before = site(3, 3, State::W, 2, 0);
    let done = step(&before, &deliver(MOVE_P, 1)).ok().unwrap();
    assert!(done.passed && done.messages.is_empty() && done.record == before);
}

#[test]
fn row_8_move_w_in_p() {
    let done = step(&site(3, 3, State::P, 1, 0), &deliver(MOVE_W, 2)).ok().unwrap();
    assert_eq!((done.record.state, done.record.leader), (State::W, 2));
    assert_eq!(done.messages, [(ACK, 3, 2)].into());
}

#[test]
fn row_9_take_over_in_q() {
    let done = step(&site(3, 2, State::Q, 1, 1), &Step::TakeOver).ok().unwrap();
    assert_eq!(done.record.state, State::A);
    assert_eq!(done.messages, [(ABORT, 2, 3)].into());
}

#[test]
fn row_10_take_over_in_p_then_conclude() {
    let led = step(&site(2, 2, State::P, 1, 1), &Step::TakeOver).ok().unwrap();
    assert_eq!((led.record.state, led.messages.len()), (State::P, 0));
    let done = step(&led.record, &Step::Conclude).ok().unwrap();
    assert_eq!((done.record.state, done.messages.len()), (State::C, 0));
}

#[test]
fn bytes_of_row_5_and_the_grounds_of_the_interface() {
    let fresh = [3, 2, 0, 1, 0, 0, 0, 0];
    let call = |bytes: &[u8], k, o, m, v, room: usize| {
        let (mut site, mut answer) = (bytes.to_vec(), vec![9; room]);
        let refusal = site_step(&mut site, k, o, m, v, &mut answer);
        (refusal, site, answer)
    };
    let (refusal, after, answer) = call(&fresh, 2, 1, 1, 1, 7);
    assert_eq!((refusal, after[2], answer), (0, 1, vec![0, 2, 1, 1, 0, 0, 9]));
    assert_eq!(call(&fresh, 2, 1, 1, 1, 5), (15, fresh.to_vec(), vec![9; 5]));
    assert_eq!(call(&fresh[..7], 9, 0, 0, 0, 6).0, 1);
    assert_eq!(call(&fresh, 0, 0, 0, 3, 6).0, 13);
    assert_eq!(call(&fresh, 1, 0, 0, 0, 6).0, 14);
    assert_eq!(call(&fresh, 2, 9, 9, 1, 6).0, 14);
    assert_eq!(call(&fresh, 2, 9, 9, 0, 7), (2, fresh.to_vec(), vec![2, 0, 0, 0, 0, 0, 9]));
}
