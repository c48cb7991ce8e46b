//! That the search would notice each claim about one event.

use super::{about_event, Point, CLAIMS};
use crate::run::Run;
use crate::site::{Sites, State, ACK};
use State::{A, C, P, Q, W};

/// A run of two sites in these states, in which both have voted.
fn point(states: [State; 2]) -> Point {
    let mut run = Run::fresh(2).expect("two sites");
    states.into_iter().enumerate().for_each(|(place, state)| run.records[place].state = state);
    Point { run, voted: Sites::from([1, 2]) }
}

/// The claims that an event breaks.
fn broken(before: Point, after: Result<Point, u8>) -> Vec<&'static str> {
    let claims = about_event(&before, &after);
    claims.into_iter().filter(|claim| !claim.1).map(|claim| claim.0).collect()
}

#[test]
fn each_claim_is_noticed() {
    let none: [&str; 0] = [];
    assert_eq!(broken(point([P, P]), Ok(point([C, P]))), none);
    assert_eq!(broken(point([A, W]), Ok(point([A, C]))), ["agreement"]);
    assert_eq!(broken(point([C, P]), Ok(point([P, P]))), ["commit-stays"]);
    assert_eq!(broken(point([A, W]), Ok(point([W, W]))), ["abort-stays"]);
    assert_eq!(broken(point([Q, Q]), Err(6)), ["never-conflict"]);
    assert_eq!(broken(point([Q, Q]), Err(5)), none);
}

#[test]
fn a_stop_that_ends_a_missing_vote_and_wrong_ends_are_noticed() {
    let mut stopped = point([W, W]);
    stopped.run.stopped.insert(2);
    assert_eq!(broken(stopped, Ok(point([W, W]))), ["stopped-stays"]);
    let mut unvoted = point([C, P]);
    unvoted.voted.remove(&2);
    assert_eq!(broken(point([P, P]), Ok(unvoted)), ["all-voted"]);
    let mut astray = point([P, P]);
    astray.run.network.insert((ACK, 1, 2));
    assert_eq!(broken(point([P, P]), Ok(astray)), ["sound"]);
}

#[test]
fn each_claim_about_an_event_can_be_asked_for() {
    for after in [Ok(point([Q, Q])), Err(6)] {
        for (claim, _) in about_event(&point([Q, Q]), &after) {
            assert!(CLAIMS.contains(&claim), "{claim}");
        }
    }
}
