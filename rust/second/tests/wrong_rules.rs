//! A wrong rule with four sites, more than the search reaches in seconds.

use second::run::Happening::{self, Stop, StopDuring};
use second::site::{Sites, Step, ACK, MOVE_P, MOVE_W, START, YES};
use second::words::{journal, Event};
use second::wrong::WRONG;

fn deliver(site: u8, kind: u8, from: u8) -> Event {
    let vote = (kind == START).then_some(true);
    (site, Happening::Step(Step::Deliver { kind, from, vote }))
}

fn step(site: u8, step: Step) -> Event {
    (site, Happening::Step(step))
}

/// All vote yes, and of site 1's Move-p only the one to site 3 leaves. Site 2 leads in w; site 3 in
/// p, although site 2 runs. Site 4 answers both. Site 2 aborts on its answer, site 4 commits in the
/// end.
fn two_leaders() -> Vec<Event> {
    let votes = [2, 3, 4].map(|site| [deliver(site, START, 1), deliver(1, YES, site)]);
    let two_lead = [
        (1, StopDuring(Step::Conclude, Sites::from([3]))),
        step(2, Step::Notice(1)),
        step(2, Step::TakeOver),
        deliver(3, MOVE_P, 1),
        step(3, Step::Notice(1)),
        step(3, Step::TakeOver),
    ];
    let both_decide = [
        deliver(4, MOVE_W, 2),
        deliver(4, MOVE_P, 3),
        deliver(2, ACK, 4),
        (3, Stop),
        step(2, Step::Notice(3)),
        step(2, Step::Conclude),
        (2, Stop),
        step(4, Step::Notice(1)),
        step(4, Step::Notice(2)),
        step(4, Step::Notice(3)),
        step(4, Step::TakeOver),
        step(4, Step::Conclude),
    ];
    [&[step(1, Step::Begin(true))], votes.as_flattened(), &two_lead, &both_decide].concat()
}

#[test]
fn early_take_over_breaks_agreement_with_four_sites() {
    let wrong = WRONG.iter().find(|wrong| wrong.name == "early-take-over").expect("it is there");
    let told = journal(4, wrong.rule, &two_leaders());
    assert!(told.ends_with("# taken WAPc\n") && !told.contains("refused"), "{told}");
}
