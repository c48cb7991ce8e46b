//! What is said of refused events, of how a run stands, and of what may happen next: in chosen runs,
//! and in many that wander.

use crate::beside::Rehearsal;
use crate::grounds::sentence;
use crate::notation::assemble;
use crate::reasons::reason;
use crate::tests::{all_fields, chance};
use crate::waits::awaited;
use crate::words::{words, Fields};
use crate::{next, standing};
use fjadrimor::{Event, Kind, Refusal, Run, Sites, Step, Vote};
use std::collections::BTreeSet;

/// The run that a journal of accepted events leads to.
fn run_of(journal: &str) -> Run {
    let journal = assemble(&journal.replace(", ", "\n")).unwrap();
    let rehearsal = Rehearsal::new(&journal, false).unwrap();
    assert_eq!(rehearsal.refused().count(), 0, "{}", rehearsal.text());
    rehearsal.run.expect("a run")
}

/// Some event of a run of n sites; stops are rare, so that much can happen before.
fn some_event(n: u8, next: &mut impl FnMut() -> u64) -> Event {
    let mut up_to = |most: u8| (next() % u64::from(most)) as u8;
    let (site, other) = (1 + up_to(n), 1 + up_to(n));
    let vote = if up_to(4) > 0 { Vote::Yes } else { Vote::No };
    let step = match up_to(12) {
        0 => Step::Begin(vote),
        1..=3 => Step::Start { from: other, vote },
        4..=8 => Step::Deliver { kind: Kind::ALL[1 + usize::from(up_to(7))], from: other },
        9 => Step::Notice(other),
        10 => Step::TakeOver,
        _ => Step::Conclude,
    };
    match up_to(120) {
        0 => Event::Stop { site },
        1..=2 => Event::StopDuring { site, step, leaving: Sites::from_mask(up_to(255)) },
        _ => Event::Act { site, step },
    }
}

#[test]
fn a_refused_event_has_its_reason() {
    let begun = "sites 3, begin 1 yes, deliver 2 start from 1 yes, deliver 1 yes from 2";
    let two_stopped = "sites 4, begin 1 yes, stop 1, notice 3 of 1, notice 2 of 1, take over 2";
    let prepared =
        "sites 2, begin 1 yes, deliver 2 start from 1 yes, deliver 1 yes from 2, conclude 1";
    let asked = [
        (begun, "stop 4", "there is no site 4: the run has 3 sites"),
        (begun, "deliver 8 yes from 1", "there is no site 8: the run has 3 sites"),
        (begun, "deliver 1 yes from 7", "there is no site 7: the run has 3 sites"),
        (begun, "notice 1 of 5", "there is no site 5: the run has 3 sites"),
        (begun, "stop 3 during notice of 3", "a site does not notice its own stop"),
        (begun, "deliver 1 start from 3 yes", "start goes from site 1 to a higher one"),
        (begun, "deliver 3 no from 2", "no goes from a higher site to site 1"),
        (begun, "deliver 3 ack from 2", "ack goes from a higher site to a lower one"),
        (begun, "deliver 2 move-w from 3", "move-w goes from a lower site to a higher one"),
        (begun, "deliver 2 abort from 1", "no abort from 1 to 2 is outstanding"),
        (begun, "deliver 1 yes from 3", "no yes from 3 to 1 is outstanding"),
        (begun, "notice 2 of 3", "site 3 has not stopped"),
        (begun, "begin 2 yes", "only site 1 begins"),
        (begun, "begin 1 no", "site 1 has begun already"),
        (begun, "conclude 1", "site 1 awaits the vote of site 3"),
        (begun, "conclude 2", "site 2 does not lead: it follows site 1"),
        (begun, "stop 3 during take over", "site 3 has no notice that sites 1 and 2 have stopped"),
        (begun, "take over 1", "site 1 leads already"),
        ("sites 2", "conclude 1", "site 1 has not begun"),
        ("sites 4, begin 1 yes", "conclude 1", "site 1 awaits the votes of sites 2, 3 and 4"),
        ("sites 2, begin 1 no", "conclude 1", "site 1 has decided already"),
        (two_stopped, "take over 3", "site 3 has no notice that site 2 has stopped"),
        (two_stopped, "take over 2", "site 2 leads already"),
        (two_stopped, "conclude 2", "site 2 has decided already"),
        (two_stopped, "notice 3 of 1", "site 3 knows already that site 1 has stopped"),
        (two_stopped, "stop 1", "site 1 has stopped"),
        (two_stopped, "stop 1 during conclude", "site 1 has stopped"),
        (prepared, "conclude 1", "site 1 awaits the ack of site 2"),
    ];
    for (journal, event, expected) in asked {
        let text = format!("{journal}, {event}").replace(", ", "\n");
        let rehearsal = Rehearsal::new(&assemble(&text).unwrap(), false).unwrap();
        let told: Vec<&str> = rehearsal.refused().map(|(_, _, why)| why).collect();
        assert_eq!(told, [expected], "{journal}, {event}");
    }
}

/// A record that no run from fresh holds: the general sentence.
#[test]
fn a_conflict_has_the_sentence_of_its_ground() {
    let run = Run::fresh(2).unwrap();
    let event = Event::Act { site: 2, step: Step::Deliver { kind: Kind::MoveP, from: 1 } };
    assert_eq!(reason(&run, event, 6), sentence(6));
}

#[test]
fn in_every_run_a_refusal_has_words_of_its_own() {
    let mut refused = BTreeSet::new();
    for seed in 0..200 {
        let n = 2 + (seed % 7) as u8;
        let (mut next, mut run) = (chance(seed), Run::fresh(n).unwrap());
        for _ in 0..1500 {
            let event = some_event(n, &mut next);
            if let Err(refusal) = run.happens(event) {
                let why = reason(&run, event, refusal.number());
                assert_ne!(why, refusal.sentence(), "{event:?}");
                assert!(!why.contains("sites  ") && !why.contains("site  "), "{why}");
                refused.insert(refusal);
            }
        }
    }
    let met = [Refusal::WrongNames, Refusal::ActorStopped, Refusal::NotThere, Refusal::NotAllowed];
    assert!(refused.into_iter().eq(met));
}

/// The library tells after each event how many sites the acting one awaits, and the lowest.
#[test]
fn in_every_run_those_are_awaited_that_the_library_says() {
    let (mut counts, mut lowest) = ([0; 8], [0; 9]);
    for seed in 0..300 {
        let n = 2 + (seed % 7) as u8;
        let (mut next, mut run) = (chance(seed), Run::fresh(n).unwrap());
        for _ in 0..1500 {
            let event = some_event(n, &mut next);
            let (Event::Act { site, .. }, Ok(ran)) = (event, run.happens(event)) else { continue };
            let record = run.site(site).expect("an acting site");
            let found = awaited(record).map_or(Sites::default(), |awaited| awaited.from);
            let told = (found.len(), found.iter().next());
            assert_eq!(told, (usize::from(ran.awaited), ran.lowest), "{event:?}");
            counts[found.len()] += 1;
            lowest[usize::from(ran.lowest.unwrap_or(0))] += 1;
        }
    }
    assert!(counts.iter().all(|count| *count > 0), "{counts:?}");
    // No leader of a run from fresh awaits site 1.
    assert!(lowest[1] == 0 && [0, 2, 3, 4, 5].iter().all(|site| lowest[*site] > 0), "{lowest:?}");
}

#[test]
fn the_end_tells_how_the_run_stands() {
    let runs: [(&str, &[&str]); 10] = [
        (
            "sites 2",
            &[
                "outstanding: nothing",
                "undecided: site 1 in q has not begun",
                "undecided: site 2 in q waits for site 1",
            ],
        ),
        (
            "sites 4, begin 1 yes, deliver 2 start from 1 yes, deliver 3 start from 1 no",
            &[
                "outstanding: start from 1 to 4; yes from 2 to 1; no from 3 to 1",
                "undecided: site 1 in w waits for the votes of sites 2, 3 and 4",
                "undecided: site 2 in w waits for site 1",
                "undecided: site 4 in q waits for site 1",
            ],
        ),
        (
            "sites 4, begin 1 yes, deliver 2 start from 1 yes, deliver 3 start from 1 yes, \
             deliver 1 yes from 2, deliver 1 yes from 3, stop 4, stop 3",
            &[
                "outstanding: nothing",
                "undecided: site 1 in w waits for the vote of site 4, and has no notice that site 4 has stopped",
                "undecided: site 2 in w waits for site 1",
            ],
        ),
        (
            "sites 3, begin 1 yes, deliver 2 start from 1 yes, deliver 3 start from 1 yes",
            &[
                "outstanding: yes from 2 and 3 to 1",
                "undecided: site 1 in w waits for the votes of sites 2 and 3",
                "undecided: site 2 in w waits for site 1",
                "undecided: site 3 in w waits for site 1",
            ],
        ),
        (
            "sites 2, begin 1 yes, deliver 2 start from 1 no, deliver 1 no from 2",
            &["outstanding: nothing", "undecided: site 1 in w can conclude"],
        ),
        (
            "sites 4, begin 1 yes, stop 1, notice 3 of 1",
            &[
                "outstanding: start from 1 to 2, 3 and 4",
                "undecided: site 2 in q has no notice that site 1 has stopped",
                "undecided: site 3 in q waits for site 2 to take over",
                "undecided: site 4 in q waits for site 2 to take over",
            ],
        ),
        (
            "sites 3, begin 1 yes, deliver 2 start from 1 yes, deliver 3 start from 1 yes, stop 1, \
             notice 2 of 1",
            &[
                "outstanding: nothing",
                "undecided: site 2 in w can take over",
                "undecided: site 3 in w waits for site 2 to take over",
            ],
        ),
        (
            "sites 3, begin 1 yes, deliver 2 start from 1 yes, deliver 3 start from 1 yes, stop 1, \
             notice 2 of 1, take over 2",
            &[
                "outstanding: move-w from 2 to 3",
                "undecided: site 2 in w waits for the ack of site 3",
                "undecided: site 3 in w waits for site 2",
            ],
        ),
        (
            "sites 3, begin 1 no, deliver 2 abort from 1",
            &["outstanding: abort from 1 to 3", "undecided: site 3 in q waits for site 1"],
        ),
        ("sites 2, begin 1 no, stop 1, stop 2", &["outstanding: nothing; every site has stopped"]),
    ];
    for (journal, expected) in runs {
        assert_eq!(standing::lines(&run_of(journal)), expected, "{journal}");
    }
    let decided = "sites 2, begin 1 no, deliver 2 abort from 1";
    let nothing = "outstanding: nothing; every running site has decided";
    assert_eq!(standing::lines(&run_of(decided)), [nothing]);
    // Site 2 has backed out, and the Abort of a dead leader is still on its way.
    let late = "sites 2, begin 1 no, stop 1, notice 2 of 1, take over 2";
    let lines = ["outstanding: abort from 1 to 2", "every running site has decided"];
    assert_eq!(standing::lines(&run_of(late)), lines);
}

/// In every run each undecided running site has its line, which names itself once.
#[test]
fn in_every_run_each_undecided_site_has_a_line() {
    for seed in 0..200 {
        let n = 2 + (seed % 7) as u8;
        let (mut next, mut run) = (chance(seed), Run::fresh(n).unwrap());
        for _ in 0..seed {
            let _ = run.happens(some_event(n, &mut next));
        }
        let lines = standing::lines(&run);
        let open = (1..=n)
            .filter_map(|site| run.site(site))
            .filter(|site| !site.state().is_decided() && !run.stopped().contains(site.number()));
        let starts: Vec<String> =
            open.map(|site| format!("undecided: site {} in ", site.number())).collect();
        let told = lines.iter().filter(|line| line.starts_with("undecided: "));
        assert!(told.zip(&starts).all(|(line, start)| line.starts_with(start)), "{lines:?}");
        let count = lines.iter().filter(|line| line.starts_with("undecided: ")).count();
        assert_eq!(count, starts.len(), "{lines:?}");
    }
}

/// The events of a list of what may happen next, without what would become of them.
fn listed(run: &Run) -> BTreeSet<String> {
    let list = next::list(run);
    let event = |line: &str| line.split('#').next().unwrap_or_default().trim_end().to_string();
    list.lines().map(event).filter(|event| !event.is_empty()).collect()
}

/// The words of an event; of a stop inside a step those up to the set that leaves.
fn without_set(fields: Fields) -> String {
    words(fields).split(" leaving").next().unwrap_or_default().to_string()
}

/// What is listed is what the library accepts, of all events that records can hold.
#[test]
fn next_is_all_that_would_be_accepted() {
    let all: Vec<(Fields, Event)> =
        all_fields().map(|fields| (fields, Event::of_fields(fields).expect("an event"))).collect();
    let mut seen = 0;
    for seed in 0..60 {
        let n = 2 + (seed % 7) as u8;
        let (mut next, mut run) = (chance(seed), Run::fresh(n).unwrap());
        for _ in 0..10 * seed {
            let _ = run.happens(some_event(n, &mut next));
        }
        let accepted = all.iter().filter(|(_, event)| Run::clone(&run).happens(*event).is_ok());
        let accepted: BTreeSet<String> = accepted.map(|(fields, _)| without_set(*fields)).collect();
        let listed = listed(&run);
        let parts = listed.iter().map(|event| event.split(" leaving").next().unwrap_or_default());
        assert_eq!(parts.collect::<BTreeSet<_>>(), accepted.iter().map(|s| &**s).collect());
        assert_eq!(listed.len(), accepted.len());
        seen += accepted.len();
    }
    assert!(seen > 500, "{seen}");
}

/// A stop inside a step is listed with all the receivers of that step.
#[test]
fn next_lets_all_messages_of_a_step_leave() {
    let listed = listed(&run_of("sites 4"));
    assert!(listed.contains("stop 1 during begin yes leaving 2 3 4"), "{listed:?}");
    assert_eq!(listed.iter().filter(|event| event.starts_with("stop 1 during")).count(), 2);
}
