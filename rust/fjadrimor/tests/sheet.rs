//! Sheets: two-phase commit with two sites, as document 01 has it, judged, read, built and written.

use fjadrimor::Mark::{Abort, Commit, Working};
use fjadrimor::{judge, report, Decision, Messages, Misnamed, Refusal, Sheet};
use fjadrimor::{SheetBuilder, Transition, Verdict};

/// Messages: 0 request, 1 start, 2 yes, 3 no, 4 abort, 5 commit. A line is a transition: site,
/// from, to, vote, and the last byte of what it reads and of what it writes.
const TWO_PHASE: [[u8; 6]; 8] = [
    [1, 0, 1, 0, 1, 2],
    [1, 1, 2, 0, 4, 16],
    [1, 1, 2, 0, 8, 0],
    [1, 1, 3, 1, 4, 32],
    [2, 0, 1, 1, 2, 4],
    [2, 0, 2, 0, 2, 8],
    [2, 1, 2, 0, 16, 0],
    [2, 1, 3, 0, 32, 0],
];

fn two_phase() -> Vec<u8> {
    let mut bytes = vec![0, 113, 1, 2, 4, 4, 0, 0, 1, 2, 0, 0, 1, 2, 0, 0, 0, 1, 8];
    for [site, from, to, vote, reads, writes] in TWO_PHASE {
        bytes.extend([site, from, to, vote, 0, 0, 0, reads, 0, 0, 0, writes]);
    }
    bytes
}

#[test]
fn two_phase_commit_is_blocking() {
    let judgement = judge(&two_phase()).unwrap();
    assert_eq!(judgement.verdict, Verdict::Blocking { site: 2, state: 1, condition: 1 });
    assert_eq!((judgement.sites, judgement.tolerance), (2, None));
    assert_eq!(judgement.reachable.len(), 9);
    assert_eq!(judgement.reachable[0], 1);
    assert!(judgement.reachable.is_sorted());
}

#[test]
fn what_is_said_of_its_local_states() {
    let judgement = judge(&two_phase()).unwrap();
    let blocked = judgement.local(2, 1).unwrap();
    assert_eq!((blocked.reached, blocked.committable), (true, false));
    assert_eq!(blocked.decision, Decision::Blocked);
    assert_eq!(blocked.concurrent, [(1, 1), (1, 2), (1, 3)]);
    let commit = judgement.local(1, 3).unwrap();
    assert_eq!((commit.decision, commit.committable), (Decision::Commit, true));
    assert_eq!(judgement.local(2, 4).unwrap().decision, Decision::Unreached);
    assert_eq!(
        (judgement.local(0, 0), judgement.local(5, 0), judgement.local(1, 8)),
        (None, None, None)
    );
}

#[test]
fn its_report() {
    assert_eq!(report(&two_phase()), include_str!("../../../crates/sheets/stdout"));
}

/// So many sites with one working state each, and nothing to do.
fn idle(sites: usize) -> Sheet {
    Sheet { sites: vec![vec![Working]; sites], ..Sheet::default() }
}

#[test]
fn a_sheet_without_transitions_is_nonblocking() {
    assert_eq!(idle(2).judge().unwrap().verdict, Verdict::Nonblocking);
}

#[test]
fn a_tolerance_is_stated_from_three_sites_up() {
    let tolerance = |sites| idle(sites).judge().unwrap().tolerance;
    assert_eq!([2, 3, 4].map(tolerance), [None, Some(2), Some(3)]);
}

#[test]
fn a_damaged_sheet_is_refused() {
    let damaged = |place: usize, byte| {
        let mut bytes = two_phase();
        bytes[place] = byte;
        bytes
    };
    assert_eq!(judge(&[]), Err(Refusal::SheetSize));
    assert_eq!(judge(&damaged(2, 2)), Err(Refusal::SheetVersion));
    assert_eq!(judge(&damaged(6, 3)), Err(Refusal::SheetRange));
    assert_eq!(report(&damaged(6, 3)), "refused 25\n");
    assert_eq!(Sheet::read(&[]), Err(Refusal::SheetSize));
    assert_eq!(Sheet::read(&damaged(2, 2)), Err(Refusal::SheetVersion));
    assert_eq!(Sheet::read(&damaged(6, 3)), Err(Refusal::SheetRange));
}

#[test]
fn what_is_read_is_written_again() {
    let sheet = Sheet::read(&two_phase()).unwrap();
    assert_eq!(sheet.sites, vec![vec![Working, Working, Abort, Commit]; 2]);
    assert_eq!(sheet.first, Messages::from_iter([0]));
    let listed = |t: &Transition| {
        let set = |messages: Messages| messages.mask() as u8;
        [t.site, t.from, t.to, t.votes as u8, set(t.reads), set(t.writes)]
    };
    assert!(sheet.transitions.iter().map(listed).eq(TWO_PHASE));
    assert_eq!(sheet.write().unwrap(), two_phase());
    assert_eq!(sheet.judge(), judge(&two_phase()));
    assert_eq!(sheet.report().unwrap(), report(&two_phase()));
}

/// The largest sheet: four sites of eight states, 64 transitions.
fn largest() -> Sheet {
    let transition = |number: u8| {
        let (site, from) = (1 + number % 4, number / 4 % 7);
        let reads = Messages::from_iter([8 * (site - 1) + from]);
        let writes = Messages::from_mask(u32::MAX - u32::from(number));
        Transition { site, from, to: from + 1, votes: site == 3, reads, writes }
    };
    let first = Messages::from_mask(0xFEDC_BA98);
    Sheet {
        sites: vec![vec![Working; 8]; 4],
        first,
        transitions: (0..64).map(transition).collect(),
    }
}

#[test]
fn what_is_written_is_read_back() {
    for sheet in [idle(2), idle(3), idle(4), largest()] {
        assert_eq!(Sheet::read(&sheet.write().unwrap()), Ok(sheet));
    }
    assert_eq!(largest().write().unwrap().len(), 813);
}

/// The largest sheet with a change.
fn changed(change: impl FnOnce(&mut Sheet)) -> Result<Vec<u8>, Refusal> {
    let mut sheet = largest();
    change(&mut sheet);
    sheet.write()
}

#[test]
fn a_sheet_that_breaks_a_rule_is_not_written() {
    for sites in [0, 1, 5, 300] {
        assert_eq!(idle(sites).write(), Err(Refusal::SheetCounts), "{sites} sites");
        assert_eq!(idle(sites).report(), Err(Refusal::SheetCounts), "{sites} sites");
    }
    for states in [0, 9, 255, 256, 300] {
        let counts = changed(|sheet| sheet.sites[3] = vec![Working; states]);
        assert_eq!(counts, Err(Refusal::SheetCounts), "{states} states");
    }
    for count in [65, 255, 256, 300] {
        let many = changed(|sheet| sheet.transitions.resize(count, sheet.transitions[0]));
        assert_eq!(many, Err(Refusal::SheetLength), "{count} transitions");
    }
    let first = |change: fn(&mut Transition)| changed(|sheet| change(&mut sheet.transitions[0]));
    assert_eq!(first(|t| t.site = 5), Err(Refusal::SheetRange));
    assert_eq!(first(|t| t.from = 8), Err(Refusal::SheetRange));
    assert_eq!(first(|t| t.reads = Messages::default()), Err(Refusal::ReadsNothing));
    assert_eq!(first(|t| t.reads = Messages::from_mask(u32::MAX)), Err(Refusal::ReadTwice));
    assert_eq!(first(|t| t.to = t.from), Err(Refusal::Cycle));
    assert_eq!(changed(|sheet| sheet.sites[0][0] = Commit), Err(Refusal::NotFinal));
}

/// Two sites that only commit, and what more is said of them.
fn built(more: impl FnOnce(&mut SheetBuilder)) -> Result<Sheet, Misnamed> {
    let mut protocol = Sheet::builder();
    let states = [("q", Working), ("c", Commit)];
    let (one, two) = (protocol.site(&states), protocol.site(&states));
    assert_eq!((one, two), (1, 2));
    protocol.messages(&["done", "go"]);
    protocol.first(&["go"]);
    protocol.transition(one, "q", "c").reads(&["go"]).writes(&["done"]).votes_yes();
    protocol.transition(two, "q", "c").reads(&["done"]).votes_yes();
    more(&mut protocol);
    protocol.build()
}

#[test]
fn a_sheet_by_names() {
    let [done, go] = [0, 1].map(|message| Messages::from_iter([message]));
    let way = |site, reads, writes| Transition { site, from: 0, to: 1, votes: true, reads, writes };
    let sites = vec![vec![Working, Commit]; 2];
    let transitions = vec![way(1, go, done), way(2, done, Messages::default())];
    let sheet = Sheet { sites, first: go, transitions };
    assert_eq!(built(|_| ()), Ok(sheet.clone()));
    assert_eq!(Sheet::read(&sheet.write().unwrap()), Ok(sheet));
}

#[test]
fn lists_may_be_given_in_parts() {
    let whole = built(|sheet| {
        sheet.messages(&["a", "b", "d"]);
        sheet.first(&["a", "b"]);
        sheet.transition(1, "q", "c").reads(&["a", "b"]).writes(&["d"]);
    });
    let in_parts = built(|sheet| {
        sheet.messages(&["a"]);
        sheet.messages(&["b", "d"]);
        sheet.first(&["a"]);
        sheet.first(&["b"]);
        sheet.transition(1, "q", "c").reads(&["a"]).reads(&["b", "a"]).writes(&["d"]);
    });
    assert_eq!(whole, in_parts);
    assert_eq!(whole.unwrap().first, Messages::from_iter([1, 2, 3]));
}

#[test]
fn a_name_that_does_not_fit_is_told() {
    let told = |site, from: &str, to: &str| {
        let more = |sheet: &mut SheetBuilder| {
            sheet.transition(site, from, to);
        };
        built(more).unwrap_err().to_string()
    };
    assert_eq!(told(2, "q", "x"), "site 2 has no state x");
    assert_eq!(told(1, "x", "y"), "site 1 has no state x");
    assert_eq!(told(3, "q", "c"), "there is no site 3");
    assert_eq!(told(0, "q", "c"), "there is no site 0");
    let same = |sheet: &mut SheetBuilder| {
        sheet.site(&[("a", Abort), ("q", Working), ("a", Abort)]);
    };
    assert_eq!(built(same), Err(Misnamed::SameState { site: 3, name: "a".to_string() }));
    let named = |count: usize| {
        let names: Vec<String> = (0..count).map(|number| format!("m{number}")).collect();
        let names: Vec<&str> = names.iter().map(String::as_str).collect();
        built(|sheet| sheet.messages(&names))
    };
    assert!(named(30).is_ok());
    assert_eq!(named(31), Err(Misnamed::ManyMessages("m30".to_string())));
}

/// A transition that reads one message and writes another, after what is said of the messages.
fn between(listed: fn(&mut SheetBuilder), reads: &str, writes: &str) -> Result<Sheet, Misnamed> {
    let mut protocol = Sheet::builder();
    let site = protocol.site(&[("q", Working), ("c", Commit)]);
    listed(&mut protocol);
    protocol.transition(site, "q", "c").reads(&[reads]).writes(&[writes]);
    protocol.build()
}

#[test]
fn a_message_that_is_not_listed_is_told() {
    let listed = |sheet: &mut SheetBuilder| sheet.messages(&["go", "commit"]);
    let unlisted = |name: &str| Err(Misnamed::NoMessage(name.to_string()));
    assert!(between(listed, "go", "commit").is_ok());
    assert_eq!(between(listed, "go", "comit"), unlisted("comit"));
    assert_eq!(between(listed, "og", "comit"), unlisted("og"));
    let first = |sheet: &mut SheetBuilder| {
        sheet.messages(&["go", "commit"]);
        sheet.first(&["gone"]);
    };
    assert_eq!(between(first, "go", "commit"), unlisted("gone"));
    let too_early = |sheet: &mut SheetBuilder| {
        sheet.first(&["gone"]);
        sheet.messages(&["go", "commit"]);
    };
    assert_eq!(between(too_early, "go", "commit"), unlisted("gone"));
    assert_eq!(Misnamed::NoMessage("x".to_string()).to_string(), "no list of messages has x");
}

#[test]
fn without_a_list_names_make_messages() {
    let sheet = between(|_| (), "go", "comit").unwrap();
    let sets = (sheet.transitions[0].reads.mask(), sheet.transitions[0].writes.mask());
    assert_eq!(sets, (1, 2));
}

#[test]
fn a_full_list_still_tells_a_misspelling() {
    let full = |sheet: &mut SheetBuilder| {
        let names: Vec<String> = (0..32).map(|number| format!("m{number}")).collect();
        sheet.messages(&names.iter().map(String::as_str).collect::<Vec<_>>());
    };
    assert!(between(full, "m0", "m31").is_ok());
    assert_eq!(between(full, "m0", "m32"), Err(Misnamed::NoMessage("m32".to_string())));
}
