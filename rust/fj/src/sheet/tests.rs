//! The notation both ways, refusals in words, reports with names, and drawings.

use super::library::Judgement;
use super::model::Sheet;
use super::{draw, judge, library, notation, refusal, show, taken, Input};
use crate::input::{is_text, Content};
use compare::inputs::{figures, sheets, Random};

/// A protocol with two sites; `more` follows it.
fn small(more: &str) -> String {
    let text = "site 1 asks\n state q working\n state c commit\n state a abort\n\
                site 2\n state q working\n state c commit\n\
                messages go done\nfirst go\n";
    text.to_string() + more
}

fn read(more: &str) -> Sheet {
    notation::read(&small(more)).expect("the notation is good")
}

/// The line and the reason of an error.
fn error(more: &str) -> (usize, String) {
    let error = notation::read(&small(more)).expect_err("the notation is wrong");
    (error.line, error.reason)
}

/// A sheet's record.
pub fn record(sheet: &Sheet) -> Vec<u8> {
    sheet.record().expect("the sheet is written")
}

/// A sheet's judgement, or the ground on which it is not written or not judged.
pub fn judged(sheet: &Sheet) -> Result<Judgement, u8> {
    sheet.record().and_then(|record| library::judge(&record))
}

/// What is said of the refusal of a notation.
fn refused(more: &str) -> String {
    let sheet = read(more);
    let ground = judged(&sheet).expect_err("the sheet is refused");
    refusal::told(ground, &sheet, "two.sheet")
}

fn gallery(name: &str) -> String {
    let folder = concat!(env!("CARGO_MANIFEST_DIR"), "/../../gallery/");
    std::fs::read_to_string(format!("{folder}{name}.sheet")).expect("the gallery has this sheet")
}

#[test]
fn a_notation_is_its_bytes() {
    let sheet = read("1: q -> c reads go writes done votes yes # and ends\n2: q -> c reads done");
    let body = [
        &[1, 2, 3, 2, 0, 2, 1, 0, 2][..],
        &[0, 0, 0, 1, 2],
        &[1, 0, 1, 1, 0, 0, 0, 1, 0, 0, 0, 2],
        &[2, 0, 1, 0, 0, 0, 0, 2, 0, 0, 0, 0],
    ];
    assert_eq!(record(&sheet), [&[0, 38][..], &body.concat()].concat());
}

#[test]
fn an_error_names_its_line_and_the_reason() {
    let reasons = [
        ("1: q -> c reads gone", "no line of messages has introduced gone"),
        ("1: q -> x reads go", "site 1 has no state x"),
        ("3: q -> c reads go", "there is no site 3"),
        ("1: q to c", "a transition is written SITE: FROM -> TO reads .. writes .."),
        ("1: q -> c reads", "here a list of messages is missing"),
        ("1: q -> c reads go go", "go stands twice in one list"),
        ("1: q -> c reads go reads go", "a transition has one list after reads"),
        ("1: q -> c reads go votes no", "a vote is written: votes yes"),
        ("site 4", "sites come in order: the next one is site 3, not 4"),
        ("state q working", "site 2 has a state q already"),
        ("state x waiting", "a state is working, abort or commit, not waiting"),
        ("state x", "a state has a name and a mark: state NAME MARK"),
        ("messages go", "there is a message go already"),
        ("messages reads", "reads divides a transition and cannot name a message"),
        ("first done", "a sheet has one line of first messages"),
    ];
    for (line, reason) in reasons {
        assert_eq!(error(line), (10, reason.to_string()), "{line}");
    }
    assert_eq!(error("\n\n1 q").0, 12);
    let many: String = (0..31).map(|m| format!("messages m{m}\n")).collect();
    assert_eq!(error(&many), (40, "a sheet has at most 32 messages, and m30 is one more".into()));
}

#[test]
fn a_refusal_shows_its_place() {
    let refusals = [
        (
            "1: q -> c writes done",
            "two.sheet:10: refused 26: a transition reads nothing (1: q -> c)",
        ),
        (
            "1: q -> c reads go\n2: q -> c reads go",
            "two.sheet:10: refused 27: a message is read by two sites (go at 1: q -> c and go at 2: q -> c)\n\
             two.sheet:11: go at 2: q -> c",
        ),
        (
            "1: c -> a reads go",
            "two.sheet:10: refused 28: a transition leads from an abort or commit state to a state of another mark (1: c -> a)",
        ),
        (
            "state w working\n2: q -> w reads done\n2: w -> q reads done",
            "two.sheet:12: refused 29: a site's diagram has a cycle, whatever the messages allow (site 2: q -> w -> q)",
        ),
        (
            "messages more\n1: q -> c reads go writes more\n1: c -> c reads go",
            "two.sheet:12: refused 29: a site's diagram has a cycle, whatever the messages allow (site 1: c -> c)",
        ),
    ];
    for (more, text) in refusals {
        assert_eq!(refused(more), text);
    }
}

/// Numbered lines of a sheet, from a number to another.
fn numbered(range: std::ops::Range<u32>, line: impl Fn(u32) -> String) -> String {
    range.map(|number| line(number) + "\n").collect()
}

/// Also where no byte holds the count, the library's ground is told, at the first that is too many.
#[test]
fn too_many_are_told_at_their_line() {
    let counts =
        "refused 23: the number of sites is not 2 to 4, or a site's number of states is not 1 to 8";
    let state = |number| format!("state s{number} working");
    let site = |number| format!("site {number}\nstate q working");
    let refusals = [
        (numbered(0..7, state), "16", "site 2 has 9 states"),
        (numbered(0..298, state) + "2: q -> s290 reads done", "16", "site 2 has 300 states"),
        ("site 3".to_string(), "10", "site 3 has no state"),
        (numbered(3..6, site), "14", "5 sites"),
        (numbered(3..301, site) + "256: q -> q reads done", "14", "300 sites"),
    ];
    for (more, line, words) in refusals {
        assert_eq!(refused(&more), format!("two.sheet:{line}: {counts} ({words})"));
    }
    let length = "refused 24: the sheet has more or fewer bytes than its counts give, or over 64 transitions";
    for count in [65, 255, 256, 300] {
        let told = format!("two.sheet:74: {length} ({count} transitions)");
        assert_eq!(refused(&"1: q -> c reads go\n".repeat(count)), told);
    }
}

#[test]
fn a_refusal_of_bytes_shows_the_number_of_the_transition() {
    let mut bytes = record(&read("1: q -> c reads go\n2: q -> c reads done"));
    bytes[35] = 1;
    let sheet = Sheet::from_record(&bytes).expect("the bytes have the form of a sheet");
    let told = "two: refused 27: a message is read by two sites (m0 at transition 1, 1: s0 -> s1 and m0 at transition 2, 2: s0 -> s1)";
    assert_eq!(refusal::told(27, &sheet, "two"), told);
}

/// Takes a file's content as `fj` reads it.
fn given(data: &[u8]) -> Result<Input, String> {
    let content = match is_text(data) {
        true => Content::Text(String::from_utf8_lossy(data).into_owned()),
        false => Content::Bytes(data.to_vec(), false),
    };
    taken("two.sheet".to_string(), content)
}

#[test]
fn bytes_and_text_are_told_apart() {
    let bytes = record(&read("1: q -> c reads go"));
    let input = |data: &[u8]| given(data).map(|input| input.sheet.is_some());
    assert_eq!(input(&bytes), Ok(true));
    assert_eq!(input(&bytes[1..]), Ok(false));
    assert_eq!(input(b""), Ok(false));
    assert_eq!(input(small("").as_bytes()), Ok(true));
    assert_eq!(input(&[small("# M").as_bytes(), b"\xfcnchen\n"].concat()), Ok(true));
    assert_eq!(input(small("# M\u{fc}nchen\u{85}").as_bytes()), Ok(true));
    assert!(input(b"no sheet at all").is_err());
}

/// Every generated sheet that the library takes, or refuses only with 30 or 31, is the same bytes
/// again after it was shown; and some are drawn.
#[test]
fn shown_and_assembled_again() {
    let mut random = Random::new(3);
    let mut seen = 0;
    for _ in 0..3000 {
        let bytes = sheets::any_case(&mut random).bytes;
        let judged = library::judge(&bytes);
        if let Err(21..=29) = judged {
            continue;
        }
        let sheet = Sheet::from_record(&bytes).expect("an accepted sheet has the form of one");
        let again = notation::read(&show::notation(&sheet)).expect("what is shown can be read");
        assert_eq!((record(&sheet), record(&again)), (bytes.clone(), bytes));
        if seen % 8 == 0 {
            assert!(draw::svg(&sheet, &judged).ends_with("</svg>\n"));
        }
        seen += 1;
    }
    assert!(seen > 1000, "{seen}");
}

/// A record that the library refuses with 26 to 29 still shows where: its parts are not written, on the
/// same ground. One that is refused with 21 to 25 does not have the form of a sheet.
#[test]
fn a_refused_record_shows_its_place() {
    let mut random = Random::new(5);
    let mut seen = [0; 2];
    for _ in 0..3000 {
        let bytes = sheets::any_case(&mut random).bytes;
        match (library::judge(&bytes), Sheet::from_record(&bytes)) {
            (Err(21..=25), sheet) => {
                assert!(sheet.is_none(), "{bytes:?}");
                seen[0] += 1;
            }
            (Err(ground @ 26..=29), Some(sheet)) => {
                assert_eq!(sheet.record(), Err(ground), "{bytes:?}");
                assert!(refusal::told(ground, &sheet, "two").ends_with(')'), "{bytes:?}");
                seen[1] += 1;
            }
            (_, sheet) => assert!(sheet.is_some(), "{bytes:?}"),
        }
    }
    assert!(seen.iter().all(|&count| count > 150), "{seen:?}");
}

#[test]
fn a_clash_shows_the_message_and_the_transition() {
    let text = small("").replace("first go", "first go done") + "1: q -> c reads go writes done";
    let sheet = notation::read(&text).expect("the notation is good");
    assert_eq!(judged(&sheet).err(), Some(31));
    let refusal = "refused 31: a transition can write a message that is still outstanding after its reading (done at 1: q -> c)";
    assert_eq!(refusal::text(31, Some(&sheet)), refusal);
    assert_eq!(refusal::told(31, &sheet, "two.sheet"), format!("two.sheet:10: {refusal}"));
}

/// The gallery's central and decentralised protocols agree with the sheets that the comparison with
/// the second program makes of the same figures (whose states have other numbers): in length, number
/// of global states, tolerance, and the site and condition of the verdict.
#[test]
fn the_figures_of_the_paper() {
    let figures = [
        ("central-two-phase-2", figures::central(&[false])),
        ("central-two-phase-4", figures::central(&[false; 3])),
        ("central-three-phase-3", figures::central(&[true; 2])),
        ("mixed-central-4", figures::central(&[true, true, false])),
        ("mixed-central-4-one", figures::central(&[false, true, false])),
        ("decentral-two-phase-4", figures::decentral(4, false)),
        ("decentral-three-phase-3", figures::decentral(3, true)),
    ];
    for (name, figure) in figures {
        let sheet = notation::read(&gallery(name)).expect("the gallery is good");
        let summary = |bytes: &[u8]| {
            let judged = library::judge(bytes).expect("a figure is accepted");
            (bytes.len(), judged.states, judged.tolerance, judged.witness.map(|at| (at.0, at.2)))
        };
        assert_eq!(summary(&record(&sheet)), summary(&figure.bytes()), "{name}");
    }
}

/// Document 01's worked report, with the last line that document 02 gives it, byte for byte.
#[test]
fn the_worked_example() {
    let two = notation::read(&gallery("central-two-phase-2")).expect("the gallery is good");
    assert_eq!(record(&two)[..2], [0, 113]);
    let text = "sheet 2 sites 9 states
1.0 w y 2.0 n abort
1.1 w y 2.0,2.1,2.2 n abort
1.2 a y 2.1,2.2 n abort
1.3 c y 2.1,2.3 y commit
2.0 w y 1.0,1.1 n abort
2.1 w y 1.1,1.2,1.3 n blocked
2.2 a y 1.1,1.2 n abort
2.3 c y 1.3 y commit
verdict blocking at 2.1 condition 1
tolerance not stated
";
    assert_eq!(library::report(&record(&two)), text.as_bytes());
}

#[test]
fn a_report_with_names() {
    let sheet = notation::read(&gallery("central-two-phase-2")).expect("the gallery is good");
    let text = judge::text(&sheet, &judged(&sheet).expect("it is accepted"));
    let lines = [
        "sheet 2 sites 9 states",
        "site 2 slave",
        "  2.1 w  working  yes      no           blocked   1.1 w, 1.2 a, 1.3 c",
        "verdict blocking at 2.1 w condition 1",
        "tolerance not stated",
        "2.1 w is blocked:",
    ];
    for line in lines {
        assert!(text.lines().any(|found| found == line), "{line}\n{text}");
    }
}

#[test]
fn a_drawing_marks_what_is_blocked() {
    for (name, blocked) in [("central-two-phase-3", 2), ("central-three-phase-3", 0)] {
        let sheet = notation::read(&gallery(name)).expect("the gallery is good");
        let svg = draw::svg(&sheet, &judged(&sheet));
        assert_eq!(svg.matches(">BLOCKED<").count(), blocked);
        assert_eq!(svg.matches("class=\"state blocked\"").count(), blocked);
        assert_eq!(svg.matches("<g").count(), svg.matches("</g>").count());
        assert_eq!(svg.matches("class=\"name\"").count(), sheet.locals().len());
    }
}
