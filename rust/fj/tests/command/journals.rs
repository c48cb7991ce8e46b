//! What is said of a journal, and the exit status of every command over one.

use crate::{assembled, came, fj, said, trouble, SCENARIOS};

/// The commands that read a journal's records.
const READING: [&str; 5] = ["rehearse", "rehearse --plain", "next", "chart", "show"];

const FULL: &str = "a journal is read up to 65,536 bytes, which hold 7,281 events";

#[test]
fn a_journal_that_is_read_to_its_end_is_fine() {
    for command in READING.into_iter().chain(["assemble"]) {
        for input in ["sites 2", "sites 2\nconclude 1\nstop 8\nbegin 1 yes\n"] {
            assert_eq!(said(command, input.as_bytes()), (Some(0), String::new()), "{command}");
        }
    }
    let told = fj(&["rehearse", "--plain", "-"], b"sites 2\nconclude 1\n");
    assert_eq!(told, came(0, "sites 2\n1 refused 5 qq\nend 0 0\n", ""));
}

#[test]
fn a_bad_record_is_told_with_its_line() {
    let text = "sites 2\n# a title\nbegin 1 yes\nbytes 00 07 02 05 01 00 00 00 00\nstop 1\n";
    let version = "bad 12: the record's version is not 1; no more is read";
    for command in READING {
        let told = said(command, text.as_bytes());
        assert_eq!(told, trouble(&format!(":4: {version}")), "{command}");
        let told = said(command, &assembled(text));
        assert_eq!(told, trouble(&format!(": record 2: {version}")), "{command}");
    }
    // The bytes that a text asks for are written.
    assert_eq!(said("assemble", text.as_bytes()), (Some(0), String::new()));
    assert_eq!(said("assemble", b"sites 9"), (Some(0), String::new()));
    // What was read before counts all the same.
    let (_, printed, _) = fj(&["rehearse", "--plain", "-"], text.as_bytes());
    assert_eq!(printed, "sites 2\n1 taken wq 2\n2 bad 12\nend 1 1\n");
}

#[test]
fn a_number_of_sites_that_no_run_has_is_told_with_its_line() {
    for command in READING {
        let told = said(command, b"\n\nsites 9\nbegin 1 yes\n");
        assert_eq!(told, trouble(":3: refused 1: 9 is not a number of sites: 2 to 8"), "{command}");
    }
    let told = fj(&["rehearse", "--plain", "-"], b"sites 9");
    assert_eq!((told.0, &*told.1), (Some(1), "refused 1\n"));
    for command in ["next", "chart"] {
        assert_eq!(fj(&[command, "-"], b"sites 9").1, "");
    }
}

#[test]
fn a_wrong_line_is_named() {
    for command in READING.into_iter().chain(["assemble"]) {
        let (status, wrong) = said(command, b"sites 2\nbegn 1 yes\n");
        assert_eq!(status, Some(1));
        let start = "fj: standard input:2: `begn 1 yes` is not understood; a line begins with";
        assert!(wrong.starts_with(start), "{wrong}");
    }
    let refused = trouble(":2: refused 14: 9 is not a site: a number from 1 to 8");
    assert_eq!(said("rehearse", b"sites 2\nbegin 9 yes\n"), refused);
}

#[test]
fn the_limit_is_told_and_what_fits_is_rehearsed() {
    let text = format!("sites 2\nrepeat 7280 conclude 1\n{}", "conclude 1\n".repeat(3));
    let bytes = assembled(&text);
    assert_eq!(bytes.len(), 1 + 9 * 7283);
    let bad = format!("bad 10: {FULL}; no more is read");
    // A chart of so many events cannot be shown either.
    let short = || READING.into_iter().filter(|command| *command != "chart");
    for command in short() {
        let told = said(command, text.as_bytes());
        assert_eq!(told, trouble(&format!(":4: {bad}")), "{command}");
    }
    for command in short().chain(["assemble"]) {
        let told = said(command, &bytes);
        assert_eq!(told, trouble(&format!(": record 7282: {bad}")), "{command}");
    }
    let (status, printed, wrong) = fj(&["chart", "-"], text.as_bytes());
    assert_eq!((status, &*printed), (Some(1), ""));
    assert!(wrong.starts_with("fj: standard input: a chart of 7282 events would be "), "{wrong}");
    assert!(wrong.ends_with(&format!("\nfj: standard input:4: {bad}\n")), "{wrong}");
    assert_eq!(said("assemble", text.as_bytes()), trouble(&format!(":4: {FULL}")));
    let (_, printed, _) = fj(&["show", "-"], &bytes);
    assert!(printed.ends_with(&format!("\n# {bad}\nbytes 00 07 01 05 01 00\n")), "{printed}");
    let (_, printed, _) = fj(&["rehearse", "--plain", "-"], &bytes);
    assert!(printed.ends_with("\n7281 refused 5 qq\n7282 bad 10\nend 0 0\n"));
    let (_, printed, _) = fj(&["rehearse", "-"], &bytes);
    assert!(printed.contains(&format!("({FULL}; no more is read)\nend 0 0 ")), "{printed}");
}

#[test]
fn the_last_event_that_fits_is_fine_and_a_repeat_of_more_is_not_built() {
    let full = b"sites 2\nrepeat 7281 conclude 1\n";
    assert_eq!(said("rehearse", full), (Some(0), String::new()));
    for times in ["7282", "100000", "99999999999999999999999"] {
        let text = format!("sites 2\nrepeat {times} conclude 1\n");
        let more = format!(":2: `{times}` times is more than the 7281 that fit: {FULL}");
        for command in ["rehearse", "assemble"] {
            let words = [command, "-"];
            let wrong = format!("fj: standard input{more}\n");
            assert_eq!(fj(&words, text.as_bytes()), came(1, "", &wrong), "{command}");
        }
    }
}

#[test]
fn a_refused_event_is_trouble_where_it_is_to_be() {
    let text = b"sites 3\nbegin 1 yes\n\ntake over 3\nconclude 1\n";
    assert_eq!(said("rehearse", text), (Some(0), String::new()));
    let first = ":4: refused 5: site 3 has no notice that sites 1 and 2 have stopped \
                 (the first of 2 refused events)";
    for command in ["rehearse --strict", "rehearse --strict --plain"] {
        assert_eq!(said(command, text), trouble(first));
    }
    let (_, printed, _) = fj(&["rehearse", "--strict", "--plain", "-"], text);
    assert_eq!(printed, "sites 3\n1 taken wqq 2\n2 refused 5 wqq\n3 refused 5 wqq\nend 1 2\n");
    let one = assembled("sites 2\nbegin 1 yes\nstop 7\n");
    let only = ": record 2: refused 2: there is no site 7: the run has 2 sites";
    assert_eq!(said("rehearse --strict", &one), trouble(only));
    assert_eq!(said("rehearse --strict", b"sites 2\nbegin 1 yes"), (Some(0), String::new()));
    // A bad record comes first.
    let bad = ":3: bad 10: the record is not complete; no more is read";
    assert_eq!(said("rehearse --strict", b"sites 2\nconclude 1\nbytes 00\n"), trouble(bad));
}

#[test]
fn the_transcript_stands_at_the_left_and_below_it_how_the_run_stands() {
    let text = b"sites 3\nbegin 1 yes\ndeliver 2 start from 1 yes\nstop 3\n";
    let (_, plain, _) = fj(&["rehearse", "--plain", "-"], text);
    let (_, told, _) = fj(&["rehearse", "-"], text);
    let left: Vec<&str> = told.lines().map(|line| line.get(..13).unwrap_or(line).trim()).collect();
    assert_eq!(left[..5], plain.lines().collect::<Vec<_>>());
    let below: Vec<&str> = told.lines().skip(5).map(str::trim).collect();
    let expected = [
        "outstanding: yes from 2 to 1",
        "undecided: site 1 in w waits for the votes of sites 2 and 3, and has no notice that site 3 has stopped",
        "undecided: site 2 in w waits for site 1",
    ];
    assert_eq!(below, expected);
}

#[test]
fn what_may_happen_next_can_be_added_to_the_journal() {
    let text = "sites 2\nbegin 1 yes\n";
    let (status, printed, wrong) = fj(&["next", "-"], text.as_bytes());
    assert_eq!((status, &*wrong), (Some(0), ""));
    let expected = "deliver 2 start from 1 yes                        # taken ww -\n\
                    deliver 2 start from 1 no                         # taken wa -\n\
                    stop 1                                            # taken Wq -\n\
                    stop 2                                            # taken wQ -\n\
                    stop 2 during deliver start from 1 yes leaving 1  # taken wQ -\n\
                    stop 2 during deliver start from 1 no leaving 1   # taken wQ -\n";
    assert_eq!(printed, expected);
    for line in printed.lines() {
        let longer = format!("{text}{line}\n");
        let (status, told, _) = fj(&["rehearse", "--plain", "--strict", "-"], longer.as_bytes());
        let outcome = line.split("# ").nth(1).expect("an outcome");
        assert!(status == Some(0) && told.contains(&format!("\n2 {outcome}\n")), "{line}: {told}");
    }
    let gone = fj(&["next", "-"], b"sites 2\nstop 1\nstop 2\n");
    assert_eq!(gone, came(0, "# nothing: every site has stopped\n", ""));
}

/// Each scenario's exit status: 1 where it is not read to its end.
#[test]
fn the_scenarios_that_are_read_to_their_end() {
    let mut unread = Vec::new();
    for entry in std::fs::read_dir(SCENARIOS).expect("the scenarios are there") {
        let file = entry.expect("it can be listed").path();
        if file.extension().is_some_and(|end| end == "journal") {
            let (status, _, wrong) = fj(&["rehearse", file.to_str().expect("a name")], b"");
            let name = file.file_stem().and_then(|stem| stem.to_str()).expect("a name").to_string();
            assert_eq!(status == Some(1), wrong.contains(".journal:"), "{name}: {wrong}");
            unread.extend((status != Some(0)).then_some(name));
        }
    }
    unread.sort();
    assert_eq!(unread, ["damaged-record", "over-the-limit", "too-many-sites", "torn-record"]);
}
