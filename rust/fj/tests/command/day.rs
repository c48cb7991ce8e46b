//! `fj day`: the answer to a journal in one call, in words and in numbers, and its exit status.

use crate::{assembled, came, fj, said, trouble, SCENARIOS};

/// What comes of a scenario's journal; what is said to be wrong, without the folder's name.
fn day(options: &[&str], scenario: &str) -> (Option<i32>, String, String) {
    let file = format!("{SCENARIOS}/{scenario}.journal");
    let (status, printed, wrong) = fj(&[&["day", &*file], options].concat(), b"");
    (status, printed, wrong.replace(&format!("{SCENARIOS}/"), ""))
}

#[test]
fn a_good_close_ends_with_no_record_left() {
    let told = "events accepted: 8, messages written: 5\n\
                states of the sites: cc\n\
                ended with no record left, at byte 72 of the records\n";
    assert_eq!(day(&[], "good-close-two"), came(0, told, ""));
    assert_eq!(day(&["--plain"], "good-close-two"), came(0, "8 5 72 0 0 0\n", ""));
    assert_eq!(fj(&["day", "--plain", "-"], b"sites 2"), came(0, "0 0 0 0 0 0\n", ""));
}

#[test]
fn one_record_too_early_ends_it() {
    let refused = "refused 5: site 1 awaits the vote of site 3";
    let told = format!(
        "events accepted: 4, messages written: 4\n\
         states of the sites: www\n\
         sites that site 1 still awaits: 1; ring site 3\n\
         ended at event 5, byte 36 of the records: {refused}\n"
    );
    let wrong = format!("fj: one-record-early.journal:16: {refused}\n");
    assert_eq!(day(&[], "one-record-early"), came(1, &told, &wrong));
    assert_eq!(day(&["--plain"], "one-record-early"), came(1, "4 4 36 1 3 5\n", &wrong));
}

/// Site 1 that has heard a No needs nobody rung.
#[test]
fn a_site_that_can_conclude_rings_nobody() {
    let text = "sites 5\nbegin 1 yes\ndeliver 2 start from 1 no\ndeliver 1 no from 2\n";
    let told = "events accepted: 3, messages written: 5\n\
                states of the sites: waqqq\n\
                sites that site 1 still awaits: 3; it can conclude without them\n\
                ended with no record left, at byte 27 of the records\n";
    assert_eq!(fj(&["day", "-"], text.as_bytes()), came(0, told, ""));
}

/// A rehearsal would name the bad record first; the call does not come to it.
#[test]
fn the_first_of_a_refused_and_a_bad_record_ends_it() {
    let text = "sites 3\nbegin 1 yes\nstop 3\n\nstop 3\nbytes 00\n";
    let stopped = "refused 3: site 3 has stopped";
    assert_eq!(said("day", text.as_bytes()), trouble(&format!(":5: {stopped}")));
    assert_eq!(said("day", &assembled(text)), trouble(&format!(": record 3: {stopped}")));
    let (_, printed, _) = fj(&["day", "-"], text.as_bytes());
    let told = "events accepted: 2, messages written: 2\n\
                states of the sites: wqQ\n\
                ended at event 3, byte 18 of the records: refused 3: site 3 has stopped\n";
    assert_eq!(printed, told);
    let torn = "sites 2\nbegin 1 yes\nbytes 00\nconclude 1\n";
    let short = "refused 11: the record's length is not 7; no more is read";
    assert_eq!(said("day", torn.as_bytes()), trouble(&format!(":3: {short}")));
    assert_eq!(fj(&["day", "--plain", "-"], torn.as_bytes()).1, "1 1 9 1 2 11\n");
}

#[test]
fn a_number_of_sites_that_no_run_has_gets_no_answer() {
    let wrong = "fj: standard input:1: refused 1: 9 is not a number of sites: 2 to 8\n";
    for arguments in [&["day", "-"][..], &["day", "--plain", "-"]] {
        assert_eq!(fj(arguments, b"sites 9\nbegin 1 yes\n"), came(1, "", wrong));
    }
}
