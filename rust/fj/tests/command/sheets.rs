//! The exit status of the commands over a sheet, and the places that they name.

use crate::{came, fj, said, trouble, GALLERY};

/// A small sheet; `more` follows it.
fn small(more: &str) -> String {
    let text = "site 1\nstate q working\nstate c commit\nsite 2\nstate q working\nstate c commit\n\
                messages go done\nfirst go\n";
    text.to_string() + more
}

#[test]
fn a_blocking_verdict_is_trouble_where_it_is_to_be() {
    let blocking = format!("{GALLERY}/central-two-phase-2.sheet");
    let nonblocking = format!("{GALLERY}/central-three-phase-2.sheet");
    for options in [&["judge"][..], &["judge", "--plain"]] {
        for sheet in [&blocking, &nonblocking] {
            let (status, printed, wrong) = fj(&[options, &[sheet]].concat(), b"");
            assert_eq!((status, &*wrong), (Some(0), ""), "{sheet}");
            let strict = fj(&[options, &["--strict", sheet]].concat(), b"");
            let is_blocking = sheet == &blocking;
            let why = format!("fj: {blocking}: blocking at 2.1 condition 1\n");
            let why = if is_blocking { &*why } else { "" };
            assert_eq!(strict, came(i32::from(is_blocking), &printed, why), "{sheet}");
        }
    }
}

#[test]
fn an_error_and_a_refusal_are_told_with_their_line() {
    let unknown = small("1: q -> c reads gone\n");
    let twice = small("1: q -> c reads go\n2: q -> c reads go\n");
    let two_sites =
        "refused 27: a message is read by two sites (go at 1: q -> c and go at 2: q -> c)";
    let second = "fj: standard input:10: go at 2: q -> c";
    for command in ["judge", "judge --plain", "sheet assemble", "sheet show", "sheet draw"] {
        let told = said(command, unknown.as_bytes());
        assert_eq!(told, trouble(":9: no line of messages has introduced gone"), "{command}");
        let told = said(command, twice.as_bytes());
        assert_eq!(told, trouble(&format!(":9: {two_sites}\n{second}")), "{command}");
    }
    let (_, printed, _) = fj(&["judge", "--plain", "-"], twice.as_bytes());
    assert_eq!(printed, "refused 27\n");
    assert_eq!(said("judge --strict", twice.as_bytes()), said("judge", twice.as_bytes()));
}

/// What is assembled from the notation is the same bytes again when it is assembled from its bytes, and
/// when it was shown in between.
#[test]
fn bytes_are_read_and_written_again() {
    let sheet = small("1: q -> c reads go writes done votes yes\n2: q -> c reads done\n");
    let assembled = |input: &[u8]| {
        let (status, printed, wrong) = fj(&["sheet", "assemble", "-"], input);
        assert_eq!((status, &*wrong), (Some(0), ""));
        printed.into_bytes()
    };
    let bytes = assembled(sheet.as_bytes());
    assert_eq!(bytes[..2], [0, 37]);
    assert_eq!(assembled(&bytes), bytes);
    let (_, shown, _) = fj(&["sheet", "show", "-"], &bytes);
    assert_eq!(assembled(shown.as_bytes()), bytes);
}

#[test]
fn a_notation_without_a_record_has_its_ground() {
    let one_site = "site 1\nstate q working\n";
    let why = "refused 23: the number of sites is not 2 to 4, or a site's number of states is not 1 to 8 \
               (1 site)";
    for command in ["judge", "judge --plain", "sheet assemble", "sheet show", "sheet draw"] {
        assert_eq!(said(command, one_site.as_bytes()), trouble(&format!(": {why}")), "{command}");
    }
    let (_, printed, _) = fj(&["judge", "--plain", "-"], one_site.as_bytes());
    assert_eq!(printed, "refused 23\n");
}
