//! What is no journal or no sheet, byte order marks, and files without end.

use crate::{assembled, came, came_of, command, fj, said, trouble, GALLERY, SCENARIOS};
use std::fs::File;
use std::io::{Seek, Write};
use std::process::Stdio;

const PNG: &[u8] = b"\x89PNG\r\n\x1a\n\0\0\0\rIHDR";
const ELF: &[u8] = b"\x7fELF\x02\x01\x01\0\0\0\0\0\0\0\0\0";

/// A text in UTF-16.
fn utf_16(text: &str, bytes: fn(u16) -> [u8; 2]) -> Vec<u8> {
    text.encode_utf16().flat_map(bytes).collect()
}

#[test]
fn what_is_no_journal_is_named_with_what_it_was_taken_for() {
    let sheet = fj(&["sheet", "show", &format!("{GALLERY}/central-two-phase-2.sheet")], b"").1;
    let utf_16_marked = utf_16("\u{feff}sites 2\n", u16::to_le_bytes);
    let utf_16_bare = utf_16("sites 2\n", u16::to_be_bytes);
    let files: [(&[u8], &str); 9] = [
        (ELF, ":1: 7f is a byte that no text has, so the file was taken as a journal in bytes: refused 1: 127 is not a number of sites: 2 to 8; it looks like a program"),
        (PNG, ":2: 1a is a byte that no text has, so the file was taken as a journal in bytes: refused 1: 137 is not a number of sites: 2 to 8; it looks like a picture"),
        (b"\xff\xd8\xff\xe0\0\x10JFIF", ":1: 00 is a byte that no text has, so the file was taken as a journal in bytes: refused 1: 255 is not a number of sites: 2 to 8; it looks like a picture"),
        (b"\x1f\x8b\x08\0", ":1: 1f is a byte that no text has, so the file was taken as a journal in bytes: refused 1: 31 is not a number of sites: 2 to 8; it looks like a compressed file"),
        (&utf_16_marked, ":1: 00 is a byte that no text has, so the file was taken as a journal in bytes: refused 1: 255 is not a number of sites: 2 to 8; it looks like text in UTF-16, and fj reads UTF-8"),
        (&utf_16_bare, ":1: 00 is a byte that no text has, so the file was taken as a journal in bytes: refused 1: 0 is not a number of sites: 2 to 8; it looks like text in UTF-16, and fj reads UTF-8"),
        (b"\0\0\0\0\0\0\0\0\0\0", ":1: 00 is a byte that no text has, so the file was taken as a journal in bytes: refused 1: 0 is not a number of sites: 2 to 8"),
        (b"sites 2\n\x1b[1mbegin 1 yes\n", ":2: 1b is a byte that no text has, so the file was taken as a journal in bytes: refused 1: 115 is not a number of sites: 2 to 8"),
        (b"\x02\x7fELF", ":1: 02 is a byte that no text has, so the file was taken as a journal in bytes: record 1: bad 11: the record's length is not 7; no more is read"),
    ];
    for command in ["rehearse", "rehearse --plain", "show", "next", "chart", "assemble"] {
        for (file, why) in &files {
            let told = said(command, file);
            assert_eq!(told, trouble(why), "{command}");
        }
        let hint = "; taken as a journal in notation, but it looks like";
        let first = "the number of sites comes first, such as: sites 3";
        let texts = [
            (&*sheet, format!(":1: {first}{hint} a protocol sheet, which fj judge takes")),
            ("<svg xmlns=\"\">\n", format!(":1: {first}{hint} a picture or a page of the web")),
            ("#!/bin/sh\necho", format!(":2: {first}{hint} a script")),
            (
                "",
                ": an empty file, taken as a journal in notation: the number of sites is missing"
                    .to_string(),
            ),
            (
                "\u{feff}",
                ": an empty file, taken as a journal in notation: the number of sites is missing"
                    .to_string(),
            ),
            (
                " \n# a comment",
                ": taken as a journal in notation: the number of sites is missing".to_string(),
            ),
        ];
        for (text, why) in texts {
            assert_eq!(said(command, text.as_bytes()), trouble(&why), "{command}");
        }
    }
    let empty =
        "an empty file, taken as a journal in bytes: refused 1: the number of sites is missing";
    assert_eq!(said("rehearse --bytes", b""), trouble(&format!(": {empty}")));
    let (_, printed, _) = fj(&["rehearse", "--plain", "-"], ELF);
    assert_eq!(printed, "refused 1\n");
}

#[test]
fn what_is_no_sheet_is_named_with_what_it_was_taken_for() {
    let journal = assembled("sites 2\nbegin 1 yes\n");
    let size = "refused 21: the sheet's length is missing, 0, or not the length of what follows";
    let files: [(&[u8], &str); 4] = [
        (ELF, "; it looks like a program"),
        (PNG, "; it looks like a picture"),
        (
            &utf_16("site 1\n", u16::to_le_bytes),
            "; it looks like text in UTF-16, and fj reads UTF-8",
        ),
        (&journal, "; it looks like a journal, which fj rehearse takes"),
    ];
    for command in ["judge", "judge --plain", "sheet show", "sheet assemble", "sheet draw"] {
        for (file, look) in &files {
            let (status, wrong) = said(command, file);
            assert!(status == Some(1) && wrong.starts_with("fj: standard input:"), "{wrong}");
            let taken = "is a byte that no text has, so the file was taken as a sheet in bytes";
            assert!(wrong.ends_with(&format!(" {taken}: {size}{look}\n")), "{wrong}");
        }
        let empty = format!(": an empty file, taken as a sheet in bytes: {size}");
        assert_eq!(said(command, b""), trouble(&empty), "{command}");
        let (_, wrong) = said(command, b"# three sites\nsites 3\n");
        let look = "; taken as a sheet in notation, but it looks like a journal, which fj rehearse takes\n";
        assert!(wrong.starts_with("fj: standard input:2: a line starts with"), "{wrong}");
        assert!(wrong.ends_with(look), "{wrong}");
    }
    assert_eq!(fj(&["judge", "--plain", "-"], b"").1, "refused 21\n");
    // The other way round: a sheet's bytes are no journal.
    let sheet = command(&["sheet", "assemble", &format!("{GALLERY}/central-two-phase-2.sheet")]);
    let bytes = { sheet }.output().expect("it runs").stdout;
    let (_, wrong) = said("rehearse", &bytes);
    assert!(wrong.ends_with("; it looks like a protocol sheet, which fj judge takes\n"), "{wrong}");
}

#[test]
fn a_file_that_cannot_be_opened_is_named() {
    for words in [&["rehearse"][..], &["judge"], &["sheet", "show"]] {
        let (status, _, wrong) = fj(&[words, &["no/such/file"]].concat(), b"");
        assert_eq!(
            (status, &*wrong),
            (Some(1), "fj: no/such/file: No such file or directory (os error 2)\n")
        );
    }
}

#[test]
fn a_byte_order_mark_is_fine() {
    for (words, file) in [
        (&["rehearse", "-"][..], format!("{SCENARIOS}/incident.journal")),
        (&["chart", "-"], format!("{SCENARIOS}/incident.journal")),
        (&["judge", "-"], format!("{GALLERY}/central-two-phase-2.sheet")),
        (&["sheet", "draw", "-"], format!("{GALLERY}/central-two-phase-2.sheet")),
    ] {
        let text = std::fs::read(&file).expect("it is there");
        let plain = fj(words, &text);
        assert_eq!(plain.0, Some(0));
        assert_eq!(fj(words, &[b"\xef\xbb\xbf", &*text].concat()), plain, "{words:?}");
    }
}

/// How far a command reads into a file on its standard input, and what came of it.
fn read_of(words: &[&str], content: &[u8]) -> (u64, Option<i32>, String) {
    let name = format!("fj-read-{}-{}", std::process::id(), content.len());
    let path = std::env::temp_dir().join(name);
    File::create(&path).and_then(|mut file| file.write_all(content)).expect("a file");
    let mut file = File::open(&path).expect("it is there");
    // The command's standard input shares its place with this file.
    let input = Stdio::from(file.try_clone().expect("a second handle"));
    let output = command(words).stdin(input).output().expect("it runs");
    std::fs::remove_file(&path).expect("it was there");
    let (status, _, wrong) = came_of(output);
    (file.stream_position().expect("a place"), status, wrong)
}

#[test]
fn bytes_are_read_up_to_the_limit_and_text_a_little_further() {
    for words in [&["rehearse", "-"][..], &["show", "-"], &["judge", "-"], &["sheet", "show", "-"]]
    {
        let (place, status, _) = read_of(words, &vec![0; 300_000]);
        assert!((65_537..100_000).contains(&place), "{words:?}: {place}");
        assert_eq!(status, Some(1));
        let (place, status, wrong) = read_of(words, &vec![b'#'; 1_500_000]);
        assert!((1_048_577..1_100_000).contains(&place), "{words:?}: {place}");
        let why = "fj: standard input: a text is read up to 1,048,576 bytes, and this has more\n";
        assert_eq!((status, &*wrong), (Some(1), why));
    }
    let (place, ..) = read_of(&["rehearse", "--bytes", "-"], &vec![b'#'; 300_001]);
    assert!((65_537..100_000).contains(&place), "{place}");
    // A text of just that length is read.
    let mut text = b"sites 2 #".to_vec();
    text.resize(1 << 20, b'x');
    assert_eq!(fj(&["show", "-"], &text), came(0, "sites 2\n", ""));
}

#[test]
fn a_file_without_end_does_no_harm() {
    let commands = ["rehearse", "next", "chart", "show", "assemble", "judge"];
    for words in commands.map(|word| vec![word, "/dev/zero"]) {
        let (status, _, wrong) = fj(&words, b"");
        assert!(
            status == Some(1) && wrong.starts_with("fj: /dev/zero:1: 00 is a byte"),
            "{words:?}: {wrong}"
        );
    }
}
