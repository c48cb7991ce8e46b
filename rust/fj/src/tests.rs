//! The notation both ways, its errors, its limit, and the words beside a transcript.

use crate::beside::Rehearsal;
use crate::input::{is_text, no_text, LIMIT};
use crate::notation::{assemble, line_of, show, start, title, FULL};
use crate::place::Error;
use crate::words::{fields, words, Fields};

/// An event of every kind, with the fields of its record.
const EVENTS: [(&str, Fields); 16] = [
    ("begin 1 yes", [1, 1, 0, 0, 1, 0]),
    ("begin 2 no", [1, 2, 0, 0, 2, 0]),
    ("deliver 2 start from 1 yes", [2, 2, 1, 1, 1, 0]),
    ("deliver 3 start from 1 no", [2, 3, 1, 1, 2, 0]),
    ("deliver 1 yes from 2", [2, 1, 2, 2, 0, 0]),
    ("deliver 8 abort from 7", [2, 8, 7, 8, 0, 0]),
    ("notice 2 of 1", [3, 2, 1, 0, 0, 0]),
    ("take over 2", [4, 2, 0, 0, 0, 0]),
    ("conclude 1", [5, 1, 0, 0, 0, 0]),
    ("stop 3", [6, 3, 0, 0, 0, 0]),
    ("stop 1 during begin yes leaving 2 3", [17, 1, 0, 0, 1, 6]),
    ("stop 2 during deliver start from 1 yes leaving 1", [18, 2, 1, 1, 1, 1]),
    ("stop 2 during deliver move-p from 1 leaving none", [18, 2, 1, 4, 0, 0]),
    ("stop 2 during notice of 1 leaving none", [19, 2, 1, 0, 0, 0]),
    ("stop 2 during take over leaving 3 8", [20, 2, 0, 0, 0, 132]),
    ("stop 1 during conclude leaving 1 2 3 4 5 6 7 8", [21, 1, 0, 0, 0, 255]),
];

/// All fields that the library writes as a record, with one or another set where there is one.
pub fn all_fields() -> impl Iterator<Item = Fields> {
    let small = |range: std::ops::RangeInclusive<u8>| range.collect::<Vec<u8>>();
    let kinds = small(1..=6).into_iter().chain(17..=21);
    kinds.flat_map(move |k| {
        let numbers = (0..9u32 * 9 * 9 * 3).map(|rest| {
            let [s, o, m, v] = [rest % 9, rest / 9 % 9, rest / 81 % 9, rest / 729];
            [s as u8, o as u8, m as u8, v as u8]
        });
        numbers.flat_map(move |[s, o, m, v]| {
            let sets: &[u8] = if k > 16 { &[0, 1, 90, 128, 255] } else { &[0] };
            sets.iter().map(move |&x| [k, s, o, m, v, x]).filter(|&[k, s, o, m, v, x]| {
                fjadrimor::calls::record_write(k, s, o, m, v, x, &mut [0; 9], 0) == 0
            })
        })
    })
}

/// Numbers that look like chance.
pub fn chance(seed: u64) -> impl FnMut() -> u64 {
    let mut state = seed;
    move || {
        state =
            state.wrapping_mul(6_364_136_223_846_793_005).wrapping_add(1_442_695_040_888_963_407);
        state >> 33
    }
}

fn why(text: &str) -> Error {
    assemble(text).expect_err(text)
}

#[test]
fn every_kind_of_event_has_its_words() {
    for (text, record) in EVENTS {
        let said: Vec<&str> = text.split(' ').collect();
        assert_eq!(fields(&said), Ok(record), "{text}");
        assert_eq!(words(record), text);
    }
}

#[test]
fn every_record_is_read_back_from_its_words() {
    let mut count = 0;
    for record in all_fields() {
        let text = words(record);
        assert_eq!(fields(&text.split(' ').collect::<Vec<_>>()), Ok(record), "{text}");
        count += 1;
    }
    // Begin 16, deliver 8 * 8 * 9, notice 64, take over and conclude 8 each; stops during them
    // with five sets; and 8 stops.
    assert_eq!(count, (16 + 576 + 64 + 8 + 8) * 6 + 8);
}

#[test]
fn a_journal_is_shown_as_it_is_written() {
    let lines: Vec<&str> = EVENTS.iter().map(|(text, _)| *text).collect();
    let text = format!("sites 3\n{}\n", lines.join("\n"));
    let bytes = assemble(&text).unwrap();
    assert_eq!(bytes.len(), 1 + 9 * EVENTS.len());
    assert_eq!(bytes[..10], [3, 0, 7, 1, 1, 1, 0, 0, 1, 0]);
    assert_eq!(show(&bytes, false), text);
}

#[test]
fn comments_blanks_capitals_and_order_do_not_matter() {
    let free =
        "\u{feff}# A title\r\n\r\n  Sites\t2 # two\r\nSTOP 1 during Take Over leaving 3 2 2\r\n\
                stop 1 during conclude\nrepeat 2 deliver 2 Move-p from 1";
    let bytes = assemble(free).unwrap();
    let canonical = "sites 2\nstop 1 during take over leaving 2 3\n\
                     stop 1 during conclude leaving none\n\
                     deliver 2 move-p from 1\ndeliver 2 move-p from 1\n";
    assert_eq!(show(&bytes, false), canonical);
    assert_eq!(assemble(canonical), Ok(bytes));
    assert_eq!(title(free), Some("A title"));
    assert_eq!(title("sites 2\n# later"), None);
    assert_eq!(title("#\n# second\nsites 2"), None);
}

/// The examples that the help has of the notation. The words beside one stand after two blanks.
fn examples() -> Vec<&'static str> {
    let (_, rest) = crate::HELP.split_once("NOTATION\n").expect("the notation");
    let (notation, _) = rest.split_once("TRANSCRIPT\n").expect("its end");
    let indented = notation.lines().filter_map(|line| line.strip_prefix("  "));
    indented.filter_map(|line| line.split("  ").next().filter(|text| !text.is_empty())).collect()
}

#[test]
fn the_examples_in_the_help_are_understood() {
    let examples = examples();
    let shown = show(&assemble(&examples.join("\n")).unwrap(), false);
    assert_eq!(examples.iter().filter(|line| line.starts_with("stop ")).count(), 3);
    assert!(examples.contains(&"stop 1 during conclude"));
    assert!(shown.contains("\nstop 1 during conclude leaving none\n"), "{shown}");
}

#[test]
fn what_the_run_will_refuse_is_kept() {
    for text in
        ["sites 0\n", "sites 255\nbegin 1 yes\n", "sites 2\nstop 8\nstop 8\nnotice 5 of 5\n"]
    {
        assert_eq!(show(&assemble(text).unwrap(), false), text);
    }
}

#[test]
fn damaged_bytes_are_kept() {
    let good = "sites 2\nbegin 1 yes\n";
    let damages = [
        ("bytes 00\n", 10),
        ("bytes 00 07 01 05 01\n", 10),
        ("bytes 00 08\n", 11),
        ("bytes 00 07 02 05 01 00 00 00 00\n", 12),
        ("bytes 00 07 01 07 01 00 00 00 00\nbytes 00 07 01 05 01 00 00 00 00\n", 13),
        ("bytes 00 07 01 05 09 00 00 00 00\nbytes ff\n", 14),
    ];
    for (damage, ground) in damages {
        let bytes = assemble(&format!("{good}{damage}")).unwrap();
        let shown = show(&bytes, false);
        assert!(shown.starts_with(&format!("{good}# bad {ground}: ")), "{shown}");
        assert!(shown.ends_with(damage), "{shown}");
        assert_eq!(assemble(&shown), Ok(bytes));
    }
}

#[test]
fn bytes_that_are_a_good_record_are_shown_in_words() {
    let bytes = assemble("sites 2\nbytes 00 07 01\nbytes 05 01 00 00 00 00").unwrap();
    assert_eq!(show(&bytes, false), "sites 2\nconclude 1\n");
}

#[test]
fn any_bytes_are_shown_and_assembled_again() {
    let mut next = chance(1);
    for length in 1..400 {
        let mut bytes: Vec<u8> = (0..length).map(|_| (next() % 256) as u8).collect();
        // Every second journal has good heads, so that words and bytes are mixed.
        if length % 2 == 0 {
            bytes.iter_mut().skip(1).for_each(|byte| *byte %= 5);
            (1..bytes.len()).step_by(9).for_each(|at| {
                for (byte, head) in bytes[at..].iter_mut().zip([0, 7, 1]) {
                    *byte = head;
                }
            });
        }
        let shown = show(&bytes, false);
        assert!(is_text(shown.as_bytes()));
        assert_eq!(assemble(&shown), Ok(bytes));
    }
}

#[test]
fn text_and_bytes_are_told_apart() {
    assert!(is_text(b"sites 2\n") && is_text("# M\u{fc}nchen\r\n\tsites 2".as_bytes()));
    for n in 2..=8 {
        assert!(!is_text(&[n]));
        assert!(!is_text(&[n, b'a', b'b']));
    }
    assert!(is_text(b"# M\xfcnchen\nsites 2") && is_text(b"") && is_text(b" \t\r\n"));
    let other: [&[u8]; 2] = [b"sites 2\0", b"\n\x00\x07\x01\x05\x01\x00\x00\x00\x00"];
    assert!(other.iter().all(|file| !is_text(file)));
}

#[test]
fn the_byte_that_makes_it_no_text_is_named() {
    assert_eq!(no_text(b"sites 2\n\n# a\x1bb"), Some((3, 0x1b)));
    assert_eq!(no_text("# M\u{fc}nchen\r\n\tsites 2".as_bytes()), None);
}

#[test]
fn a_text_that_says_nothing_is_an_error() {
    for text in ["", "\n", " \t\r\n\n", "\u{feff}", "# only a comment", "#\n\n# another\n"] {
        let missing = Error { line: 0, reason: "the number of sites is missing".to_string() };
        assert_eq!(why(text), missing, "{text:?}");
    }
}

#[test]
fn an_error_names_the_line_and_the_reason() {
    let errors = [
        ("begin 1 yes", 1, "the number of sites comes first"),
        ("\n# nothing\nsites", 3, "the number of sites comes first"),
        ("sites 2\nsites 2", 2, "the number of sites has been said already"),
        ("sites x", 1, "`x` is not a number of sites: 2 to 8"),
        ("sites 256", 1, "`256` is not a number of sites: 2 to 8"),
        ("sites +2", 1, "`+2` is not a number of sites: 2 to 8"),
        ("sites 2\n\nbegn 1 yes", 3, "`begn 1 yes` is not understood; a line begins with"),
        ("sites 2\nbegin 1", 2, "`begin 1` is not understood; write it as: begin 1 yes"),
        ("sites 2\nbegin 1 maybe", 2, "`maybe` is not a vote: yes or no"),
        ("sites 2\nbegin x yes", 2, "`x` is not a site: a number from 1 to 8"),
        ("sites 2\nstop 256", 2, "`256` is not a site: a number from 1 to 8"),
        ("sites 2\ndeliver 2 move from 1", 2, "`move` is not a message; messages are start,"),
        ("sites 2\ndeliver 2 start to 1 yes", 2, "`deliver 2 start to 1 yes` is not understood"),
        ("sites 2\nnotice 2 1", 2, "`notice 2 1` is not understood; write it as: notice 2 of 1"),
        ("sites 2\ntake 2", 2, "`take 2` is not understood; write it as: take over 2"),
        ("sites 2\nconclude", 2, "`conclude` is not understood; write it as: conclude 1"),
        ("sites 2\nstop 1 during begin leaving 2", 2, "`stop 1 during begin leaving 2` is not"),
        ("sites 2\nstop 1 during conclude leaving", 2, "after leaving come sites, or none"),
        ("sites 2\nstop 1 during conclude leaving 9", 2, "9 is not a site: a number from 1 to 8"),
        ("sites 2\nrepeat 3", 2, "`repeat 3` is not understood; write it as: repeat 10 conclude 1"),
        ("sites 2\nrepeat -1 conclude 1", 2, "`-1` is not a number of times"),
        ("sites 2\nbytes 0 7", 2, "`0` is not a byte"),
        ("sites 2\nbytes +1", 2, "`+1` is not a byte"),
    ];
    for (text, line, expected) in errors {
        let found = why(text);
        assert!(found.reason.starts_with(expected), "{text}: {}", found.reason);
        assert_eq!(found.line, line, "{text}");
    }
}

#[test]
fn the_library_decides_about_fields_and_the_words_say_what_is_wrong() {
    let refusals = [
        ("begin 9 yes", "9 is not a site: a number from 1 to 8"),
        ("stop 0", "0 is not a site: a number from 1 to 8"),
        ("notice 1 of 9", "9 is not a site: a number from 1 to 8"),
        ("deliver 1 yes from 255", "255 is not a site: a number from 1 to 8"),
        ("stop 9 during conclude", "9 is not a site: a number from 1 to 8"),
        (
            "deliver 2 start from 1",
            "a start comes with the vote of site 2; write it as: deliver 2 start from 1 yes",
        ),
        (
            "stop 2 during deliver start from 1 leaving 1",
            "a start comes with the vote of site 2; \
             write it as: stop 2 during deliver start from 1 yes leaving 1",
        ),
        (
            "deliver 1 yes from 2 no",
            "only a start comes with a vote; write it as: deliver 1 yes from 2",
        ),
    ];
    for (event, expected) in refusals {
        let reason = format!("refused 14: {expected}");
        assert_eq!(why(&format!("sites 2\n{event}")), Error { line: 2, reason });
    }
}

/// Whatever the library's writer refuses has its own words.
#[test]
fn every_refused_field_has_its_words() {
    let words =
        ["begin 1 yes", "deliver 2 start from 1 no", "deliver 1 ack from 2", "notice 1 of 2"];
    let mut refused = 0;
    for said in words.map(|event| event.split(' ').collect::<Vec<_>>()) {
        for place in 0..said.len() {
            for other in ["0", "1", "8", "9", "255", "yes", "no", "start", "ack"] {
                let mut event = said.clone();
                event[place] = other;
                if let Err(error) = assemble(&format!("sites 2\n{}", event.join(" "))) {
                    assert!(!error.reason.contains("a field is"), "{event:?}: {}", error.reason);
                    refused += usize::from(error.reason.starts_with("refused 14: "));
                }
            }
        }
    }
    assert!(refused > 20, "{refused}");
}

#[test]
fn a_long_line_is_told_in_part() {
    let reason = why(&format!("sites 2\nbegin {} yes", "9".repeat(5000))).reason;
    assert_eq!(reason, format!("`{}..` is not a site: a number from 1 to 8", "9".repeat(60)));
}

#[test]
fn what_fits_is_repeated_and_no_more() {
    let events = (LIMIT - 1) / 9;
    assert_eq!(events, 7281);
    assert!(FULL.contains("65,536 bytes") && FULL.contains("7,281 events"));
    let full = assemble(&format!("sites 2\nrepeat {events} conclude 1")).unwrap();
    assert_eq!(full.len(), start(events + 1));
    for (text, line, left) in [
        (format!("sites 2\nrepeat {} conclude 1", events + 1), 2, events),
        (format!("sites 2\nbegin 1 yes\nrepeat {events} conclude 1"), 3, events - 1),
        (format!("sites 2\nrepeat {events} conclude 1\nrepeat 1 stop 1"), 3, 0),
        (format!("sites 2\nrepeat {} conclude 1", u64::MAX), 2, events),
        (format!("sites 2\nrepeat {}0 conclude 1", u64::MAX), 2, events),
    ] {
        let error = why(&text);
        let end = format!("times is more than the {left} that fit: {FULL}");
        assert!(error.line == line && error.reason.ends_with(&end), "{error:?}");
    }
    // A line more is kept, and not read.
    let longer = format!("sites 2\nrepeat {events} conclude 1\n\nconclude 1\nrepeat 0 stop 1");
    assert_eq!(assemble(&longer).unwrap().len(), full.len() + 9);
    assert_eq!((line_of(&longer, full.len()), line_of(&longer, full.len() + 9)), (4, 0));
}

fn rehearsed(text: &str) -> Rehearsal {
    let journal = assemble(text).unwrap();
    Rehearsal::new(&journal, journal.len() > LIMIT).unwrap()
}

#[test]
fn words_stand_beside_the_transcript_and_below_it() {
    let text = "sites 2\nbegin 1 yes\nconclude 1\nbytes 00 07 02 05 01 00 00 00 00";
    let told = rehearsed(text);
    assert_eq!(told.transcript, "sites 2\n1 taken wq 2\n2 refused 5 wq\n3 bad 12\nend 1 1\n");
    assert_eq!(
        told.text(),
        "sites 2\n\
         1 taken wq 2    begin 1 yes (awaits the vote of site 2)\n\
         2 refused 5 wq  conclude 1 (site 1 awaits the vote of site 2)\n\
         3 bad 12        (the record's version is not 1; no more is read)\n\
         end 1 1         events accepted: 1, messages written: 1\n\
         \x20               outstanding: start from 1 to 2\n\
         \x20               undecided: site 1 in w waits for the vote of site 2\n\
         \x20               undecided: site 2 in q waits for site 1\n"
    );
}

/// Whom the acting site awaits, beside events that are taken and passed over; beside a stop nobody.
#[test]
fn whom_the_acting_site_awaits_stands_beside_its_line() {
    let file = concat!(env!("CARGO_MANIFEST_DIR"), "/../../scenarios/late-message.journal");
    let told = rehearsed(&std::fs::read_to_string(file).expect("a scenario")).text();
    let beside = "6 taken pww 2    conclude 1 (awaits the acks of sites 2 and 3)\n\
                  7 taken Pww -    stop 1\n\
                  8 taken Pww -    notice 2 of 1\n\
                  9 taken Pww 3    take over 2 (awaits the ack of site 3)\n\
                  10 taken Pww -   deliver 3 move-w from 2\n\
                  11 passed Pww -  deliver 3 move-p from 1\n\
                  12 passed Pww 3  deliver 2 move-p from 1 (awaits the ack of site 3)\n\
                  13 taken Pww -   deliver 2 ack from 3\n";
    assert!(told.contains(beside), "{told}");
}

#[test]
fn the_limit_is_said_where_it_is_met() {
    let longer = "sites 2\nrepeat 7281 conclude 1\nconclude 1";
    let told = rehearsed(longer).text();
    let limit = told.lines().find(|line| line.starts_with("7282 bad 10 ")).unwrap();
    assert!(limit.ends_with(&format!("({FULL}; no more is read)")), "{limit}");
    // Six bytes more than fit are read, and are no record.
    let torn = rehearsed("sites 2\nrepeat 7281 conclude 1\nbytes 00 07 01 05 01 00");
    let (place, ground, why) = torn.bad().unwrap();
    assert_eq!((place, ground, why), (7282, 10, "the record is not complete; no more is read"));
    assert!(rehearsed("sites 2\nrepeat 7281 conclude 1").bad().is_none());
}

#[test]
fn no_sites_no_run() {
    for journal in [&[][..], &[9], &[0, 0, 7]] {
        let told = Rehearsal::new(journal, false).unwrap();
        assert_eq!(told.transcript, "refused 1\n");
        assert!(told.run.is_none());
        assert!(told.text().contains("the number of sites is not 2 to 8"));
        assert!(crate::chart::chart(journal, None).unwrap_err().starts_with("refused 1: "));
    }
}
