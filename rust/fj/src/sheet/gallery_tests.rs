//! What holds of every sheet in the gallery, and of the one that docs/SHEETS.md shows.

use super::model::{Sheet, Transition};
use super::tests::{judged, record};
use super::{judge, library, notation, refusal};
use compare::parts::{compare_records, Writing};
use std::path::Path;

const PAGE: &str = include_str!("../../../../docs/SHEETS.md");

/// The path and the text of each sheet.
pub fn sheets() -> Vec<(String, String)> {
    let folder = concat!(env!("CARGO_MANIFEST_DIR"), "/../../gallery");
    let entries = std::fs::read_dir(folder).expect("the gallery is there");
    let files = entries.map(|entry| entry.expect("it can be listed").path());
    let sheets = files.filter(|file| file.extension().is_some_and(|end| end == "sheet"));
    let text = |file: &Path| std::fs::read_to_string(file).expect("a sheet is text");
    sheets.map(|file| (file.display().to_string(), text(&file))).collect()
}

/// Whether the site could also do something else with the same messages.
fn is_choice(sheet: &Sheet, one: &Transition) -> bool {
    let place = |t: &Transition| (t.site, t.from, t.reads);
    sheet.transitions.iter().any(|other| place(other) == place(one) && other.to != one.to)
}

/// A site that may refuse on its own at all may still do so where it gives its vote instead.
#[test]
fn a_vote_stands_where_the_site_could_still_refuse() {
    for (name, text) in sheets() {
        let sheet = notation::read(&text).expect("the gallery is good");
        for vote in sheet.transitions.iter().filter(|t| t.votes) {
            let mut own = sheet.transitions.iter().filter(|t| t.site == vote.site);
            let never_chooses = !own.any(|t| is_choice(&sheet, t));
            assert!(never_chooses || is_choice(&sheet, vote), "{name}:{}", vote.line);
        }
    }
}

/// Every sheet goes through the reader to its parts and through the writer back to the same bytes, in
/// the library as in the second program.
#[test]
fn a_sheet_is_read_and_written_again() {
    let library =
        Writing { parts: fjadrimor::calls::sheet_parts, write: fjadrimor::calls::sheet_write };
    let second = Writing { parts: second::parts::sheet_parts, write: second::parts::sheet_write };
    let read = |(_, text): (String, String)| notation::read(&text).expect("the gallery is good");
    let records: Vec<Vec<u8>> = sheets().into_iter().map(read).map(|is| record(&is)).collect();
    let tally = compare_records(library, second, &records);
    assert!(tally.finish() && tally.compared > 10 * records.len() as u64);
}

/// The row of a sheet in the gallery's page, from its report.
fn row(file: &str, report: &str) -> String {
    let name = Path::new(file).file_stem().and_then(|stem| stem.to_str()).expect("a name");
    let after = |start| report.lines().find_map(|line| line.strip_prefix(start)).expect(start);
    let size = after("sheet ").replace(" sites ", " | ").replace(" states", "");
    let (verdict, tolerance) = (after("verdict "), after("tolerance "));
    format!("| [{name}]({name}.sheet) | {size} | {verdict} | {tolerance} |")
}

#[test]
fn the_gallery_has_a_row_for_each_sheet() {
    let page = include_str!("../../../../gallery/README.md");
    for (name, text) in sheets() {
        let sheet = notation::read(&text).expect("the gallery is good");
        let report = String::from_utf8(library::report(&record(&sheet))).expect("text");
        let row = row(&name, &report);
        assert!(page.lines().any(|line| line == row), "{row}");
    }
}

/// The report with names has the plain report's tolerance in its words.
#[test]
fn a_tolerance_is_told_alike() {
    for (name, text) in sheets() {
        let sheet = notation::read(&text).expect("the gallery is good");
        let judged = judged(&sheet).expect("it is accepted");
        let plain = String::from_utf8(library::report(&record(&sheet))).expect("text");
        let last = plain.lines().last().expect("a last line");
        assert!(judge::text(&sheet, &judged).lines().any(|line| line == last), "{name}: {last}");
    }
}

#[test]
fn a_comment_tells_what_was_left_out_and_what_the_verdict_means() {
    for (name, text) in sheets() {
        for start in ["# Left out: ", "# Verdict: "] {
            assert!(text.lines().any(|line| line.starts_with(start)), "{name}: {start}");
        }
    }
}

/// The sheet that docs/SHEETS.md shows.
fn shown() -> &'static str {
    let (_, rest) = PAGE.split_once("## The notation").expect("the notation");
    rest.split("```\n").nth(1).expect("a listing")
}

#[test]
fn the_page_shows_the_sheet_without_its_comment_and_its_report() {
    let all = sheets();
    let (_, text) =
        all.iter().find(|sheet| sheet.0.ends_with("central-two-phase-2.sheet")).unwrap();
    let said = |text| str::lines(text).filter(|line| !line.is_empty() && !line.starts_with('#'));
    assert!(said(shown()).eq(said(text)));
    let sheet = notation::read(shown()).expect("the notation is good");
    let report = judge::text(&sheet, &judged(&sheet).expect("it is accepted"));
    assert!(PAGE.contains(&format!(".sheet\n{report}```\n")), "{report}");
}

#[test]
fn the_page_shows_the_error_of_the_sheet_that_it_shows() {
    let wrong = shown().replacen("writes commit2", "writes comit2", 1);
    let error = notation::read(&wrong).expect_err("comit2 is no message");
    let told = format!("\nfj: two.sheet:{}: {}\n", error.line, error.reason);
    assert!(PAGE.contains(&told), "{told}");
}

#[test]
fn the_page_shows_the_refusals_of_the_sheet_that_it_shows() {
    for (ground, good, bad) in
        [(27, "reads no2", "reads start2"), (31, "first request", "first request yes2")]
    {
        let sheet = notation::read(&shown().replacen(good, bad, 1)).expect("the notation is good");
        assert_eq!(judged(&sheet).err(), Some(ground));
        let told = refusal::told(ground, &sheet, "two.sheet");
        let lines: String = told.lines().map(|line| format!("fj: {line}\n")).collect();
        assert!(PAGE.contains(&format!("```\n{lines}```\n")), "{lines}");
    }
}

/// What the page builds in Rust stands in the builder's own documentation, which is run.
#[test]
fn the_page_shows_the_builder_as_its_documentation_does() {
    let documented = include_str!("../../../fjadrimor/src/builder.rs");
    let shown = PAGE.split("```rust\n").nth(1).and_then(|rest| rest.split("```").next());
    let lines: String = shown
        .expect("a listing")
        .lines()
        .map(|line| format!("/// {line}").trim_end().to_string() + "\n")
        .collect();
    assert!(documented.contains(&lines), "{lines}");
}
