//! What include/fjadrimor.h tells a C programmer: its numbers are the library's, under the names that
//! the Rust crate has too, and the stack that it asks for is enough.

use compare::inputs::days::longest;
use compare::inputs::drafts::product;
use compare::inputs::journals::Journals;
use compare::inputs::Random;
use fjadrimor::calls::{DAY_ANSWER, RUN_ANSWER, SITE_ANSWER};
use fjadrimor::{calls, Event, Refusal, Run, Site, Step, Vote};

const HEADER: &str = include_str!("../../../include/fjadrimor.h");

/// The number of an enumerator.
fn number(name: &str) -> usize {
    let start = format!("{name} = ");
    let after = HEADER.split(&start).nth(1).unwrap_or_else(|| panic!("{name} is not there"));
    let digits = after.find(|c: char| !c.is_ascii_digit()).unwrap_or(after.len());
    after[..digits].parse().expect("a number")
}

/// The name in C of what Rust calls `SheetSize`: `FJ_SHEET_SIZE`.
fn in_c(name: &str) -> String {
    let parted = |letter: char| [letter.is_uppercase().then_some('_'), Some(letter)];
    let parts: String = name.chars().flat_map(parted).flatten().collect();
    format!("FJ{}", parts.to_uppercase())
}

#[test]
fn grounds_are_the_refusals() {
    let (_, rest) = HEADER.split_once("/* Grounds for refusal").expect("the grounds");
    let (grounds, _) = rest.split_once("};").expect("the end of the enum");
    let names = grounds.lines().filter_map(|line| line.split_once(" = ").map(|(name, _)| name));
    let told: Vec<(String, usize)> =
        names.map(str::trim).map(|name| (name.to_string(), number(name))).collect();
    let refusal = |is: &Refusal| (in_c(&format!("{is:?}")), usize::from(is.number()));
    assert_eq!(told, Refusal::ALL.iter().map(refusal).collect::<Vec<_>>());
}

#[test]
fn answers_are_as_long_as_in_rust() {
    let told = ["SITE", "RUN", "DAY"].map(|call| number(&format!("FJ_{call}_ANSWER")));
    assert_eq!(told, [SITE_ANSWER, RUN_ANSWER, DAY_ANSWER]);
    let lowest = ["STEP", "EVENT", "DAY"].map(|answer| number(&format!("FJ_{answer}_LOWEST")));
    assert_eq!(lowest.map(|place| place + 1), told, "the lowest is the last of each");
}

/// A call that asks for so much room is refused with 15, or returns 0, where there is less.
fn needs(name: &str, short: usize, called: impl Fn(&mut [u8]) -> usize) {
    let least = number(name);
    assert_eq!(called(&mut vec![0; least - 1]), short, "{name} less one");
    assert_ne!(called(&mut vec![0; least]), short, "{name}");
}

#[test]
fn rooms_are_as_large_as_said() {
    let site = |room: &mut [u8]| calls::site_step(&mut [0; 8], 1, 0, 0, 1, room).into();
    needs("FJ_SITE_ANSWER", 15, site);
    let event = |room: &mut [u8]| calls::run_event(&mut [0; 138], 6, 1, 0, 0, 0, 0, room).into();
    needs("FJ_RUN_ANSWER", 15, event);
    needs("FJ_DAY_ANSWER", 15, |room| calls::run_journal(&mut [0; 138], &[], room).into());
    needs("FJ_FIELDS", 15, |room| calls::record_read(&[], 0, room).into());
    needs("FJ_RECORD", 15, |room| calls::record_write(6, 1, 0, 0, 0, 0, room, 0).into());
    needs("FJ_RUN", 15, |room| calls::run_fresh(2, room).into());
    needs("FJ_VERDICT", 15, |room| calls::sheet_judge(&[], &mut [], room).into());
    needs("FJ_SHEET_PARTS", 15, |room| calls::sheet_parts(&[], room).into());
    needs("FJ_SHEET_ROOM", 32, |room| calls::sheet_write(&longest_parts(), room).into());
    needs("FJ_REPORT_ROOM", 0, |room| calls::sheet_report(&[], &mut [], room));
    let words = number("FJ_WORDS");
    let judged = |words| calls::sheet_judge(&[], &mut vec![0; words], &mut [0; 206]);
    assert_eq!((judged(words - 1), judged(words)), (20, 21));
}

#[test]
fn a_rehearsal_needs_the_room_that_the_macro_gives() {
    let formula = "(38 + 26 * (((size) < 65536 ? (size) : 65536) / 9))";
    assert!(HEADER.contains(formula));
    for size in [0, 1, 9, 10, 65_535, 65_536, 65_537, 70_000] {
        let least = 38 + 26 * (size.min(65_536) / 9);
        let rehearsed = |room: usize| calls::rehearse(&vec![2; size], &mut vec![0; room]);
        assert_eq!(rehearsed(least - 1), 0, "{size}");
        assert_ne!(rehearsed(least), 0, "{size}");
    }
    assert!(HEADER.contains(&format!("{} bytes are enough", 38 + 26 * (65_536 / 9))));
}

#[test]
fn parts_stand_where_the_header_says() {
    let at = |name: &str| number(name);
    let (mut site, mut answer) = ([3, 1, 0, 1, 0, 0, 0, 0], [9; SITE_ANSWER]);
    let done = Site::from_bytes(site).and_then(|mut site| site.step(Step::Begin(Vote::Yes)));
    let done = done.expect("site 1 begins");
    assert_eq!(calls::site_step(&mut site, 1, 0, 0, 1, &mut answer), 0);
    let parts = ["OUTCOME", "KIND", "RECEIVERS", "WRITTEN", "AWAITED", "LOWEST"];
    let told = parts.map(|part| answer[at(&format!("FJ_STEP_{part}"))]);
    let [kind, lowest] = [done.message.map(|kind| kind.number()), done.lowest].map(Option::unwrap);
    let held =
        [done.outcome as u8, kind, done.receivers.mask(), done.written, done.awaited, lowest];
    assert_eq!((told, told), (held, [0, number("FJ_START") as u8, 0b110, 2, 2, 2]));
    let parts = ["N", "NUMBER", "STATE", "LEADER", "KNOWN", "YES", "NO", "ACKED"];
    let held = parts.map(|part| site[at(&format!("FJ_SITE_{part}"))]);
    assert_eq!(held, [3, 1, number("FJ_W") as u8, 1, 0, 0, 0, 0]);
}

#[test]
fn parts_of_an_event_s_answer_stand_where_the_header_says() {
    let (mut run, mut answer) = ([0; 138], [9; RUN_ANSWER]);
    assert_eq!(calls::run_fresh(3, &mut run), 0);
    let begin = Event::Act { site: 1, step: Step::Begin(Vote::Yes) };
    let ran = Run::from_bytes(run).and_then(|mut run| run.happens(begin)).expect("site 1 begins");
    assert_eq!(calls::run_event(&mut run, 1, 1, 0, 0, 1, 0, &mut answer), 0);
    let parts = ["OUTCOME", "WRITTEN", "AWAITED", "LOWEST"];
    let told = parts.map(|part| answer[number(&format!("FJ_EVENT_{part}"))]);
    let held = [ran.outcome as u8, ran.written, ran.awaited, ran.lowest.unwrap()];
    assert_eq!((told, told), (held, [0, 2, 2, 2]));
}

#[test]
fn parts_of_a_day_stand_where_the_header_says() {
    let (mut run, mut answer) = ([0; 138], [9; DAY_ANSWER]);
    assert_eq!(calls::run_fresh(4, &mut run), 0);
    let begin_and_conclude = [0, 7, 1, 1, 1, 0, 0, 1, 0, 0, 7, 1, 5, 1, 0, 0, 0, 0];
    let day = Run::from_bytes(run).expect("a fresh run").journal(&begin_and_conclude);
    let returned = calls::run_journal(&mut run, &begin_and_conclude, &mut answer);
    assert_eq!(usize::from(returned), number("FJ_NOT_ALLOWED"));
    let told = ["ACCEPTED", "WRITTEN", "PLACE"].map(|part| {
        let at = number(&format!("FJ_DAY_{part}"));
        usize::from_be_bytes(answer[at..at + 8].try_into().expect("eight bytes"))
    });
    assert_eq!((told, told), ([day.accepted, day.written, day.place], [1, 3, 9]));
    let told = ["AWAITED", "LOWEST"].map(|part| answer[number(&format!("FJ_DAY_{part}"))]);
    assert_eq!((told, told), ([day.awaited, day.lowest.unwrap()], [3, 2]));
}

/// The parts of a sheet with the longest record: four sites of eight states, and the same transition
/// 64 times.
fn longest_parts() -> Vec<u8> {
    let at = |part: &str| number(&format!("FJ_PARTS_{part}"));
    let way = |part: &str| number(&format!("FJ_TRANSITION_{part}"));
    let mut parts = vec![0; number("FJ_SHEET_PARTS")];
    parts[at("SITES")] = 4;
    parts[at("COUNTS")..at("MARKS")].fill(8);
    parts[at("MARKS") + 8 * 2 + 7] = number("FJ_MARK_COMMIT") as u8;
    parts[at("FIRST")..at("NUMBER")].copy_from_slice(&[1, 2, 3, 4]);
    parts[at("NUMBER")] = 64;
    for transition in parts[at("TRANSITIONS")..].chunks_mut(number("FJ_TRANSITION")) {
        transition[way("SITE")] = 3;
        transition[way("FROM")] = 6;
        transition[way("TO")] = 7;
        transition[way("VOTE")] = 1;
        transition[way("READS")..way("WRITES")].copy_from_slice(&[5, 6, 7, 8]);
        transition[way("WRITES")..].copy_from_slice(&[9, 10, 11, 12]);
    }
    parts
}

#[test]
fn parts_of_a_sheet_stand_where_the_header_says() {
    let mut room = vec![0; number("FJ_SHEET_ROOM")];
    assert_eq!(calls::sheet_write(&longest_parts(), &mut room), 0);
    let sheet = fjadrimor::Sheet::read(&room).expect("it was written");
    assert!(sheet.sites.iter().map(Vec::len).eq([8; 4]));
    let marks = sheet.sites.concat();
    assert_eq!(marks.iter().position(|&mark| mark == fjadrimor::Mark::Commit), Some(8 * 2 + 7));
    assert_eq!((sheet.first.mask(), sheet.transitions.len()), (0x0102_0304, 64));
    let t = sheet.transitions[63];
    assert_eq!((t.site, t.from, t.to, t.votes), (3, 6, 7, true));
    assert_eq!((t.reads.mask(), t.writes.mask()), (0x0506_0708, 0x090A_0B0C));
    let marks = ["WORKING", "ABORT", "COMMIT"].map(|mark| number(&format!("FJ_MARK_{mark}")));
    assert_eq!(marks, fjadrimor::Mark::ALL.map(|mark| mark as usize));
}

/// Runs in a thread that has no more stack than the header asks for.
fn with_little_stack(work: impl FnOnce() + Send + 'static) {
    assert!(HEADER.contains("less than 64 KB of stack"));
    let thread = std::thread::Builder::new().stack_size(64 << 10);
    thread.spawn(work).expect("a thread").join().expect("the calls end");
}

#[test]
fn the_stack_is_enough() {
    let journal = Journals::default().valid(&mut Random::new(61), 8, 7281);
    let day = longest(8);
    let (sheet, parts) = (product(&[8; 4], false).bytes(), longest_parts());
    let (mut words, mut text) = (vec![0; 4096], vec![0; 200_000]);
    let (mut run, mut site) = ([0; 138], [8, 1, 0, 1, 0, 0, 0, 0]);
    with_little_stack(move || {
        calls::site_step(&mut site, 1, 0, 0, 1, &mut [0; SITE_ANSWER]);
        calls::run_fresh(8, &mut run);
        for k in [1, 17] {
            calls::run_event(&mut run, k, 1, 0, 0, 1, 0, &mut [0; RUN_ANSWER]);
        }
        calls::run_fresh(8, &mut run);
        calls::run_journal(&mut run, &day, &mut [0; DAY_ANSWER]);
        calls::record_read(&journal, 1, &mut [0; 6]);
        calls::record_write(6, 1, 0, 0, 0, 0, &mut [0; 9], 0);
        calls::rehearse(&journal, &mut text);
        calls::sheet_judge(&sheet, &mut words, &mut [0; 206]);
        calls::sheet_report(&sheet, &mut words, &mut text);
        calls::sheet_parts(&sheet, &mut [0; 810]);
        calls::sheet_write(&parts, &mut text);
    });
}
