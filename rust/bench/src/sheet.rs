//! Rows of the judge and of the report.

use crate::plain;
use crate::row::{Round, Row};
use crate::side::Side;
use compare::inputs::colliding::merging;
use compare::inputs::drafts::{product, Draft, Move};
use compare::inputs::sheets::{any_case, renamed};
use compare::inputs::{figures, Random};
use compare::sheet::{faulty, Judging, AMPLE, OUT};
use std::hint::black_box;

/// Judges sheets, each with the same words.
fn judge_all(program: Judging, sheets: &[Vec<u8>], words: &mut [u64]) {
    let judge = black_box(program.judge);
    let mut out = [0; OUT];
    for sheet in sheets {
        black_box(judge(sheet, words, &mut out));
        black_box((&words, &out));
    }
}

fn report_all(program: Judging, sheets: &[Vec<u8>], words: &mut [u64], room: &mut [u8]) {
    let report = black_box(program.report);
    for sheet in sheets {
        black_box(report(sheet, words, room));
        black_box((&words, &room));
    }
}

/// Sites with so many states each, which go through them in order and independently: the product
/// of the counts is the number of reachable states. Whatever it is, there are 56 transitions, some
/// of them more than once.
fn ordered(counts: [u8; 4]) -> Draft {
    let mut draft = product(&counts, false);
    draft.moves = draft.moves.iter().copied().cycle().take(56).collect();
    draft
}

/// The largest of them.
pub fn largest() -> Draft {
    ordered([8; 4])
}

/// The same with each site's states numbered downwards, but for the first.
pub fn against_the_order() -> Draft {
    let mut draft = largest();
    let down = |state: u8| if state == 0 { 0 } else { 8 - state };
    for a in &mut draft.moves {
        (a.from, a.to) = (down(a.from), down(a.to));
    }
    draft
}

/// The same sheet four times, with its states, messages and transitions in some other order.
fn reordered(draft: &Draft) -> Vec<Vec<u8>> {
    let mut random = Random::new(31);
    (0..4).map(|_| renamed(&mut random, draft).bytes()).collect()
}

fn figures() -> Vec<Vec<u8>> {
    figures::all().iter().map(Draft::bytes).collect()
}

fn any_sheets() -> Vec<Vec<u8>> {
    let mut random = Random::new(31);
    (0..200).map(|_| any_case(&mut random).bytes).collect()
}

/// As many successors as a search, at random and by construction, has found. Each site goes step by
/// step through its states, numbered downwards so that later numbers come first, in one way or in
/// two, of which the second leaves a message behind: 4,070 states. All other transitions are copies
/// of site 2's only one, which is possible in half of them.
pub fn hostile() -> Draft {
    let ways: [&[u8]; 4] = [&[2, 1, 2, 1, 2, 2], &[1], &[2, 1], &[2, 1, 1, 2]];
    let (mut moves, mut first, mut next) = (Vec::new(), 0, 0);
    let mut message = || {
        next += 1;
        1u32 << (next - 1)
    };
    for (site, ways) in (1..).zip(ways) {
        let steps = ways.len() as u8;
        let name = |level: u8| if level == 0 { 0 } else { steps + 1 - level };
        for (level, &ways) in (0..).zip(ways) {
            let (from, to, reads) = (name(level), name(level + 1), message());
            first |= reads;
            moves.push(Move { site, from, to, vote: 0, reads, writes: 0 });
            if ways == 2 {
                moves.push(Move { site, from, to, vote: 0, reads, writes: message() });
            }
        }
    }
    if let Some(&single) = moves.iter().find(|a| a.site == 2) {
        moves.resize(64, single);
    }
    let marks = ways.iter().map(|ways| vec![0; ways.len() + 1]).collect();
    Draft::new(marks, first, moves)
}

/// The slowest sheet that a search over thousands of `merging` has found.
pub fn slowest_of_all() -> Draft {
    merging(&mut Random::new(403))
}

/// Sheets that the reader refuses: each ground alone, and each after each other.
fn refused() -> Vec<Vec<u8>> {
    let cases = faulty(&mut Random::new(8)).into_iter().filter(|case| case.words == 4096);
    let (mut words, mut out) = (vec![0; 4096], [0; OUT]);
    let mut ground = |bytes: &[u8]| plain::sheet_judge(bytes, &mut words, &mut out);
    cases.map(|case| case.bytes).filter(|bytes| (21..30).contains(&ground(bytes))).collect()
}

/// A row of sheets that have so many units each, by the sides of a program.
fn judged_by(
    program: fn(Side) -> Judging,
    name: String,
    (unit, each): (&'static str, u32),
    rounds: u32,
    sheets: impl Fn() -> Vec<Vec<u8>> + 'static,
) -> Row {
    Row::new(name, unit, rounds, move |side: Side| {
        let (sheets, mut words, program) = (sheets(), vec![0; 4096], program(side));
        let units = each * sheets.len() as u32;
        Round { units, work: Box::new(move || judge_all(program, &sheets, &mut words)) }
    })
}

fn judged(
    name: &str,
    units: (&'static str, u32),
    rounds: u32,
    sheets: impl Fn() -> Vec<Vec<u8>> + 'static,
) -> Row {
    judged_by(Side::judging, name.into(), units, rounds, sheets)
}

/// Plain Rust with a hash table in memory of its own.
pub fn with_a_table(side: Side) -> Judging {
    match side {
        Side::Library => side.judging(),
        Side::Plain => Judging { judge: plain::sheet_judge_table, ..side.judging() },
    }
}

/// A row of one sheet by the number of its states.
fn by_states(counts: [u8; 4]) -> Row {
    let states: u32 = counts.iter().map(|&count| u32::from(count)).product();
    judged(
        &format!("judge-{states}"),
        ("state", states),
        100,
        move || vec![ordered(counts).bytes()],
    )
}

/// A large sheet in some orders: its name, how many states of it are collected, and its bytes.
type Large = (&'static str, u32, fn() -> Vec<Vec<u8>>);

/// The largest in order, against it and in some order, one with a state too many, and the two sheets
/// that are slowest for each state.
const LARGE: [Large; 7] = [
    ("judge-1024", 1024, || vec![ordered([8, 8, 4, 4]).bytes()]),
    ("judge-4096", 4096, || vec![largest().bytes()]),
    ("judge-4096-down", 4096, || vec![against_the_order().bytes()]),
    ("judge-4096-mixed", 4096, || reordered(&largest())),
    ("judge-4097-mixed", 4096, || reordered(&product(&[8; 4], true))),
    ("judge-hostile", 4070, || vec![hostile().bytes()]),
    ("judge-colliding", 3831, || vec![slowest_of_all().bytes()]),
];

fn reported(name: &str, sheets: impl Fn() -> Vec<Vec<u8>> + 'static) -> Row {
    Row::new(name, "sheet", 300, move |side: Side| {
        let (sheets, mut words, mut room) = (sheets(), vec![0; 4096], vec![0; AMPLE]);
        let units = sheets.len() as u32;
        let work = move || report_all(side.judging(), &sheets, &mut words, &mut room);
        Round { units, work: Box::new(work) }
    })
}

/// Small sheets, sheets of every sort, large ones, each beside plain Rust of the same method and then
/// beside plain Rust with a table, and such as the reader refuses.
pub fn rows() -> Vec<Row> {
    let mut rows = vec![
        judged("judge-figures", ("sheet", 1), 300, figures),
        judged("judge-any-sheet", ("sheet", 1), 30, any_sheets),
    ];
    rows.extend([[2; 4], [4, 4, 2, 2], [4; 4]].map(by_states));
    let of = |(name, states, sheets): Large| judged(name, ("state", states), 30, sheets);
    let table = |(name, states, sheets): Large| {
        judged_by(with_a_table, format!("{name}-table"), ("state", states), 30, sheets)
    };
    rows.extend(LARGE.map(of));
    rows.extend(LARGE.map(table));
    rows.push(judged("judge-refused", ("sheet", 1), 30, refused));
    rows.push(reported("report-figures", figures));
    rows
}
