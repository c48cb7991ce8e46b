//! Rows of the reader and the writer of sheets.

use crate::plain;
use crate::row::{Round, Row};
use crate::side::Side;
use compare::inputs::drafts::{product, Draft};
use compare::inputs::parts::{parts_of, stray, PARTS};
use compare::inputs::{faults, figures, Random};
use compare::parts::{Fill, Writing, LONGEST};
use compare::sheet::faulty;
use std::hint::black_box;

fn fill_all(fill: Fill, given: &[Vec<u8>], room: &mut [u8]) {
    let fill = black_box(fill);
    for bytes in given {
        black_box(fill(bytes, room));
        black_box(&room);
    }
}

/// Four sites of eight states with so many transitions, some of them more than once.
fn sized(transitions: usize) -> Draft {
    let mut draft = product(&[8; 4], false);
    draft.moves = draft.moves.iter().copied().cycle().take(transitions).collect();
    draft
}

/// Records that the reader refuses: each ground alone, and each after each other.
fn refused_records() -> Vec<Vec<u8>> {
    let cases = faulty(&mut Random::new(8)).into_iter().filter(|case| case.words == 4096);
    let mut parts = [0; PARTS];
    cases
        .map(|case| case.bytes)
        .filter(|bytes| plain::sheet_parts(bytes, &mut parts) != 0)
        .collect()
}

/// Parts that the writer refuses: figures with each fault, alone and with something where a sheet has
/// nothing.
fn refused_parts() -> Vec<Vec<u8>> {
    let mut random = Random::new(31);
    let mut refused = Vec::new();
    for (figure, (_, fault)) in figures::all().iter().cycle().zip(faults::ALL) {
        let mut draft = figure.clone();
        fault(&mut random, &mut draft);
        let mut parts = parts_of(&draft);
        refused.push(parts.clone());
        stray(&mut random, &mut parts);
        refused.push(parts);
    }
    let mut room = [0; LONGEST];
    refused.retain(|parts| plain::sheet_write(parts, &mut room) != 0);
    refused
}

fn row(
    name: String,
    room: usize,
    call: fn(Writing) -> Fill,
    given: impl Fn() -> Vec<Vec<u8>> + 'static,
) -> Row {
    Row::new(name, "sheet", 300, move |side: Side| {
        let (given, mut room, fill) = (given(), vec![0; room], call(side.writing()));
        let units = given.len() as u32;
        Round { units, work: Box::new(move || fill_all(fill, &given, &mut room)) }
    })
}

fn read(name: &str, records: impl Fn() -> Vec<Vec<u8>> + 'static) -> Row {
    row(format!("sheet-parts-{name}"), PARTS, |program| program.parts, records)
}

fn written(name: &str, parts: impl Fn() -> Vec<Vec<u8>> + 'static) -> Row {
    row(format!("sheet-write-{name}"), LONGEST, |program| program.write, parts)
}

/// The paper's protocols, sheets without and with all transitions, and what is refused: read to parts,
/// and written from them.
pub fn rows() -> Vec<Row> {
    vec![
        read("figures", || figures::all().iter().map(Draft::bytes).collect()),
        read("0", || vec![sized(0).bytes()]),
        read("64", || vec![sized(64).bytes()]),
        read("refused", refused_records),
        written("figures", || figures::all().iter().map(parts_of).collect()),
        written("0", || vec![parts_of(&sized(0))]),
        written("64", || vec![parts_of(&sized(64))]),
        written("refused", refused_parts),
    ]
}
