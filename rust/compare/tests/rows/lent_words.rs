//! "The judge is lent 64-bit words. Accepted: the reachable numbers ascending, then zeros, in the first
//! 4,096; later words unchanged." Every lent word, whatever the words held before and however many
//! there are.

use super::words::*;
use compare::inputs::drafts::{product, Draft};
use compare::inputs::Random;
use compare::sheet::{Judging, OUT, ROOM};

/// A sheet, its ground, and its reachable numbers where it is accepted.
type Row = (&'static str, Draft, u8, Vec<u64>);

/// Four sites that each go through eight states by messages of their own, with this name for each
/// state.
fn walked(name: fn(u8) -> u8) -> Draft {
    let step = |site: u8, from: u8| {
        go(site, name(from), name(from + 1), 0, &[u32::from(7 * (site - 1) + from)], &[])
    };
    let moves = (1..=4).flat_map(|site| (0..7).map(move |from| step(site, from))).collect();
    Draft::new(vec![vec![WORKING; 8]; 4], (1 << 28) - 1, moves)
}

/// Their numbers: of each site the messages that it has not read yet, and 2^36 times its state.
fn numbers(name: fn(u8) -> u8) -> Vec<u64> {
    let site = |site: u32, steps: u64| {
        let unread = (0x7F << steps & 0x7F) << (7 * site);
        unread | u64::from(name(steps as u8)) << (36 + 3 * site)
    };
    let mut numbers: Vec<u64> = (0..4096u64)
        .map(|all| (0..4).map(|place| site(place, all >> (3 * place) & 7)).sum())
        .collect();
    numbers.sort_unstable();
    numbers
}

/// States in the order in which they are reached, and in another.
const UP: fn(u8) -> u8 = |state| state;
const DOWN: fn(u8) -> u8 = |state| (8 - state) % 8;

fn rows() -> Vec<Row> {
    let pair = |first, moves| Draft::new(vec![vec![WORKING; 2]; 2], first, moves);
    let asked = vec![go(1, 0, 1, 0, &[0], &[1]), go(2, 0, 1, 1, &[1], &[])];
    let mut clash = walked(DOWN);
    clash.first |= 1 << 31;
    clash.moves[27].writes = 1 << 31;
    vec![
        ("the number 0", pair(0, vec![]), 0, vec![0]),
        ("the number 0, from which nothing is possible", pair(0, asked.clone()), 0, vec![0]),
        ("three states", pair(1, asked), 0, vec![1, 1 << 36 | 2, 1 << 39 | 1 << 36 | 1 << 33]),
        ("4,096 states", walked(UP), 0, numbers(UP)),
        ("4,096 states, numbered downwards", walked(DOWN), 0, numbers(DOWN)),
        ("4,097 states", product(&[8; 4], true), 30, vec![]),
        ("4,096 states, and a clash in the last transition", clash, 31, vec![]),
    ]
}

/// What words may hold: nothing, all bits, places as if something had been left there by a judge that
/// works in them, the largest sheet's numbers, the same backwards, and anything.
fn contents(random: &mut Random, length: usize) -> Vec<Vec<u64>> {
    let full = numbers(UP);
    let of = |one: &mut dyn FnMut(usize) -> u64| (0..length).map(one).collect::<Vec<u64>>();
    vec![
        of(&mut |_| 0),
        of(&mut |_| u64::MAX),
        of(&mut |place| (place as u64 + 1) << 48 | full[place % 4096]),
        of(&mut |place| full[place % 4096]),
        of(&mut |place| full[4095 - place % 4096]),
        of(&mut |_| random.number()),
    ]
}

/// What a call leaves of these words.
fn left(program: Judging, sheet: &[u8], words: &[u64]) -> (u8, Vec<u64>) {
    let (mut judged, mut reported) = (words.to_vec(), words.to_vec());
    let ground = (program.judge)(sheet, &mut judged, &mut [0; OUT]);
    (program.report)(sheet, &mut reported, &mut [0; ROOM]);
    assert_eq!(judged, reported, "judge and report leave the same");
    (ground, judged)
}

#[test]
fn every_word_whatever_it_held() {
    let mut random = Random::new(3);
    for (program, (name, sheet, ground, numbers)) in each(JUDGES, &rows()) {
        for length in [4096, 4097, 6000] {
            for held in contents(&mut random, length) {
                let mut expected = numbers.clone();
                expected.resize(4096, 0);
                expected.extend(&held[4096..]);
                let found = left(program, &sheet.bytes(), &held);
                assert!(found == (*ground, expected), "{name}, {length} words");
            }
        }
    }
}

/// "20: fewer than 4,096 words lent"; they stay as they are.
#[test]
fn too_few_words() {
    let mut random = Random::new(4);
    for (program, (name, sheet, _, _)) in each(JUDGES, &rows()) {
        for length in [0, 1, 9, 4095] {
            for held in contents(&mut random, length) {
                let found = left(program, &sheet.bytes(), &held);
                assert!(found == (20, held), "{name}, {length} words");
            }
        }
    }
}
