//! Wrong readers and writers of sheets, which must be caught.

use crate::parts::{compare, Fill, Writing};
use second::parts::{sheet_parts, sheet_write};

const SECOND: Writing = Writing { parts: sheet_parts, write: sheet_write };

/// A writer that takes no notice of something where a sheet has nothing in these bytes.
fn without(parts: &[u8], places: std::ops::Range<usize>, room: &mut [u8]) -> u8 {
    let mut less = parts.to_vec();
    less.iter_mut().skip(places.start).take(places.len()).for_each(|byte| *byte = 0);
    let ground = sheet_write(parts, room);
    if (23..=25).contains(&ground) {
        sheet_write(&less, room)
    } else {
        ground
    }
}

/// The writers that a hasty reading makes: one that overlooks the counts of absent sites, the marks
/// of absent states or the transitions beyond their number, one that tests the room first, one that
/// wants a byte more of room, and one that fills what is left of the room.
const WRITERS: [Fill; 6] = [
    |parts, room| without(parts, 3..5, room),
    |parts, room| without(parts, 12..13, room),
    |parts, room| without(parts, 798..810, room),
    |parts, room| if room.len() < 13 { 32 } else { sheet_write(parts, room) },
    |parts, room| {
        let (length, mut copy) = (room.len(), room.to_vec());
        let ground = sheet_write(parts, &mut copy[..length.saturating_sub(1)]);
        room.copy_from_slice(&copy);
        ground
    },
    |parts, room| {
        let ground = sheet_write(parts, room);
        if ground == 0 {
            *room.last_mut().expect("a record is there") = 0;
        }
        ground
    },
];

/// One that leaves the first byte where it refuses, and one whose parts keep what was there before.
const READERS: [Fill; 2] = [
    |sheet, parts| {
        let ground = sheet_parts(sheet, parts);
        if let (21.., Some(first)) = (ground, parts.first_mut()) {
            *first = 0;
        }
        ground
    },
    |sheet, parts| {
        let before = parts.get(798).copied();
        let ground = sheet_parts(sheet, parts);
        if let (0, Some(before), 0) = (ground, before, parts.get(798).copied().unwrap_or(1)) {
            parts[798] = before;
        }
        ground
    },
];

#[test]
fn wrong_writers_and_readers_are_caught() {
    for (number, write) in WRITERS.into_iter().enumerate() {
        assert!(compare(Writing { write, ..SECOND }, SECOND, 0).differ > 0, "writer {number}");
    }
    for (number, parts) in READERS.into_iter().enumerate() {
        assert!(compare(Writing { parts, ..SECOND }, SECOND, 0).differ > 0, "reader {number}");
    }
    assert_eq!(compare(SECOND, SECOND, 0).differ, 0);
}
