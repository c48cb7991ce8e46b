//! Parts of sheets of every sort: those of drafts, good and faulty, and such as have something where
//! a sheet has nothing.

use super::drafts::Draft;
use super::sheets::any_draft;
use super::Random;

/// The bytes of the parts, and where their lists begin: a count for each of four sites, eight marks
/// for each, the first messages, the number of transitions, and 64 of these of 12 bytes.
pub const PARTS: usize = 810;
const COUNTS: usize = 1;
const MARKS: usize = 5;
const FIRST: usize = 37;
const NUMBER: usize = 41;
const MOVES: usize = 42;
const MOVE: usize = 12;

/// The parts of a draft, as far as there is a place for them.
pub fn parts_of(draft: &Draft) -> Vec<u8> {
    let mut parts = vec![0; PARTS];
    parts[0] = draft.sites.unwrap_or(draft.counts.len() as u8);
    put(&mut parts[COUNTS..MARKS], &draft.counts);
    for (room, marks) in parts[MARKS..FIRST].chunks_mut(8).zip(&draft.marks) {
        put(room, marks);
    }
    put(&mut parts[FIRST..NUMBER], &draft.first.to_be_bytes());
    parts[NUMBER] = draft.transitions.unwrap_or(draft.moves.len() as u8);
    for (room, a) in parts[MOVES..].chunks_mut(MOVE).zip(&draft.moves) {
        put(room, &a.bytes());
    }
    parts
}

fn put(room: &mut [u8], bytes: &[u8]) {
    room.iter_mut().zip(bytes).for_each(|(place, &byte)| *place = byte);
}

/// The places of parts where a sheet has nothing, with the ground for something there: the counts of
/// absent sites, the transitions beyond their number, the marks of states that are not there.
pub fn empty_places(parts: &[u8]) -> Vec<(u8, usize)> {
    let count = |site: usize| parts.get(COUNTS + site).copied().unwrap_or(0);
    let absent = (COUNTS + usize::from(parts[0]).min(4)..MARKS).map(|place| (23, place));
    let beyond = (MOVES + MOVE * usize::from(parts[NUMBER])..PARTS).map(|place| (24, place));
    let not_there = |mark: &usize| mark % 8 >= usize::from(count(mark / 8));
    let marks = (0..32).filter(not_there).map(|mark| (25, MARKS + mark));
    absent.chain(beyond).chain(marks).collect()
}

/// Puts something where the sheet has nothing, for each of the grounds as often.
pub fn stray(random: &mut Random, parts: &mut [u8]) {
    let ground = random.within(23, 25);
    let mut places = empty_places(parts);
    places.retain(|place| place.0 == ground);
    if let Some(&(_, place)) = places.get(random.below(places.len().max(1) as u64) as usize) {
        parts[place] = *random.pick(&[1, 2, 3, 128, 255]);
    }
}

/// Parts of every sort: of a good or a faulty draft, with something where the sheet has nothing, with
/// another byte, of another length, small random bytes, or nothing at all.
pub fn any_parts(random: &mut Random) -> Vec<u8> {
    let mut parts = parts_of(&any_draft(random));
    for _ in 0..random.below(5).saturating_sub(2) {
        stray(random, &mut parts);
    }
    let place = random.below(PARTS as u64) as usize;
    match random.below(32) {
        0 => parts.truncate(place),
        1 => parts.extend(vec![0; 1 + place % 20]),
        2 => parts[place] = random.byte(),
        3 => parts[place % MOVES] = random.within(0, 9),
        4 => parts = (0..PARTS).map(|_| random.within(0, 4)).collect(),
        5 => parts.fill(0),
        _ => {}
    }
    parts
}
