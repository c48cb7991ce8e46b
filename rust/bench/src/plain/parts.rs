//! A sheet's parts, read from its record and written to one. The first messages, the number of
//! transitions and the transitions stand at the end of both, with the same bytes.

use super::sheet::{Move, Sheet};

const PARTS: usize = 810;
const MARKS: usize = 5;
const TAIL: usize = 37;
const MOVES: usize = 42;

/// The grounds 23 to 29 of parts; else how many states and how many bytes of transitions they have.
fn looked(parts: &[u8; PARTS]) -> Result<(usize, usize), u8> {
    let &[sites, a, b, c, d, ..] = parts;
    let counts = [a, b, c, d];
    let right = |(site, count): (u8, u8)| match site < sites {
        true => (1..=8).contains(&count),
        false => count == 0,
    };
    if !(2..=4).contains(&sites) || !(0..).zip(counts).all(right) {
        return Err(23);
    }
    let (moves, beyond) = parts[MOVES..].split_at_checked(12 * parts[41] as usize).ok_or(24)?;
    if beyond.iter().any(|&byte| byte != 0) {
        return Err(24);
    }
    let mut marks = [0; 32];
    marks.copy_from_slice(&parts[MARKS..TAIL]);
    let wrong = |(marks, &count): (&[u8], &u8)| {
        let (there, absent) = marks.split_at(count as usize);
        there.iter().any(|&mark| mark > 2) || absent.iter().any(|&mark| mark != 0)
    };
    if marks.chunks_exact(8).zip(&counts).any(wrong) {
        return Err(25);
    }
    let length = moves.len();
    let moves = Move::all(moves, sites, &counts)?;
    let sheet = Sheet { sites, counts, marks, first: 0, moves };
    sheet.fault().map_or(Ok((counts.iter().sum::<u8>() as usize, length)), Err)
}

/// `fj_sheet_parts`.
pub fn sheet_parts(record: &[u8], parts: &mut [u8]) -> u8 {
    let Some(parts) = parts.first_chunk_mut::<PARTS>() else {
        return 15;
    };
    let sheet = match Sheet::from_bytes(record) {
        Ok(sheet) => sheet,
        Err(ground) => return ground,
    };
    let tail = &record[record.len() - 12 * sheet.moves.len() - 5..];
    parts[0] = sheet.sites;
    parts[1..MARKS].copy_from_slice(&sheet.counts);
    parts[MARKS..TAIL].copy_from_slice(&sheet.marks);
    parts[TAIL..][..tail.len()].copy_from_slice(tail);
    parts[TAIL + tail.len()..].fill(0);
    0
}

/// `fj_sheet_write`.
pub fn sheet_write(parts: &[u8], room: &mut [u8]) -> u8 {
    let Ok(parts) = <&[u8; PARTS]>::try_from(parts) else {
        return 23;
    };
    let (states, moves) = match looked(parts) {
        Ok(found) => found,
        Err(ground) => return ground,
    };
    let sites = parts[0] as usize;
    let length = 2 + sites + states + 5 + moves;
    let Some(room) = room.get_mut(..2 + length) else {
        return 32;
    };
    room[..2].copy_from_slice(&(length as u16).to_be_bytes());
    room[2..4].copy_from_slice(&[1, parts[0]]);
    room[4..4 + sites].copy_from_slice(&parts[1..1 + sites]);
    let mut at = 4 + sites;
    for (marks, &count) in parts[MARKS..TAIL].chunks_exact(8).zip(&parts[1..MARKS]) {
        room[at..at + count as usize].copy_from_slice(&marks[..count as usize]);
        at += count as usize;
    }
    room[at..].copy_from_slice(&parts[TAIL..MOVES + moves]);
    0
}
