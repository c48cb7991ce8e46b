//! 02, Ask 3: "a writer from the sheet's parts to the record". The parts are what the reader hands
//! out, as 810 bytes with zeros where a sheet has nothing.

use crate::sheet::{read, Lists, Messages, Move, Sheet};

/// The bytes of the parts, and where the lists begin in them: a count for each of four sites, eight
/// marks for each, the first messages, the number of transitions, and 64 of these.
pub const PARTS: usize = 810;
const COUNTS: usize = 1;
const MARKS: usize = 5;
const FIRST: usize = 37;
const NUMBER: usize = 41;
const MOVES: usize = 42;

/// The bytes of a transition, and the states that a site can have.
const MOVE: usize = 12;
const STATES: usize = 8;

/// The parts of a sheet.
fn parts_of(sheet: &Sheet) -> [u8; PARTS] {
    let mut parts = [0; PARTS];
    parts[0] = sheet.sites;
    for (&(site, state), &mark) in &sheet.marks {
        let place = usize::from(site) - 1;
        parts[COUNTS + place] += 1;
        parts[MARKS + STATES * place + usize::from(state)] = mark as u8;
    }
    parts[FIRST..NUMBER].copy_from_slice(&bytes_of(&sheet.first));
    parts[NUMBER] = sheet.moves.len() as u8;
    for (bytes, a) in parts[MOVES..].chunks_mut(MOVE).zip(&sheet.moves) {
        bytes.copy_from_slice(&move_bytes(a));
    }
    parts
}

/// "Message m is the bit of weight 2^m, big-endian."
fn bytes_of(messages: &Messages) -> [u8; 4] {
    messages.iter().map(|&message| 1u32 << message).sum::<u32>().to_be_bytes()
}

fn move_bytes(a: &Move) -> Vec<u8> {
    let ends = [a.site, a.from, a.to, a.votes as u8];
    [ends, bytes_of(&a.reads), bytes_of(&a.writes)].concat()
}

/// What the parts list, or 23 or 24: for counts outside their ranges, and for something where a sheet
/// has nothing, "the count of an absent site with 23, a transition beyond their number with 24".
fn lists(parts: &[u8]) -> Result<Lists<'_>, u8> {
    if parts.len() != PARTS || !(2..=4).contains(&parts[0]) {
        return Err(23);
    }
    let (counts, absent) = parts[COUNTS..MARKS].split_at(parts[0].into());
    if !counts.iter().all(|count| (1..=8).contains(count)) || !nothing(absent) {
        return Err(23);
    }
    let number = MOVE * usize::from(parts[NUMBER]);
    let (moves, beyond) = parts[MOVES..].split_at_checked(number).ok_or(24)?;
    if !nothing(beyond) {
        return Err(24);
    }
    let of_site = |(marks, &count): (&[u8], &u8)| marks[..count.into()].to_vec();
    let marks = parts[MARKS..FIRST].chunks(STATES).zip(counts).flat_map(of_site).collect();
    let (first, moves) = (&parts[FIRST..NUMBER], moves.chunks(MOVE).collect());
    Ok(Lists { counts, marks, first, moves })
}

fn nothing(bytes: &[u8]) -> bool {
    bytes.iter().all(|&byte| byte == 0)
}

/// Whether a state that is not there has a mark; an absent site has no states.
fn marks_nobody(parts: &[u8]) -> bool {
    let mut sites = parts[MARKS..FIRST].chunks(STATES).zip(&parts[COUNTS..MARKS]);
    sites.any(|(marks, &count)| !nothing(&marks[count.into()..]))
}

/// The record of these parts: "for all other parts the writer refuses exactly what the reader would
/// refuse", and "the mark of a state that is not there with 25".
pub fn record(parts: &[u8]) -> Result<Vec<u8>, u8> {
    let lists = lists(parts)?;
    if marks_nobody(parts) {
        return Err(25);
    }
    lists.sheet()?;
    let mut body = vec![1, parts[0]];
    body.extend(lists.counts);
    body.extend(&lists.marks);
    body.extend(lists.first);
    body.push(parts[NUMBER]);
    body.extend(lists.moves.concat());
    Ok([&(body.len() as u16).to_be_bytes()[..], &body].concat())
}

/// `fj_sheet_parts`: 15 for too few bytes, then the reader's grounds, with the parts as they were.
pub fn sheet_parts(bytes: &[u8], parts: &mut [u8]) -> u8 {
    let Some(parts) = parts.get_mut(..PARTS) else {
        return 15;
    };
    match read(bytes) {
        Ok(sheet) => {
            parts.copy_from_slice(&parts_of(&sheet));
            0
        }
        Err(ground) => ground,
    }
}

/// `fj_sheet_write`: "32, not enough room for the whole record, tested after 29; the room is unchanged
/// on any refusal, else past the record".
pub fn sheet_write(parts: &[u8], room: &mut [u8]) -> u8 {
    let record = match record(parts) {
        Ok(record) => record,
        Err(ground) => return ground,
    };
    let Some(room) = room.get_mut(..record.len()) else {
        return 32;
    };
    room.copy_from_slice(&record);
    0
}
