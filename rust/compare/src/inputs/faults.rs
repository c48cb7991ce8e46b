//! Ways to make a good draft of a sheet show a ground for refusal.

use super::drafts::{product, Draft, Move};
use super::Random;

/// A change of a draft.
pub type Fault = fn(&mut Random, &mut Draft);

/// Changes with the ground that each shows in a good sheet with transitions: one or more for each
/// of the grounds 21 to 31.
pub const ALL: [(u8, Fault); 20] = [
    (21, length),
    (21, no_length),
    (22, version),
    (23, sites),
    (23, state_count),
    (24, too_short),
    (24, too_long),
    (24, transition_count),
    (24, too_many_transitions),
    (25, mark),
    (25, site),
    (25, state),
    (25, vote),
    (26, reads_nothing),
    (27, read_twice),
    (28, leaves_decision),
    (29, cycle),
    (29, self_loop),
    (30, too_many),
    (31, clash),
];

/// One of the transitions, if there is any.
fn some_move<'a>(random: &mut Random, draft: &'a mut Draft) -> Option<&'a mut Move> {
    let place = random.below(draft.moves.len().max(1) as u64) as usize;
    draft.moves.get_mut(place)
}

fn length(random: &mut Random, draft: &mut Draft) {
    draft.excess = *random.pick(&[-1, 1, -256, 256, 3]);
}

fn no_length(_: &mut Random, draft: &mut Draft) {
    draft.excess = -65_536;
}

fn version(random: &mut Random, draft: &mut Draft) {
    draft.version = *random.pick(&[0, 2, 255]);
}

fn sites(random: &mut Random, draft: &mut Draft) {
    draft.sites = Some(*random.pick(&[0, 1, 5, 255]));
}

fn state_count(random: &mut Random, draft: &mut Draft) {
    let place = random.below(draft.counts.len() as u64) as usize;
    draft.counts[place] = *random.pick(&[0, 9, 200]);
}

fn too_short(random: &mut Random, draft: &mut Draft) {
    draft.cut = *random.pick(&[1, 12, 13, 30]);
}

fn too_long(random: &mut Random, draft: &mut Draft) {
    draft.pad = *random.pick(&[1, 12, 60_000]);
}

fn transition_count(random: &mut Random, draft: &mut Draft) {
    let count = draft.moves.len() as u8;
    draft.transitions = Some(*random.pick(&[0, count.wrapping_add(1), 65, 255]));
}

/// 65 transitions in earnest.
fn too_many_transitions(_: &mut Random, draft: &mut Draft) {
    draft.moves = draft.moves.iter().copied().cycle().take(65).collect();
}

fn mark(random: &mut Random, draft: &mut Draft) {
    let place = random.below(draft.marks.len() as u64) as usize;
    if let Some(mark) = draft.marks[place].last_mut() {
        *mark = *random.pick(&[3, 255]);
    }
}

fn site(random: &mut Random, draft: &mut Draft) {
    let beyond = draft.counts.len() as u8 + 1;
    let number = *random.pick(&[0, beyond, 255]);
    if let Some(a) = some_move(random, draft) {
        a.site = number;
    }
}

fn state(random: &mut Random, draft: &mut Draft) {
    let counts = draft.counts.clone();
    let (first, far) = (random.once_in(2), random.once_in(4));
    if let Some(a) = some_move(random, draft) {
        let count = counts.get((a.site as usize).wrapping_sub(1)).copied().unwrap_or(8);
        let beyond = if far { 255 } else { count };
        *if first { &mut a.from } else { &mut a.to } = beyond;
    }
}

fn vote(random: &mut Random, draft: &mut Draft) {
    let value = *random.pick(&[2, 255]);
    if let Some(a) = some_move(random, draft) {
        a.vote = value;
    }
}

fn reads_nothing(random: &mut Random, draft: &mut Draft) {
    if let Some(a) = some_move(random, draft) {
        a.reads = 0;
    }
}

/// Transitions of two sites read one message.
fn read_twice(_: &mut Random, draft: &mut Draft) {
    let Some((one, others)) = draft.moves.split_first_mut() else {
        return;
    };
    if let Some(other) = others.iter_mut().find(|other| other.site != one.site) {
        other.reads |= one.reads;
    }
}

/// Marks the state that a transition leaves as decided otherwise than the one it leads to.
fn leaves_decision(random: &mut Random, draft: &mut Draft) {
    let Some(a) = some_move(random, draft).copied() else {
        return;
    };
    let Some(marks) = draft.marks.get_mut((a.site as usize).wrapping_sub(1)) else {
        return;
    };
    let other = if marks.get(a.to as usize) == Some(&1) { 2 } else { 1 };
    if let Some(mark) = marks.get_mut(a.from as usize) {
        *mark = other;
    }
}

/// A transition between working states, and the way back.
fn cycle(_: &mut Random, draft: &mut Draft) {
    let working = |a: &Move| {
        let marks = draft.marks.get((a.site as usize).wrapping_sub(1));
        marks.and_then(|marks| marks.get(a.to as usize)) == Some(&0)
    };
    let found = draft.moves.iter().copied().find(working);
    if let (Some(a), 0..=63) = (found, draft.moves.len()) {
        draft.moves.push(Move { from: a.to, to: a.from, ..a });
    }
}

fn self_loop(random: &mut Random, draft: &mut Draft) {
    if let Some(a) = some_move(random, draft) {
        a.to = a.from;
    }
}

/// Another sheet altogether, with one state too many.
fn too_many(_: &mut Random, draft: &mut Draft) {
    let more = product(&[8, 8, 8, 8], true);
    draft.counts = more.counts;
    draft.marks = more.marks;
    draft.moves = more.moves;
    draft.first = more.first;
}

/// Every transition writes a message that is outstanding from the first and that no one reads.
fn clash(_: &mut Random, draft: &mut Draft) {
    let read = draft.moves.iter().fold(0, |read, a| read | a.reads);
    let unread = 1u32.checked_shl((!read).trailing_zeros()).unwrap_or(0);
    draft.first |= unread;
    draft.moves.iter_mut().for_each(|a| a.writes |= unread);
}
