//! Sheets of every sort, made of drafts: good ones, and such as show a ground for refusal.

use super::drafts::{product, Draft, Move};
use super::{faults, figures, Random};

/// A list of 0..count in a random order.
pub fn shuffled(random: &mut Random, count: u8) -> Vec<u8> {
    let mut list: Vec<u8> = (0..count).collect();
    for place in (1..list.len()).rev() {
        list.swap(place, random.below(place as u64 + 1) as usize);
    }
    list
}

/// The same sheet with other names for its states (but the first) and messages, and its
/// transitions in another order.
pub fn renamed(random: &mut Random, draft: &Draft) -> Draft {
    let messages = shuffled(random, 32);
    let set = |old: u32| (0..32).filter(|m| old >> m & 1 == 1).map(|m| 1 << messages[m]).sum();
    let other = |count: u8, random: &mut Random| {
        let names = shuffled(random, count - 1);
        [vec![0], names.into_iter().map(|name| name + 1).collect()].concat()
    };
    let names: Vec<Vec<u8>> = draft.counts.iter().map(|&count| other(count, random)).collect();
    let mut new = draft.clone();
    for (site, names) in names.iter().enumerate() {
        for (state, &name) in names.iter().enumerate() {
            new.marks[site][name as usize] = draft.marks[site][state];
        }
    }
    let order = shuffled(random, draft.moves.len() as u8);
    let moved = |&place: &u8| {
        let a = draft.moves[place as usize];
        let name = |state: u8| names[a.site as usize - 1][state as usize];
        Move { from: name(a.from), to: name(a.to), reads: set(a.reads), writes: set(a.writes), ..a }
    };
    new.moves = order.iter().map(moved).collect();
    new.first = set(draft.first);
    new
}

/// The same sheet in which some sites always vote as they move, and some never.
fn voting_otherwise(random: &mut Random, draft: &Draft) -> Draft {
    let mut new = draft.clone();
    for site in 1..=4 {
        let vote = random.within(0, 1);
        if random.once_in(3) {
            new.moves.iter_mut().filter(|a| a.site == site).for_each(|a| a.vote = vote);
        }
    }
    new
}

/// A sheet without cycles whose messages each have one reading site and one writing state, so
/// that nothing clashes; `wild` gives up the latter.
pub fn random_sheet(random: &mut Random, wild: bool) -> Draft {
    let sites = random.within(2, 4);
    let marks: Vec<Vec<u8>> = (0..sites).map(|_| random_marks(random)).collect();
    let first = random.number() as u32;
    let reader: Vec<u8> = (0..32).map(|_| random.within(1, sites)).collect();
    let writer: Vec<(u8, u8)> =
        (0..32).map(|_| (random.within(1, sites), random.within(0, 3))).collect();
    let mut moves = Vec::new();
    for _ in 0..random.below(if wild { 24 } else { 64 }) {
        let site = random.within(1, sites);
        let marks = &marks[site as usize - 1];
        let (from, to) = random_way(random, marks);
        let readable: Vec<u32> = (0..32).filter(|&m| reader[m as usize] == site).collect();
        let count = 1 + random.once_in(4) as u32;
        let mut read = || if readable.is_empty() { 0 } else { 1u32 << random.pick(&readable) };
        let reads = (0..count).fold(0, |reads, _| reads | read());
        let own = |m: &u32| first >> m & 1 == 0 && writer[*m as usize] == (site, from);
        let mut written = |m: &u32| random.once_in(if wild { 16 } else { 2 }) && (wild || own(m));
        let writes: u32 = (0..32).filter(|m| written(m)).map(|m| 1u32 << m).sum();
        let again = if random.once_in(8) { reads } else { 0 };
        let keeps = marks[from as usize] == 0 || marks[from as usize] == marks[to as usize];
        if from < to && keeps && reads != 0 {
            moves.push(Move {
                site,
                from,
                to,
                vote: random.within(0, 1),
                reads,
                writes: writes | again,
            });
        }
    }
    Draft::new(marks, first, moves)
}

/// Two of a site's states, the lower first.
fn random_way(random: &mut Random, marks: &[u8]) -> (u8, u8) {
    let mut state = || random.below(marks.len() as u64) as u8;
    let (one, other) = (state(), state());
    (one.min(other), one.max(other))
}

/// Marks of one site: working ones first, then some of all sorts.
fn random_marks(random: &mut Random) -> Vec<u8> {
    let count = random.within(1, 8);
    let working = random.within(0, count);
    (0..count).map(|state| if state < working { 0 } else { random.within(0, 2) }).collect()
}

/// A product with up to 4,096 states, or just above.
fn large(random: &mut Random) -> Draft {
    let counts = match random.below(4) {
        0 | 1 => vec![8, 8, 8, 8],
        _ => (0..4).map(|_| random.within(5, 8)).collect(),
    };
    let mut draft = product(&counts, random.once_in(2));
    for marks in &mut draft.marks {
        *marks.last_mut().expect("a site has a state") = random.within(0, 2);
    }
    draft
}

/// The length of a sheet that the largest L gives; a program's input is cut one byte before.
const LONGEST: usize = 65_537;

/// A call of the judge: a sheet's bytes and how many words are lent.
pub struct Case {
    pub bytes: Vec<u8>,
    pub words: usize,
}

/// A good draft: a figure or a random sheet, now and then a large one.
fn good(random: &mut Random) -> Draft {
    let draft = match random.below(64) {
        0 => large(random),
        1..=31 => random.pick(&figures::all()).clone(),
        32..=51 => random_sheet(random, false),
        _ => random_sheet(random, true),
    };
    let draft = renamed(random, &draft);
    if random.once_in(3) {
        voting_otherwise(random, &draft)
    } else {
        draft
    }
}

/// A good draft, or one with one or two faults.
pub fn any_draft(random: &mut Random) -> Draft {
    let mut draft = good(random);
    for _ in 0..random.below(5).saturating_sub(2) {
        (random.pick(&faults::ALL).1)(random, &mut draft);
    }
    draft
}

/// A sheet of every sort: good, with one or two faults, cut, padded, changed, or random bytes.
pub fn any_case(random: &mut Random) -> Case {
    let mut draft = any_draft(random);
    let mut bytes = draft.bytes();
    let place = random.below(bytes.len() as u64) as usize;
    match random.below(24) {
        0 => bytes.truncate(place),
        1 => bytes.push(random.byte()),
        2 => bytes[place] = random.byte(),
        3 => bytes[place] ^= 1 << random.below(8),
        4 => bytes = random_bytes(random),
        5 if draft.pad == 0 && random.once_in(8) => {
            draft.pad = LONGEST - bytes.len();
            bytes = draft.bytes();
        }
        _ => {}
    }
    let words = if random.once_in(32) { random.below(4096) } else { 4096 + random.below(3) };
    Case { bytes, words: words as usize }
}

/// Small random bytes behind a right length, or behind none.
fn random_bytes(random: &mut Random) -> Vec<u8> {
    let length = random.within(0, 90);
    let mut bytes = vec![0, length.saturating_sub(random.once_in(4) as u8)];
    bytes.extend((0..length).map(|_| random.within(0, 4)));
    if random.once_in(8) {
        bytes.truncate(1);
    }
    bytes
}
