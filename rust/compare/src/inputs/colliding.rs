//! Sheets whose states collide in the buckets by which the library finds a state again. The rules know
//! nothing of buckets, and the outcome must not either.

use super::drafts::{product, Draft, Move};
use super::sheets::{shuffled, Case};
use super::Random;
use std::cmp::Reverse;

/// How many buckets the library has.
pub const BUCKETS: usize = 2048;

/// The bucket of a state, as in crates/judge/src/words.rt.
#[inline]
pub fn bucket(number: u64) -> usize {
    let messages = (number & 0xFFFF_FFFF) * 1_640_531_527;
    let messages = u64::from(messages as u32 ^ (messages >> 32) as u32);
    let mixed = u64::from((messages + (number >> 32) * 40503) as u32);
    (mixed * 2_246_822_519) as u32 as usize / ((1 << 32) / BUCKETS)
}

/// The number of a state in which site 2 has gone a way, with these messages and site 1 in `state`.
fn number(state: u64, to: u8, vote: u8, outstanding: u32) -> u64 {
    u64::from(outstanding) | u64::from(vote) << 33 | state << 36 | u64::from(to) << 39
}

/// The message that the ways of `crowded` read.
const ASKED: u32 = 1 << 31;

/// A sheet that is accepted: from its first state site 2 has 44 ways to states of one bucket, and once
/// more the first ten of them, which lead to the end of that bucket. Sites 1 and 3 go through their six
/// states beside it: 1,620 global states.
pub fn crowded(random: &mut Random) -> Draft {
    let mut draft = product(&[6, 1, 6], false);
    let (mut ways, mut chosen) = (Vec::new(), None);
    while ways.len() < 44 {
        let (to, vote) = (random.within(1, 7), random.within(0, 1));
        let writes = random.number() as u32 & 0x7FFF_0000;
        let bucket = bucket(number(0, to, vote, draft.first | writes));
        let known = |a: &Move| (a.to, a.vote, a.writes) == (to, vote, writes);
        if *chosen.get_or_insert(bucket) == bucket && !ways.iter().any(known) {
            ways.push(Move { site: 2, from: 0, to, vote, reads: ASKED, writes });
        }
    }
    ways.extend_from_within(..10);
    draft.moves.extend(ways);
    draft.first |= ASKED;
    (draft.counts[1], draft.marks[1]) = (8, vec![0; 8]);
    draft
}

/// How many ways lead from each state of site 1 to the next in `merging`.
const WAYS: [u32; 6] = [2, 4, 4, 4, 4, 6];
/// The transitions of a sheet.
const MOVES: usize = 64;
/// Among how many of the fullest buckets it is chosen, and how many it leads to at most.
const FULLEST: usize = 96;
const MOST_BUCKETS: usize = 16;

/// The messages of `merging`: the one that site 1 reads and writes again, the one by which it asks
/// site 2, those that its ways leave behind, and the rest.
struct Messages {
    again: u32,
    asked: u32,
    left: Vec<Vec<u32>>,
    rest: Vec<u32>,
}

/// A way of site 2, and the places among the fullest buckets of the two states it leads to.
struct Way {
    to: u8,
    vote: u8,
    writes: u32,
    places: [usize; 2],
}

/// The messages of a list that a number names by its bits.
fn named(list: &[u32], bits: u32) -> u32 {
    list.iter().enumerate().filter(|(place, _)| bits >> place & 1 == 1).map(|(_, one)| one).sum()
}

impl Messages {
    fn new(random: &mut Random) -> Messages {
        let mut all = shuffled(random, 32).into_iter().map(|message| 1 << message);
        let mut take = |count: u32| all.by_ref().take(count as usize).collect::<Vec<u32>>();
        let (again, asked) = (take(1)[0], take(1)[0]);
        let left = WAYS.map(|ways| take(u32::BITS - (ways - 1).leading_zeros())).to_vec();
        Messages { again, asked, left, rest: all.collect() }
    }

    /// The message that every other of the last ways of site 1 leaves behind.
    fn turn(&self) -> u32 {
        self.left[WAYS.len() - 1][0]
    }

    /// Site 1's ways, and two by which it is at its end at once.
    fn site_1(&self) -> Vec<Move> {
        let end = WAYS.len() as u8;
        let way = |from, to, left| {
            let asked = if to == end { self.asked } else { 0 };
            let writes = self.again | asked | left;
            Move { site: 1, from, to, vote: 0, reads: self.again, writes }
        };
        let step = |(from, (list, ways)): (u8, (&Vec<u32>, u32))| {
            (0..ways).map(|bits| way(from, from + 1, named(list, bits))).collect::<Vec<Move>>()
        };
        let mut moves: Vec<Move> = (0..).zip(self.left.iter().zip(WAYS)).flat_map(step).collect();
        moves.extend([0, self.turn()].map(|left| way(0, end, left)));
        moves
    }

    /// What the ways of site 1 have left behind at its end, in every mixture.
    fn mixtures(&self) -> Vec<u32> {
        self.left.iter().zip(WAYS).fold(vec![0], |mixed, (list, ways)| {
            let more = |one: u32| (0..ways).map(move |bits| one | named(list, bits));
            mixed.into_iter().flat_map(more).collect()
        })
    }

    /// The fullest buckets where site 1 is at its end, and how many states they have.
    fn fullest(&self) -> Vec<(usize, usize)> {
        let mut full: Vec<(usize, usize)> = (0..BUCKETS).map(|bucket| (bucket, 0)).collect();
        for mixture in self.mixtures() {
            let outstanding = mixture | self.again | self.asked;
            full[bucket(number(WAYS.len() as u64, 0, 0, outstanding))].1 += 1;
        }
        full.sort_by_key(|&(_, states)| Reverse(states));
        full.truncate(FULLEST);
        full
    }

    /// Every way of site 2 that writes all that may be left behind but the message of turns, and so
    /// leads to two states, if both are in these buckets.
    fn site_2(&self, full: &[(usize, usize)]) -> Vec<Way> {
        let mut place = vec![None; BUCKETS];
        full.iter().enumerate().for_each(|(at, &(bucket, _))| place[bucket] = Some(at));
        let all = self.left.concat().iter().sum::<u32>() & !self.turn();
        let (end, rest) = (WAYS.len() as u64, 1 << self.rest.len());
        let ends = (1..8).flat_map(|to| [0, 1].map(|vote| (to, vote)));
        let every = ends.flat_map(|end| (0..rest).map(move |bits| (end, bits)));
        let way = |((to, vote), bits)| {
            let writes = all | named(&self.rest, bits);
            let found = |turn| place[bucket(number(end, to, vote, self.again | writes | turn))];
            Some(Way { to, vote, writes, places: [found(0)?, found(self.turn())?] })
        };
        every.filter_map(way).collect()
    }
}

/// How many ways lead to the buckets at each two places.
type Meetings = Vec<[usize; FULLEST]>;

fn meetings(ways: &[Way]) -> Meetings {
    let mut met = vec![[0; FULLEST]; FULLEST];
    for &Way { places: [one, other], .. } in ways {
        met[one][other] += 1;
        met[other][one] += usize::from(one != other);
    }
    met
}

/// A set of places that grows from one, each time by the bucket that brings most ways: the best on the
/// way, and what it is worth, the states and the wanted ways for each bucket.
fn grown(
    start: usize,
    full: &[(usize, usize)],
    met: &Meetings,
    wanted: usize,
) -> (usize, Vec<usize>) {
    let (mut set, mut held, mut best) = (vec![start], met[start][start], (0, Vec::new()));
    while set.len() <= MOST_BUCKETS {
        let states: usize = set.iter().map(|&place| full[place].1).sum();
        let worth = 1000 * (states + held.min(wanted)) / set.len();
        if worth > best.0 {
            best = (worth, set.clone());
        }
        let brings =
            |&at: &usize| met[at][at] + set.iter().map(|&place| met[at][place]).sum::<usize>();
        let others = (0..full.len()).filter(|at| !set.contains(at));
        let next = others.max_by_key(brings).expect("there are more buckets than that");
        held += brings(&next);
        set.push(next);
    }
    best
}

/// The places of few full buckets that hold so many of these ways.
fn few(full: &[(usize, usize)], ways: &[Way], wanted: usize) -> Vec<usize> {
    let met = meetings(ways);
    let sets = (0..full.len()).rev().map(|start| grown(start, full, &met, wanted));
    sets.max_by_key(|&(worth, _)| worth).map_or(Vec::new(), |(_, set)| set)
}

/// A sheet that is refused with 31 when all its states are collected. Site 1 comes to its end with
/// 3,072 mixtures of messages left behind. There each way of site 2 writes them all but one, and so
/// leads to two states only, in turns. Its ways are those that lead to few buckets, the fuller the
/// better: two ways by which site 1 is at its end at once find these states first, so that all others
/// of their buckets stand before them.
pub fn merging(random: &mut Random) -> Draft {
    let messages = Messages::new(random);
    let (mut moves, full) = (messages.site_1(), messages.fullest());
    let (ways, wanted) = (messages.site_2(&full), MOVES - moves.len());
    let set = few(&full, &ways, wanted);
    let held = ways.iter().filter(|way| way.places.iter().all(|place| set.contains(place)));
    moves.extend(held.cycle().take(wanted).map(|&Way { to, vote, writes, .. }| Move {
        site: 2,
        from: 0,
        to,
        vote,
        reads: messages.asked,
        writes,
    }));
    Draft::new(vec![vec![0; WAYS.len() + 1], vec![0; 8]], messages.again, moves)
}

/// Some of each.
pub fn cases(random: &mut Random) -> Vec<Case> {
    let mut drafts: Vec<Draft> = (0..6).map(|_| crowded(random)).collect();
    drafts.extend((0..2).map(|_| merging(random)));
    drafts.iter().map(|draft| Case { bytes: draft.bytes(), words: 4096 }).collect()
}
