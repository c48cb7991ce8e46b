//! Sheets of which it is known beforehand which sites obey.

use super::drafts::{Draft, Move};
use super::sheets::{renamed, Case};
use super::Random;

/// The states of every site: it votes, may be told that all have voted, and commits; or it aborts.
const FIRST: u8 = 0;
const VOTED: u8 = 1;
const TOLD: u8 = 2;
const COMMITTED: u8 = 3;
const ABORTED: u8 = 4;
const MARKS: [u8; 5] = [0, 0, 0, 2, 1];

/// The turns in which the sites move, one after the other: a site, and the states it goes from and
/// to. Those that are told come last as votes are given and first as sites commit.
fn turns(told: &[bool]) -> Vec<(u8, u8, u8)> {
    let (told, others): (Vec<u8>, Vec<u8>) =
        (1..=told.len() as u8).partition(|&site| told[site as usize - 1]);
    let all = |sites: &[u8], from, to| sites.iter().map(|&site| (site, from, to)).collect();
    let turns: [Vec<_>; 5] = [
        all(&others, FIRST, VOTED),
        all(&told, FIRST, VOTED),
        all(&told, VOTED, TOLD),
        all(&told, TOLD, COMMITTED),
        all(&others, VOTED, COMMITTED),
    ];
    turns.concat()
}

/// A sheet in which just these sites obey. They are told that all have voted before anybody commits;
/// each other site votes before the last vote is given, and stays so while others commit. Where none
/// is to obey, no move is a vote. With `refusing`, each site may abort in the place of its vote, and
/// then nobody moves any more.
pub fn obeyed_by(sites: &[bool], refusing: bool) -> Draft {
    let votes = sites.contains(&true);
    let mut moves = Vec::new();
    for (place, (site, from, to)) in turns(sites).into_iter().enumerate() {
        let (vote, reads) = ((votes && from == FIRST) as u8, 1 << place);
        moves.push(Move { site, from, to, vote, reads, writes: reads << 1 });
        if refusing && from == FIRST {
            moves.push(Move { site, from, to: ABORTED, vote: 0, reads, writes: 0 });
        }
    }
    Draft::new(vec![MARKS.to_vec(); sites.len()], 1, moves)
}

/// Every set of sites that can obey, of two to four.
pub fn sets() -> Vec<Vec<bool>> {
    let sets = |sites: u32| (0..1 << sites).map(move |set: u8| (sites, set));
    let marked = |(sites, set)| (0..sites).map(|site| set >> site & 1 == 1).collect();
    (2..=4).flat_map(sets).map(marked).collect()
}

/// A sheet for each of these sets in which all vote, and one in which all may refuse, with other
/// names for states and messages.
pub fn cases(random: &mut Random) -> Vec<Case> {
    let case = |draft| Case { bytes: renamed(random, &draft).bytes(), words: 4096 };
    let both = |set: Vec<bool>| [false, true].map(|refusing| obeyed_by(&set, refusing));
    sets().into_iter().flat_map(both).map(case).collect()
}
