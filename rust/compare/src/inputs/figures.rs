//! Commit protocols of Skeen's paper as sheets.

use super::drafts::{Draft, Move};

const WORKING: u8 = 0;
const ABORT: u8 = 1;
const COMMIT: u8 = 2;

/// Hands out messages, each by the words it is known by.
#[derive(Default)]
struct Messages(Vec<(&'static str, u8, u8)>);

impl Messages {
    /// The message of this name from a site to a site.
    fn of(&mut self, name: &'static str, from: u8, to: u8) -> u32 {
        let known = self.0.iter().position(|&message| message == (name, from, to));
        let place = known.unwrap_or_else(|| {
            self.0.push((name, from, to));
            self.0.len() - 1
        });
        1 << place
    }

    /// This message from one site to each of several.
    fn sent(&mut self, name: &'static str, from: u8, to: &[u8]) -> u32 {
        to.iter().map(|&site| self.of(name, from, site)).sum()
    }

    /// This message from each of several sites to one.
    fn heard(&mut self, name: &'static str, from: &[u8], to: u8) -> u32 {
        from.iter().map(|&site| self.of(name, site, to)).sum()
    }
}

/// The states of one site: 0 q, 1 w, 2 a, 3 c, and 4 p where it has three phases.
fn marks(three: bool) -> Vec<u8> {
    let mut marks = vec![WORKING, WORKING, ABORT, COMMIT];
    marks.extend(three.then_some(WORKING));
    marks
}

/// Every way to split sites into those that said yes and those that said no.
fn splits(sites: &[u8]) -> Vec<(Vec<u8>, Vec<u8>)> {
    let split = |set: u32| {
        let (mut yes, mut no) = (Vec::new(), Vec::new());
        for (place, &site) in sites.iter().enumerate() {
            if set >> place & 1 == 1 { &mut no } else { &mut yes }.push(site);
        }
        (yes, no)
    };
    (0..1 << sites.len()).map(split).collect()
}

/// Central commit: site 1 waits for all votes, may abort after all said yes, and votes as it
/// commits or, where some other site has three phases, as it prepares those.
pub fn central(others_three: &[bool]) -> Draft {
    let mut m = Messages::default();
    let others: Vec<u8> = (2..).take(others_three.len()).collect();
    let three = |site: u8| others_three[site as usize - 2];
    let prepared: Vec<u8> = others.iter().copied().filter(|&site| three(site)).collect();
    let request = m.of("request", 0, 1);
    let go = |site, from, to, vote, reads, writes| Move { site, from, to, vote, reads, writes };
    let mut moves = vec![go(1, 0, 1, 0, request, m.sent("start", 1, &others))];
    for (yes, no) in splits(&others) {
        let votes = m.heard("yes", &yes, 1) | m.heard("no", &no, 1);
        moves.push(go(1, 1, 2, 0, votes, m.sent("abort", 1, &yes)));
    }
    let yes = m.heard("yes", &others, 1);
    let commit = m.sent("commit", 1, &others);
    if prepared.is_empty() {
        moves.push(go(1, 1, 3, 1, yes, commit));
    } else {
        moves.push(go(1, 1, 4, 1, yes, m.sent("prepare", 1, &prepared)));
        moves.push(go(1, 4, 3, 0, m.heard("ack", &prepared, 1), commit));
    }
    for &site in &others {
        let start = m.of("start", 1, site);
        moves.push(go(site, 0, 1, 1, start, m.of("yes", site, 1)));
        moves.push(go(site, 0, 2, 0, start, m.of("no", site, 1)));
        moves.push(go(site, 1, 2, 0, m.of("abort", 1, site), 0));
        let ready = if three(site) { 4 } else { 1 };
        if three(site) {
            moves.push(go(site, 1, 4, 0, m.of("prepare", 1, site), m.of("ack", site, 1)));
        }
        moves.push(go(site, ready, 3, 0, m.of("commit", 1, site), 0));
    }
    let mut all = vec![marks(!prepared.is_empty())];
    all.extend(others_three.iter().map(|&three| marks(three)));
    Draft::new(all, request, moves)
}

/// Decentralised commit: each site tells each other its vote, and in three phases that it is
/// prepared.
pub fn decentral(sites: u8, three: bool) -> Draft {
    let mut m = Messages::default();
    let everyone: Vec<u8> = (1..=sites).collect();
    let requests = m.sent("request", 0, &everyone);
    let mut moves = Vec::new();
    for &site in &everyone {
        let others: Vec<u8> = everyone.iter().copied().filter(|&other| other != site).collect();
        let mut go = |from, to, vote, reads, writes| {
            moves.push(Move { site, from, to, vote, reads, writes });
        };
        let request = m.of("request", 0, site);
        go(0, 1, 1, request, m.sent("yes", site, &others));
        go(0, 2, 0, request, m.sent("no", site, &others));
        for (yes, no) in splits(&others) {
            let votes = m.heard("yes", &yes, site) | m.heard("no", &no, site);
            match (no.is_empty(), three) {
                (false, _) => go(1, 2, 0, votes, 0),
                (true, false) => go(1, 3, 0, votes, 0),
                (true, true) => go(1, 4, 0, votes, m.sent("prepared", site, &others)),
            }
        }
        if three {
            go(4, 3, 0, m.heard("prepared", &others, site), 0);
        }
    }
    Draft::new(vec![marks(three); sites as usize], requests, moves)
}

/// Every figure whose messages are at most 32, and mixtures of two and three phases.
pub fn all() -> Vec<Draft> {
    let mixed: [&[bool]; 4] =
        [&[true, false], &[false, true], &[true, false, true], &[false, true, false]];
    let pure = (1..=3).flat_map(|others| [false, true].map(|three| central(&vec![three; others])));
    let decentral = [(2, false), (3, false), (4, false), (2, true), (3, true)]
        .map(|(n, three)| decentral(n, three));
    pure.chain(mixed.map(central)).chain(decentral).collect()
}
