//! A refusal in words: the documents' number, its sentence and, where it can be pointed at, the place.

use super::model::{Mark, Sheet, Site, Transition};
use super::search::{Global, Search};
use crate::grounds::sentence;
use crate::place::Error;

/// The most sites of a sheet, states of a site and transitions of a sheet.
const SITES: usize = 4;
const STATES: usize = 8;
const TRANSITIONS: usize = 64;

/// Where a ground shows: the line of the notation, 0 where there is none, and what stands there.
struct Spot {
    line: usize,
    words: String,
}

/// `refused 26: a transition reads nothing (1: q -> w)`
pub fn text(ground: u8, sheet: Option<&Sheet>) -> String {
    worded(ground, &sheet.map_or(Vec::new(), |sheet| spots(ground, sheet)))
}

/// The refusal of the sheet in a file, and a line more for each other place where it shows.
pub fn told(ground: u8, sheet: &Sheet, file: &str) -> String {
    let spots = spots(ground, sheet);
    let line = spots.first().map_or(0, |spot| spot.line);
    let mut told = Error { line, reason: worded(ground, &spots) }.within(file);
    for Spot { line, words } in spots.into_iter().skip(1).filter(|spot| spot.line > 0) {
        told += &format!("\n{}", Error { line, reason: words }.within(file));
    }
    told
}

fn worded(ground: u8, spots: &[Spot]) -> String {
    let words: Vec<&str> = spots.iter().map(|spot| &*spot.words).collect();
    let place = match words.is_empty() {
        true => String::new(),
        false => format!(" ({})", words.join(" and ")),
    };
    format!("refused {ground}: {}{place}", sentence(ground))
}

/// Where in the sheet a ground shows.
fn spots(ground: u8, sheet: &Sheet) -> Vec<Spot> {
    let first = |holds: &dyn Fn(&Transition) -> bool| {
        let found = sheet.transitions.iter().position(holds);
        found.map(|number| described(sheet, number)).into_iter().collect()
    };
    let mark = |t: &Transition, state| sheet.state((t.site, state)).mark;
    match ground {
        23 => counts(sheet).into_iter().collect(),
        24 => vec![many(sheet)],
        26 => first(&|t| t.reads == 0),
        27 => read_twice(sheet),
        28 => first(&|t| mark(t, t.from) != Mark::Working && mark(t, t.from) != mark(t, t.to)),
        29 => {
            (1..).zip(&sheet.sites).find_map(|(site, _)| cycle(sheet, site)).into_iter().collect()
        }
        31 => clash(sheet).into_iter().collect(),
        _ => Vec::new(),
    }
}

/// A transition, with its number where the sheet came as bytes.
fn described(sheet: &Sheet, number: usize) -> Spot {
    let t = sheet.transitions[number];
    let name = |state| &sheet.state((t.site, state)).name;
    let place = match t.line {
        0 => format!("transition {}, ", number + 1),
        _ => String::new(),
    };
    let words = format!("{place}{}: {} -> {}", t.site, name(t.from), name(t.to));
    Spot { line: t.line, words }
}

/// A message at a transition.
fn of_message(name: &str, spot: Spot) -> Spot {
    Spot { words: format!("{name} at {}", spot.words), ..spot }
}

/// One site alone; or the first site that is too many; or the first with no state or too many.
fn counts(sheet: &Sheet) -> Option<Spot> {
    if let [_] = sheet.sites[..] {
        return Some(Spot { line: 0, words: "1 site".to_string() });
    }
    if let Some(site) = sheet.sites.get(SITES) {
        return Some(Spot { line: site.line, words: format!("{} sites", sheet.sites.len()) });
    }
    (1..).zip(&sheet.sites).find_map(|(number, site)| states(number, site))
}

/// A site without states, or the first state of a site that is too many.
fn states(number: usize, site: &Site) -> Option<Spot> {
    if site.states.is_empty() {
        return Some(Spot { line: site.line, words: format!("site {number} has no state") });
    }
    let line = site.states.get(STATES)?.line;
    Some(Spot { line, words: format!("site {number} has {} states", site.states.len()) })
}

/// How many transitions there are, and the first that is too many.
fn many(sheet: &Sheet) -> Spot {
    let line = sheet.transitions.get(TRANSITIONS).map_or(0, |t| t.line);
    Spot { line, words: format!("{} transitions", sheet.transitions.len()) }
}

/// The first message that two sites read, and where.
fn read_twice(sheet: &Sheet) -> Vec<Spot> {
    let reads = |m: usize, t: &Transition| t.reads >> m & 1 == 1;
    let found = sheet.messages.iter().enumerate().find_map(|(m, name)| {
        let one = sheet.transitions.iter().position(|t| reads(m, t))?;
        let site = sheet.transitions[one].site;
        let other = sheet.transitions.iter().position(|t| reads(m, t) && t.site != site)?;
        Some([one, other].map(|number| of_message(name, described(sheet, number))))
    });
    found.into_iter().flatten().collect()
}

/// A cycle of a site as the states on it, where there is one, with the transition that closes it.
fn cycle(sheet: &Sheet, site: u8) -> Option<Spot> {
    let states = sheet.sites[usize::from(site) - 1].states.len() as u8;
    let goes = |from: u8, to: u8| {
        sheet.transitions.iter().any(|t| (t.site, t.from, t.to) == (site, from, to))
    };
    // A state from which no cycle can be reached is taken away until none is left to take.
    let mut left: Vec<u8> = (0..states).collect();
    while let Some(place) = left.iter().position(|&s| !left.iter().any(|&to| goes(s, to))) {
        left.remove(place);
    }
    let mut walk = vec![*left.first()?];
    loop {
        let here = walk[walk.len() - 1];
        let next = *left.iter().find(|&&to| goes(here, to))?;
        if let Some(start) = walk.iter().position(|&state| state == next) {
            let closes = |t: &&Transition| (t.site, t.from, t.to) == (site, here, next);
            let line = sheet.transitions.iter().find(closes)?.line;
            let ring = walk[start..].iter().chain([&next]);
            let names: Vec<&str> = ring.map(|&s| &*sheet.state((site, s)).name).collect();
            return Some(Spot { line, words: format!("site {site}: {}", names.join(" -> ")) });
        }
        walk.push(next);
    }
}

/// A transition that writes what is still outstanding after its reading, in a global state that can
/// be reached.
fn clash(sheet: &Sheet) -> Option<Spot> {
    let twice = |global: &Global, t: &Transition| global.outstanding & !t.reads & t.writes;
    Search::of(sheet).states.iter().find_map(|global| {
        let clashes = |t: &Transition| global.allows(t) && twice(global, t) != 0;
        let number = sheet.transitions.iter().position(clashes)?;
        let names = sheet.names(twice(global, &sheet.transitions[number])).join(" ");
        Some(of_message(&names, described(sheet, number)))
    })
}
