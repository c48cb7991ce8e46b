//! The notation of sheets: reading it. docs/SHEETS.md describes it.

use super::model::{Mark, Sheet, Site, State, Transition};
use crate::place::Error;

/// What a line's part gives, or the reason why it gives nothing.
type Said<T> = Result<T, String>;

/// Words that divide a transition, so that no message can have them as a name.
const CLAUSES: [&str; 3] = ["reads", "writes", "votes"];

/// Reads a sheet. Names must be introduced before they are used.
pub fn read(text: &str) -> Result<Sheet, Error> {
    let mut sheet = Sheet::default();
    let mut last = 0;
    for (line, content) in (1..).zip(text.lines()) {
        let content = content.split('#').next().unwrap_or_default();
        let words: Vec<&str> = content.split_whitespace().collect();
        take(&mut sheet, &words, line).map_err(|reason| Error { line, reason })?;
        last = line;
    }
    match sheet.sites.is_empty() {
        true => Err(Error { line: last, reason: "there is no site in this sheet".to_string() }),
        false => Ok(sheet),
    }
}

/// Takes in one line.
fn take(sheet: &mut Sheet, words: &[&str], line: usize) -> Said<()> {
    match words {
        [] => Ok(()),
        ["protocol", title @ ..] => protocol(sheet, title),
        ["site", number, name @ ..] => site(sheet, number, name, line),
        ["state", name, mark] => state(sheet, name, mark, line),
        ["state", ..] => Err("a state has a name and a mark: state NAME MARK".to_string()),
        ["messages", names @ ..] => names.iter().try_for_each(|name| message(sheet, name)),
        ["first", names @ ..] => first(sheet, names),
        [site, rest @ ..] if site.ends_with(':') => transition(sheet, site, rest, line),
        [word, ..] => Err(format!(
            "a line starts with protocol, site, state, messages, first or a site's number and a colon, not with {word}"
        )),
    }
}

fn protocol(sheet: &mut Sheet, title: &[&str]) -> Said<()> {
    if !sheet.title.is_empty() {
        return Err("a sheet has one protocol line".to_string());
    }
    sheet.title = title.join(" ");
    Ok(())
}

fn site(sheet: &mut Sheet, number: &str, name: &[&str], line: usize) -> Said<()> {
    let next = sheet.sites.len() + 1;
    if number != next.to_string() {
        return Err(format!("sites come in order: the next one is site {next}, not {number}"));
    }
    sheet.sites.push(Site { name: name.join(" "), states: Vec::new(), line });
    Ok(())
}

fn state(sheet: &mut Sheet, name: &str, mark: &str, line: usize) -> Said<()> {
    let number = sheet.sites.len();
    let site = sheet.sites.last_mut().ok_or("a state belongs below its site")?;
    let name = named(name)?;
    if site.states.iter().any(|state| state.name == name) {
        return Err(format!("site {number} has a state {name} already"));
    }
    let known = Mark::ALL.into_iter().find(|known| known.name() == mark);
    let mark = known.ok_or(format!("a state is working, abort or commit, not {mark}"))?;
    site.states.push(State { name, mark, line });
    Ok(())
}

fn message(sheet: &mut Sheet, name: &str) -> Said<()> {
    let name = named(name)?;
    if CLAUSES.contains(&&*name) {
        return Err(format!("{name} divides a transition and cannot name a message"));
    }
    if sheet.messages.contains(&name) {
        return Err(format!("there is a message {name} already"));
    }
    if sheet.messages.len() == 32 {
        return Err(format!("a sheet has at most 32 messages, and {name} is one more"));
    }
    sheet.messages.push(name);
    Ok(())
}

fn first(sheet: &mut Sheet, names: &[&str]) -> Said<()> {
    if sheet.first != 0 {
        return Err("a sheet has one line of first messages".to_string());
    }
    sheet.first = messages(sheet, names)?;
    Ok(())
}

/// `1: q -> w reads .. writes .. votes yes`
fn transition(sheet: &mut Sheet, site: &str, words: &[&str], line: usize) -> Said<()> {
    let [from, "->", to, clauses @ ..] = words else {
        return Err("a transition is written SITE: FROM -> TO reads .. writes ..".to_string());
    };
    let site = site_number(sheet, site.trim_end_matches(':'))?;
    let (from, to) = (state_number(sheet, site, from)?, state_number(sheet, site, to)?);
    let (mut reads, mut writes, mut votes) = (None, None, None);
    let mut rest = clauses;
    while let [clause, more @ ..] = rest {
        let length = more.iter().take_while(|word| !CLAUSES.contains(word)).count();
        let (list, left) = more.split_at(length);
        let double = match *clause {
            "reads" => reads.replace(messages(sheet, list)?).is_some(),
            "writes" => writes.replace(messages(sheet, list)?).is_some(),
            "votes" => votes.replace(vote(list)?).is_some(),
            word => {
                return Err(format!(
                    "after its states a transition reads, writes or votes, but here stands {word}"
                ))
            }
        };
        if double {
            return Err(format!("a transition has one list after {clause}"));
        }
        rest = left;
    }
    sheet.transitions.push(Transition {
        site: in_a_byte(site),
        from,
        to,
        votes: votes.is_some(),
        reads: reads.unwrap_or(0),
        writes: writes.unwrap_or(0),
        line,
    });
    Ok(())
}

fn vote(list: &[&str]) -> Said<()> {
    match list {
        ["yes"] => Ok(()),
        _ => Err("a vote is written: votes yes".to_string()),
    }
}

/// The set of messages that a list names.
fn messages(sheet: &Sheet, list: &[&str]) -> Said<u32> {
    if list.is_empty() {
        return Err("here a list of messages is missing".to_string());
    }
    let mut set = 0;
    for name in list {
        let known = sheet.messages.iter().position(|known| known == name);
        let place = known.ok_or(format!("no line of messages has introduced {name}"))?;
        if set >> place & 1 == 1 {
            return Err(format!("{name} stands twice in one list"));
        }
        set |= 1 << place;
    }
    Ok(set)
}

fn site_number(sheet: &Sheet, number: &str) -> Said<usize> {
    let known = (1..=sheet.sites.len()).find(|site| site.to_string() == number);
    known.ok_or(format!("there is no site {number}"))
}

fn state_number(sheet: &Sheet, site: usize, name: &str) -> Said<u8> {
    let states = &sheet.sites[site - 1].states;
    let known = states.iter().position(|state| state.name == name);
    known.map(in_a_byte).ok_or(format!("site {site} has no state {name}"))
}

/// A site's or state's number. Where no byte holds it, the sheet has more of them than it can have:
/// the library refuses it by their count, before a transition is looked at.
fn in_a_byte(number: usize) -> u8 {
    u8::try_from(number).unwrap_or(u8::MAX)
}

/// A name: letters, digits and - _ . ' * +, with a letter or digit first.
fn named(name: &str) -> Said<String> {
    let fits = |c: char| c.is_alphanumeric() || "-_.'*+".contains(c);
    match name.starts_with(char::is_alphanumeric) && name.chars().all(fits) {
        true => Ok(name.to_string()),
        false => Err(format!("{name} is no name: a name has letters, digits and - _ . ' * +")),
    }
}
