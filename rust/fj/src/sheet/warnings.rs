//! What is odd about a sheet. A warning is no part of the verdict, which takes no notice of it.

use super::explain;
use super::library::Judgement;
use super::model::{Local, Mark, Sheet};
use super::search::{Global, Search};
use std::collections::BTreeSet;

/// A warning, and the lines that show how it comes about (none where nothing need be shown).
pub struct Warning {
    pub text: String,
    pub shown: String,
}

/// Every warning about a sheet that is judged.
pub fn warnings(sheet: &Sheet, judgement: &Judgement, search: &Search) -> Vec<Warning> {
    let plain = |text| Warning { text, shown: String::new() };
    let told = inconsistent(sheet, judgement).into_iter().chain(unreached(sheet, judgement));
    told.map(plain).chain(resting(sheet, search)).collect()
}

/// The warnings as text.
pub fn text(sheet: &Sheet, judgement: &Judgement, search: &Search) -> String {
    let warnings = warnings(sheet, judgement, search);
    let lines = warnings.iter().map(|warning| format!("  {}\n{}", warning.text, warning.shown));
    match warnings.is_empty() {
        true => String::new(),
        false => {
            "\nwarnings, which are no part of the verdict:\n".to_string()
                + &lines.collect::<String>()
        }
    }
}

fn marked(sheet: &Sheet, mark: Mark) -> impl Fn(&Local) -> bool + '_ {
    move |local| sheet.state(*local).mark == mark
}

fn called(sheet: &Sheet, locals: impl Iterator<Item = Local>) -> String {
    locals.map(|local| sheet.called(local)).collect::<Vec<_>>().join(", ")
}

/// Each commit state that is found together with an abort state: Skeen calls such a global state
/// inconsistent, and his conditions are about protocols that have none.
fn inconsistent(sheet: &Sheet, judgement: &Judgement) -> Vec<String> {
    let mixed = |local: Local| {
        let aborts = judgement.of(local).set.iter().copied().filter(marked(sheet, Mark::Abort));
        let aborts = called(sheet, aborts);
        let commit = sheet.called(local);
        (!aborts.is_empty())
            .then(|| format!("inconsistent: {commit} is found together with {aborts}"))
    };
    sheet.locals().into_iter().filter(marked(sheet, Mark::Commit)).filter_map(mixed).collect()
}

/// Each commit state that is never reached.
fn unreached(sheet: &Sheet, judgement: &Judgement) -> Vec<String> {
    let commits = sheet.locals().into_iter().filter(marked(sheet, Mark::Commit));
    let never = commits.filter(|&local| !judgement.of(local).reached);
    let text =
        |local| format!("unreached: nothing leads to the commit state {}", sheet.called(local));
    never.map(text).collect()
}

/// The working states in which a site can be left for good though nobody stops: no transition is
/// possible any more. With a shortest way to such a rest.
fn resting(sheet: &Sheet, search: &Search) -> Option<Warning> {
    let rests = |global: &Global| !sheet.transitions.iter().any(|t| global.allows(t));
    let undecided = |global: &Global| {
        let locals = global.locals(sheet).into_iter();
        locals.filter(marked(sheet, Mark::Working)).collect::<Vec<Local>>()
    };
    let path = search.shortest(|global| rests(global) && !undecided(global).is_empty())?;
    let left = search.states.iter().filter(|global| rests(global)).flat_map(undecided);
    let left: BTreeSet<Local> = left.collect();
    let left = called(sheet, left.into_iter());
    let text = format!("undecided: though nobody stops, a site can be left for good in {left}");
    Some(Warning { text, shown: explain::lines(sheet, &path) })
}
