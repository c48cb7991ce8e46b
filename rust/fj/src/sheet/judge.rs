//! `fj judge`: the report with the names beside the numbers.

use super::library::{Decision, Finding, Judgement};
use super::model::{Local, Mark, Sheet};
use super::search::Search;
use super::{explain, warnings};

/// The width at which concurrency sets are broken.
const WIDTH: usize = 60;

/// The report of an accepted sheet.
pub fn text(sheet: &Sheet, judgement: &Judgement) -> String {
    let mut text = String::new();
    if !sheet.title.is_empty() {
        text += &format!("{}\n", sheet.title);
    }
    text += &format!("sheet {} sites {} states\n", sheet.sites.len(), judgement.states);
    for site in 1..=sheet.sites.len() {
        text += &table(sheet, judgement, site as u8);
    }
    text += &format!("\nverdict {}\n{}\n", verdict(sheet, judgement), tolerance(judgement));
    text += &blocked(sheet, judgement);
    let search = Search::of(sheet);
    let explained = explain::explanation(sheet, judgement, &search);
    text += &explained.map_or(String::new(), |explained| explained.text());
    text + &warnings::text(sheet, judgement, &search)
}

/// The lines of one site's states.
fn table(sheet: &Sheet, judgement: &Judgement, site: u8) -> String {
    let own: Vec<Local> = sheet.locals().into_iter().filter(|local| local.0 == site).collect();
    let names: Vec<String> = own.iter().map(|&local| sheet.called(local)).collect();
    let width = names.iter().map(|name| name.chars().count()).max().unwrap_or(0).max(5);
    let mut text = format!("\n{}\n", sheet.site_called(site.into()));
    text += &format!(
        "  {:width$}  mark     reached  committable  decision  found together with\n",
        "state"
    );
    for (&local, name) in own.iter().zip(&names) {
        let found = judgement.of(local);
        let yes_no = |holds| if holds { "yes" } else { "no" };
        let head = format!(
            "  {name:width$}  {:7}  {:7}  {:11}  {:8}  ",
            sheet.state(local).mark.name(),
            yes_no(found.reached),
            yes_no(found.committable),
            found.decision.word()
        );
        text += &(head + &set(sheet, found).join(&format!("\n{:1$}", "", width + 45)) + "\n");
    }
    text
}

/// A concurrency set in lines.
fn set(sheet: &Sheet, found: &Finding) -> Vec<String> {
    let mut lines: Vec<String> = Vec::new();
    for &local in &found.set {
        let name = sheet.called(local);
        match lines.last_mut() {
            Some(line) if line.len() + 2 + name.len() <= WIDTH => *line += &format!(", {name}"),
            Some(line) => {
                line.push(',');
                lines.push(name);
            }
            None => lines.push(name),
        }
    }
    if lines.is_empty() {
        vec!["-".to_string()]
    } else {
        lines
    }
}

/// The verdict in words.
pub fn verdict(sheet: &Sheet, judgement: &Judgement) -> String {
    match judgement.witness {
        None => "nonblocking".to_string(),
        Some((site, state, condition)) => {
            format!("blocking at {} condition {condition}", sheet.called((site, state)))
        }
    }
}

/// The tolerance in words, as the report's last line has it.
pub fn tolerance(judgement: &Judgement) -> String {
    match judgement.tolerance {
        None => "tolerance not stated".to_string(),
        Some(stops) => format!("tolerance {stops}"),
    }
}

/// Why each blocked state is blocked.
fn blocked(sheet: &Sheet, judgement: &Judgement) -> String {
    let mut text = String::new();
    for local in sheet.locals() {
        let found = judgement.of(local);
        if found.decision == Decision::Blocked {
            text += &format!("\n{} is blocked:\n{}", sheet.called(local), reasons(sheet, found));
        }
    }
    text
}

/// The conditions that a blocked state breaks, as its set shows them.
fn reasons(sheet: &Sheet, found: &Finding) -> String {
    let marked = |mark| {
        let of_mark = |local: &&Local| sheet.state(**local).mark == mark;
        let names: Vec<String> =
            found.set.iter().filter(of_mark).map(|&local| sheet.called(local)).collect();
        names.join(", ")
    };
    let (aborts, commits) = (marked(Mark::Abort), marked(Mark::Commit));
    let mut text = String::new();
    if !aborts.is_empty() {
        text += &format!("  condition 1: another site may have aborted ({aborts}) and another may have committed ({commits})\n");
    }
    if !found.committable {
        text += &format!("  condition 2: another site may have committed ({commits}), and not every site is known to have voted yes\n");
    }
    text
}
