//! The notation of sheets: writing it.

use super::model::{Sheet, Transition};

/// The width at which lists of messages are broken.
const WIDTH: usize = 96;
/// The widest column that others are aligned with.
const COLUMN: usize = 40;

/// The notation of a sheet. Read again, it gives the same bytes.
pub fn notation(sheet: &Sheet) -> String {
    let mut text = String::new();
    if !sheet.title.is_empty() {
        text += &format!("protocol {}\n\n", sheet.title);
    }
    for (place, site) in sheet.sites.iter().enumerate() {
        text += &format!("{}\n", sheet.site_called(place + 1));
        for state in &site.states {
            text += &format!("  state {} {}\n", state.name, state.mark.name());
        }
        text += "\n";
    }
    text += &messages(sheet);
    if sheet.first != 0 {
        text += &format!("first {}\n", sheet.names(sheet.first).join(" "));
    }
    text + &transitions(sheet)
}

/// The lines that introduce the messages.
fn messages(sheet: &Sheet) -> String {
    let mut lines: Vec<String> = Vec::new();
    for name in &sheet.messages {
        match lines.last_mut() {
            Some(line) if line.len() + 1 + name.len() <= WIDTH => *line += &format!(" {name}"),
            _ => lines.push(format!("messages {name}")),
        }
    }
    lines.iter().map(|line| format!("{line}\n")).collect()
}

/// The transitions in their order, with a gap wherever another site follows.
fn transitions(sheet: &Sheet) -> String {
    let (mut text, mut site) = (String::new(), 0);
    for (t, line) in sheet.transitions.iter().zip(aligned(sheet, sheet.transitions.iter())) {
        if t.site != site {
            text += "\n";
            site = t.site;
        }
        text += &format!("{line}\n");
    }
    text
}

/// A line for each transition, with what they read and write below each other.
pub fn aligned<'a>(
    sheet: &Sheet,
    transitions: impl Iterator<Item = &'a Transition>,
) -> Vec<String> {
    let rows: Vec<[String; 3]> = transitions.map(|t| columns(sheet, t)).collect();
    // A long list pushes its own line aside, and no other.
    let width = |column: usize| {
        let widths = rows.iter().map(|row| row[column].chars().count());
        widths.filter(|&width| width <= COLUMN).max().unwrap_or(0)
    };
    let (way, reads) = (width(0), width(1));
    let line = |[to, read, rest]: &[String; 3]| format!("{to:way$}  {read:reads$}  {rest}");
    rows.iter().map(|row| line(row).trim_end().to_string()).collect()
}

/// A transition in columns: its states, what it reads, and what it writes with its vote.
fn columns(sheet: &Sheet, t: &Transition) -> [String; 3] {
    let name = |state| &sheet.state((t.site, state)).name;
    let list = |word: &str, set: u32| match set {
        0 => String::new(),
        set => format!("{word} {}  ", sheet.names(set).join(" ")),
    };
    let vote = if t.votes { "votes yes" } else { "" };
    [
        format!("{}: {} -> {}", t.site, name(t.from), name(t.to)),
        list("reads", t.reads).trim_end().to_string(),
        list("writes", t.writes) + vote,
    ]
}
