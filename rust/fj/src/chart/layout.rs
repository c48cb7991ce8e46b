//! Where everything stands on a chart of 1,000 pixels across.

use super::geometry::Rect;
use super::story::{Fate, Message, Row, Story};
use super::svg::{width, wrapped};
use crate::grounds::sentence;
use crate::rehearsal::Verdict;
use crate::waits::numbers;
use std::collections::BTreeMap;

pub const WIDTH: f64 = 1000.0;
pub const MARGIN: f64 = 24.0;
/// Where the events' places end, and where their words begin.
pub const NUMBERS: f64 = 50.0;
pub const WORDS: f64 = 62.0;
/// The radius of a badge, and the height of a line of words.
pub const BADGE: f64 = 10.0;
pub const LINE: f64 = 16.0;
/// How far a message passes by what a site between its ends did: half a row.
pub const CLEAR: f64 = ROW / 2.0;
/// How far one message ends below another that ends at the same site.
pub const BELOW: f64 = 18.0;
const FIRST_LANE: f64 = 400.0;
const LAST_LANE: f64 = 940.0;
const WIDEST: f64 = 220.0;
const ROW: f64 = 32.0;
/// The width of an event's words.
const GUTTER: f64 = 315.0;
/// How far behind an event's words it stands whom its site awaits, and the class of that text.
const BEHIND: f64 = 12.0;
pub const FAINT: &str = "faint";

pub struct Layout {
    pub title: Vec<String>,
    /// The height of the sites' first states, of each event, and of their last states.
    pub top: f64,
    pub rows: Vec<f64>,
    pub bottom: f64,
    /// The words beside each event, in lines.
    pub gutter: Vec<Vec<String>>,
    /// Behind the first of these lines, whom the acting site awaits, and where that begins.
    pub awaits: Vec<Option<(f64, String)>>,
    /// The lines of each site.
    pub lanes: Vec<f64>,
    /// For each message how many end below it, at the same row, site and side.
    pub lifted: Vec<usize>,
    /// What the grounds that were given mean, in lines.
    pub notes: Vec<String>,
    after_rows: f64,
}

impl Layout {
    /// The layout of a story with more room before some rows, and before the end.
    pub fn new(story: &Story, title: &str, room: &[f64]) -> Layout {
        let title = wrapped("title", title, WIDTH - 2.0 * MARGIN);
        let top = 104.0 + 25.0 * title.len() as f64;
        let gutter: Vec<Vec<String>> = story.rows.iter().map(words).collect();
        let awaits =
            story.rows.iter().zip(&gutter).map(|(row, lines)| awaits(row, lines)).collect();
        let stacks = stacks(story);
        let lifted = lifted(story, &stacks);
        let mut most = vec![0; story.rows.len() + 1];
        for ((row, ..), stack) in &stacks {
            most[*row] = most[*row].max(stack.len() - 1);
        }
        let mut y = top + 14.0;
        let rows = (gutter.iter().zip(room).zip(&most))
            .map(|((lines, room), &most)| {
                y += room + BELOW * most as f64;
                let row = y + ROW / 2.0 + 4.0;
                y += ROW + LINE * (lines.len().max(1) - 1) as f64;
                row
            })
            .collect();
        let after_rows = y + 14.0 + room[story.rows.len()] + BELOW * most[story.rows.len()] as f64;
        let waits = story.messages.iter().any(|message| message.fate == Fate::Outstanding);
        let bottom = after_rows + if waits { 38.0 } else { 16.0 };
        let (lanes, notes) = (lanes(story), notes(story));
        Layout { title, top, rows, bottom, gutter, awaits, lanes, lifted, notes, after_rows }
    }

    /// Where the line of a site runs.
    pub fn lane(&self, site: u8) -> f64 {
        self.lanes[usize::from(site - 1)]
    }

    /// The height of the line under the title.
    pub fn under(&self) -> f64 {
        self.top - 64.0
    }

    /// The height at which the last outstanding message ends.
    pub fn outstanding(&self) -> f64 {
        self.after_rows
    }

    pub fn legend(&self) -> f64 {
        self.bottom + 66.0
    }

    pub fn notes(&self) -> f64 {
        self.legend() + 62.0
    }

    pub fn height(&self) -> f64 {
        self.legend() + 48.0 + 18.0 * self.notes.len() as f64
    }

    /// What labels keep within.
    pub fn bounds(&self) -> Rect {
        Rect { left: MARGIN, top: 0.0, right: WIDTH - 2.0, bottom: self.height() }
    }
}

/// The row where a message ends that ends beside others, the receiver, and whether it comes from
/// below the receiver's number: what a stop loses, and what is outstanding in the end.
type Stack = (usize, u8, bool);

/// The messages, by their places, that end at the same row, site and side, from the top: the
/// steeper first.
fn stacks(story: &Story) -> BTreeMap<Stack, Vec<usize>> {
    let mut stacks: BTreeMap<Stack, Vec<usize>> = BTreeMap::new();
    for (place, message) in story.messages.iter().enumerate() {
        let row = match message.fate {
            Fate::Lost(row) if row != message.sent => row,
            Fate::Outstanding => story.rows.len(),
            _ => continue,
        };
        stacks.entry((row, message.to, message.from < message.to)).or_default().push(place);
    }
    for ((row, ..), stack) in &mut stacks {
        let slope = |message: &Message| {
            (row - message.sent) as f64 / f64::from(message.from.abs_diff(message.to))
        };
        stack.sort_by(|&a, &b| {
            slope(&story.messages[b]).total_cmp(&slope(&story.messages[a])).then(a.cmp(&b))
        });
    }
    stacks
}

fn lifted(story: &Story, stacks: &BTreeMap<Stack, Vec<usize>>) -> Vec<usize> {
    let mut lifted = vec![0; story.messages.len()];
    for stack in stacks.values() {
        for (below, &message) in stack.iter().rev().enumerate() {
            lifted[message] = below;
        }
    }
    lifted
}

fn lanes(story: &Story) -> Vec<f64> {
    let count = story.fresh.sites().count();
    let apart = ((LAST_LANE - FIRST_LANE) / (count as f64 - 1.0)).min(WIDEST);
    let first = (FIRST_LANE + LAST_LANE - apart * (count as f64 - 1.0)) / 2.0;
    (0..count).map(|place| first + apart * place as f64).collect()
}

/// The words beside an event.
fn words(row: &Row) -> Vec<String> {
    let wrapped = |text: &str| wrapped("words", text, GUTTER);
    let mut lines = wrapped(&row.words);
    match row.verdict {
        Verdict::Taken => {}
        Verdict::Passed => lines.push("passed over".to_string()),
        Verdict::Refused(ground) => lines.push(format!("refused {ground}")),
        Verdict::Bad(ground) => {
            lines = wrapped(&format!("bad {ground}: {}; no more is read", sentence(ground)))
        }
    }
    lines
}

/// Whom the acting site awaits, where there is room for it behind the first of the event's lines: all
/// of them, or else the lowest and how many more.
fn awaits(row: &Row, lines: &[String]) -> Option<(f64, String)> {
    let sites = row.awaits?;
    let all = format!("awaits {}", numbers(sites));
    let lowest = format!("awaits {} and {} others", sites.iter().next()?, sites.len() - 1);
    let start = width("words", lines.first()?) + BEHIND;
    let fits = |text: &String| start + width(FAINT, text) <= GUTTER;
    [all, lowest].into_iter().find(fits).map(|text| (WORDS + start, text))
}

/// The sentences of the grounds of refusal that were given, ascending, in lines.
fn notes(story: &Story) -> Vec<String> {
    let refused = story.rows.iter().filter_map(|row| match row.verdict {
        Verdict::Refused(ground) => Some(ground),
        _ => None,
    });
    let mut grounds: Vec<u8> = refused.collect();
    grounds.sort_unstable();
    grounds.dedup();
    let note = |ground| format!("Refused {ground}: {}.", sentence(ground));
    let lines = |note: String| wrapped("note", &note, WIDTH - 2.0 * MARGIN);
    grounds.into_iter().map(note).flat_map(lines).collect()
}
