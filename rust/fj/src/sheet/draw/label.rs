//! The label of an arrow: for each of its transitions what is read above a bar and what is written
//! below it, as in Skeen's figures.

use super::svg::{line, text};
use super::Subject;
use crate::letters::{lines, width};

/// The labels of the transitions between two states, in columns.
pub struct Label {
    parts: Vec<Part>,
    columns: usize,
    pub width: f64,
    pub height: f64,
}

/// One transition's lines.
struct Part {
    above: Vec<String>,
    below: Vec<String>,
    votes: bool,
    /// Where it stands on the ways to the verdict, or nothing.
    steps: String,
}

const SIZE: f64 = 11.0;
const LINE: f64 = 14.0;
const BAR: f64 = 5.0;
const GAP: f64 = 7.0;
const SIDE: f64 = 6.0;
/// The width at which a list of messages is broken.
const BREAK: f64 = 190.0;

impl Label {
    /// The label of some transitions, by their places in the sheet.
    pub fn new(subject: &Subject, transitions: &[usize]) -> Label {
        let parts: Vec<Part> = transitions.iter().map(|&t| Part::new(subject, t)).collect();
        let columns = parts.len().isqrt();
        let mut label = Label { parts, columns, width: 0.0, height: 0.0 };
        let size = |column: &[Part]| {
            let height = column.iter().map(|part| part.height() + GAP).sum::<f64>() - GAP;
            (column.iter().map(Part::width).fold(0.0, f64::max), height)
        };
        let sizes: Vec<(f64, f64)> = label.parts.chunks(label.rows()).map(size).collect();
        label.width = sizes.iter().map(|size| size.0 + 2.0 * SIDE).sum();
        label.height = sizes.iter().map(|size| size.1).fold(0.0, f64::max) + GAP;
        label
    }

    fn rows(&self) -> usize {
        self.parts.len().div_ceil(self.columns)
    }

    /// The label around a middle.
    pub fn draw(&self, x: f64, y: f64) -> String {
        let mut svg = String::new();
        let mut left = x - self.width / 2.0;
        for column in self.parts.chunks(self.rows()) {
            let width = column.iter().map(Part::width).fold(0.0, f64::max) + 2.0 * SIDE;
            let mut top = y - (self.height - GAP) / 2.0;
            for part in column {
                svg += &part.draw(left + width / 2.0, top);
                top += part.height() + GAP;
            }
            left += width;
        }
        svg
    }
}

impl Part {
    fn new(subject: &Subject, number: usize) -> Part {
        let t = &subject.sheet.transitions[number];
        let list = |set| match &subject.sheet.names(set)[..] {
            [] => vec!["\u{2013}".to_string()],
            names => lines(names.iter().copied(), SIZE, BREAK),
        };
        let steps = subject.steps.get(number).cloned().unwrap_or_default();
        Part { above: list(t.reads), below: list(t.writes), votes: t.votes, steps }
    }

    fn width(&self) -> f64 {
        let lines = self.above.iter().chain(&self.below).chain([&self.steps]);
        let widest = lines.map(|line| width(line, SIZE)).fold(0.0, f64::max);
        widest.max(if self.votes { width(VOTES, SIZE) } else { 24.0 })
    }

    fn height(&self) -> f64 {
        let extra = usize::from(self.votes) + usize::from(!self.steps.is_empty());
        (self.above.len() + self.below.len() + extra) as f64 * LINE + BAR
    }

    fn draw(&self, x: f64, top: f64) -> String {
        let mut svg = String::new();
        let mut y = top;
        let mut put = |content: &str, class: &str, y: &mut f64| {
            *y += LINE;
            svg += &text(x, *y - 3.0, "middle", class, content);
        };
        self.above.iter().for_each(|line| put(line, "label", &mut y));
        let bar = y + BAR / 2.0 - 0.5;
        y += BAR;
        self.below.iter().for_each(|line| put(line, "label", &mut y));
        if self.votes {
            put(VOTES, "label vote", &mut y);
        }
        if !self.steps.is_empty() {
            put(&self.steps, "label step", &mut y);
        }
        let half = self.width() / 2.0;
        svg + &line(x - half, bar, x + half, bar, "bar")
    }
}

const VOTES: &str = "votes yes";
