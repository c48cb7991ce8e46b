//! `fj chart`: a run as a sequence chart. Time runs down; each site is a line, each event a row.

mod arrows;
mod cuts;
mod geometry;
#[cfg(test)]
mod label_tests;
mod labels;
mod layout;
mod legend;
mod story;
mod svg;
#[cfg(test)]
mod tests;

use crate::grounds::sentence;
use crate::rehearsal::{records, transcript, Verdict};
use geometry::Point;
use layout::{Layout, FAINT, LINE, MARGIN, NUMBERS, WIDTH, WORDS};
use std::collections::BTreeSet;
use story::{Row, Run, Story};
use svg::{width, Svg};

const STYLE: &str = include_str!("style.css");

/// The tallest picture that the usual programs take.
const TALLEST: f64 = 32_767.0;

/// How often a chart is drawn, each time with more room where labels had too little.
const TRIES: usize = 12;

/// The chart of a journal, under a title.
pub fn chart(journal: &[u8], title: Option<&str>) -> Result<String, String> {
    let transcript = transcript(journal)?;
    let (Some(&n), true) = (journal.first(), transcript.starts_with("sites")) else {
        let ground = transcript.trim().trim_start_matches("refused ").parse().unwrap_or_default();
        return Err(format!("{}: {}", transcript.trim(), sentence(ground)));
    };
    let story = Story::new(n, &records(&transcript, journal));
    let title = title.map_or_else(|| format!("A run of {n} sites"), str::to_string);
    let (mut room, mut tries) = (vec![0.0; story.rows.len() + 1], TRIES);
    loop {
        let layout = Layout::new(&story, &title, &room);
        if layout.height() > TALLEST {
            return Err(too_tall(story.rows.len(), layout.height()));
        }
        let (svg, crowded) = drawn(&story, &layout, &transcript);
        tries -= 1;
        if crowded.is_empty() || tries == 0 {
            return Ok(svg.finish(WIDTH, layout.height(), &title, STYLE));
        }
        BTreeSet::from_iter(crowded).into_iter().for_each(|row| room[row] += LINE);
    }
}

/// Why there is no chart of so many events. A run accepts some hundreds at most, so that a journal
/// without refused ones always has its chart.
fn too_tall(events: usize, height: f64) -> String {
    format!(
        "a chart of {events} events would be {height:.0} pixels tall, and a picture can have \
         {TALLEST}: leave out events that are refused"
    )
}

/// A story drawn by a layout, and the rows before which a label had too little room.
fn drawn(story: &Story, layout: &Layout, transcript: &str) -> (Svg, Vec<usize>) {
    let mut above = Chart { svg: Svg::default(), story, layout };
    above.events();
    above.ends();
    legend::legend(&mut above.svg, layout.legend());
    above.notes();
    let mut chart = Chart { svg: Svg::default(), story, layout };
    chart.heading(transcript);
    chart.guides();
    story.fresh.sites().for_each(|site| chart.life(site));
    let crowded = chart.messages(&above.svg);
    chart.svg.append(above.svg);
    (chart.svg, crowded)
}

struct Chart<'a> {
    svg: Svg,
    story: &'a Story,
    layout: &'a Layout,
}

/// The class of a site's state: its letter, or `gone` once it has stopped.
fn class(run: &Run, site: u8) -> String {
    if run.stopped(site) {
        "gone".to_string()
    } else {
        run.letter(site).to_string()
    }
}

/// A site's state in a circle.
fn badge(svg: &mut Svg, class: &str, letter: char, at: Point) {
    svg.circle(&format!("badge {class}"), at, layout::BADGE);
    svg.text(&format!("letter {class}"), (at.0, at.1 + 4.0), &letter.to_string());
}

/// The sign of a refused event.
fn refusal(svg: &mut Svg, (x, y): Point) {
    svg.circle("entry", (x, y), 5.0);
    svg.line("bar", (x - 2.5, y), (x + 2.5, y));
}

impl Chart<'_> {
    fn heading(&mut self, transcript: &str) {
        let layout = self.layout;
        for (place, line) in layout.title.iter().enumerate() {
            self.svg.text("title", (MARGIN, 40.0 + 25.0 * place as f64), line);
        }
        let last: Vec<&str> = transcript.lines().last().unwrap_or_default().split(' ').collect();
        if let ["end", events, messages] = last[..] {
            let under = format!("Events accepted: {events}. Messages written: {messages}.");
            self.svg.text("under", (MARGIN, layout.under()), &under);
        }
        for site in self.story.fresh.sites() {
            let x = layout.lane(site);
            self.svg.text("site", (x, layout.top - 20.0), &format!("site {site}"));
        }
    }

    /// A thin line from each event's words to its site, the words, and whom that site awaits.
    fn guides(&mut self) {
        for (place, row) in self.story.rows.iter().enumerate() {
            let y = self.layout.rows[place];
            let end = row.site.map_or(self.layout.lane(1) - 30.0, |site| self.layout.lane(site));
            let awaits = self.layout.awaits[place].iter();
            let ends = self.layout.gutter[place].iter().map(|line| WORDS + width("words", line));
            let ends = ends.chain(awaits.clone().map(|(x, text)| x + width(FAINT, text)));
            let start = ends.fold(WORDS, f64::max) + 8.0;
            if start < end {
                self.svg.line("guide", (start, y), (end, y));
            }
            self.svg.text("place", (NUMBERS, y + 4.5), &(place + 1).to_string());
            let class = match row.verdict {
                Verdict::Taken => "words",
                Verdict::Passed => FAINT,
                Verdict::Refused(_) | Verdict::Bad(_) => "refused",
            };
            for (line, words) in self.layout.gutter[place].iter().enumerate() {
                self.svg.text(class, (WORDS, y + 4.5 + LINE * line as f64), words);
            }
            awaits.for_each(|(x, text)| self.svg.text(FAINT, (*x, y + 4.5), text));
        }
    }

    /// The line of a site, in the colour of its state, and thick while it leads.
    fn life(&mut self, site: u8) {
        let x = self.layout.lane(site);
        let look = |run: &Run| (class(run, site), run.leads(site) && !run.stopped(site));
        let mut from = (self.layout.top, look(&self.story.fresh));
        let ends = self.story.rows.iter().zip(&self.layout.rows);
        let ends = ends.map(|(row, &y)| (y, look(&row.run)));
        let bottom = (self.layout.bottom, (String::new(), false));
        for to in ends.chain([bottom]) {
            if to.1 != from.1 {
                let (state, leads) = &from.1;
                let leads = if *leads { " leads" } else { "" };
                self.svg.line(&format!("life {state}{leads}"), (x, from.0), (x, to.0));
                from = to;
            }
        }
    }

    /// What each event did to its site: a new state, a stop, a refusal, or nothing to be seen.
    fn events(&mut self) {
        for site in self.story.fresh.sites() {
            badge(&mut self.svg, "q", 'q', (self.layout.lane(site), self.layout.top));
        }
        let mut before = &self.story.fresh;
        for (row, &y) in self.story.rows.iter().zip(&self.layout.rows) {
            if let Some(site) = row.site {
                self.event(row, site, before, (self.layout.lane(site), y));
            }
            before = &row.run;
        }
    }

    fn event(&mut self, row: &Row, site: u8, before: &Run, at: Point) {
        let svg = &mut self.svg;
        if matches!(row.verdict, Verdict::Refused(_)) {
            refusal(svg, at);
        } else if row.run.stopped(site) {
            svg.circle("halt", at, 9.0);
            svg.cross("stop", at, 6.0);
        } else if before.letter(site) != row.run.letter(site) {
            badge(svg, &class(&row.run, site), row.run.letter(site), at);
        } else {
            let passed = row.verdict == Verdict::Passed;
            let state = if passed { "passed".to_string() } else { class(&row.run, site) };
            svg.circle(&format!("dot {state}"), at, 4.5);
        }
    }

    /// Where each site stands in the end.
    fn ends(&mut self) {
        let last = self.story.last();
        for site in last.sites() {
            let at = (self.layout.lane(site), self.layout.bottom);
            badge(&mut self.svg, &class(last, site), last.letter(site), at);
            let word = match last.letter(site) {
                'q' => "first",
                'w' => "wait",
                'p' => "prepared",
                'a' => "abort",
                'c' => "commit",
                _ => "stopped",
            };
            self.svg.text("mark", (at.0, at.1 + 27.0), word);
        }
    }

    /// The sentences of the grounds that were given.
    fn notes(&mut self) {
        for (place, note) in self.layout.notes.iter().enumerate() {
            let y = self.layout.notes() + 18.0 * place as f64;
            self.svg.text("note", (MARGIN, y), note);
        }
    }
}
