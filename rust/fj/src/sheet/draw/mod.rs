//! Draws a sheet: each site's state diagram, with what the judge found in it.

mod diagram;
mod label;
mod place;
mod svg;

use super::library::Judgement;
use super::model::Sheet;
use super::search::Search;
use super::{explain, judge, refusal, warnings};
use crate::letters;
use diagram::{diagram, Diagram};
use svg::{moved, text};

const STYLE: &str = "\
text { font-family: Helvetica, Arial, 'DejaVu Sans', sans-serif; fill: #222 }
.title { font-size: 18px; font-weight: bold }
.verdict, .warning { font-size: 13px }
.site { font-size: 14px; font-weight: bold }
.name { font-size: 14px }
.caption { font-size: 11px; fill: #555; paint-order: stroke; stroke: white; stroke-width: 4px }
.stuck { font-weight: bold; fill: #c01010 }
.label { font-size: 11px }
.vote { font-style: italic; fill: #146c2e }
.step, .warning { fill: #c01010 }
.legend { font-size: 11px; fill: #555 }
.page, .behind { fill: white }
.panel { fill: none; stroke: #ccc }
.bar { stroke: #222; stroke-width: 1 }
.arrow { fill: none; stroke: #555; stroke-width: 1.3 }
.state { fill: white; stroke: #222; stroke-width: 1.5 }
.ring { fill: none; stroke: #222; stroke-width: 1 }
.abort { fill: #e4e4e4 }
.commit { fill: #d8efdc }
.blocked { fill: #fbdcdc; stroke: #c01010; stroke-width: 4 }
.unreached { fill: white; stroke: #999; stroke-dasharray: 4 3 }
";

const TIP: &str = "<marker id=\"tip\" viewBox=\"0 0 10 10\" refX=\"9\" refY=\"5\" markerWidth=\"8\" markerHeight=\"8\" markerUnits=\"userSpaceOnUse\" orient=\"auto\"><path d=\"M0 0.8 L10 5 L0 9.2 z\" fill=\"#555\"/></marker>";

const LEGEND: [&str; 3] = [
    "An arrow reads the messages above its bar and writes those below. Several bars: several transitions.",
    "A double ring is a final state, abort or commit. Red and BLOCKED: a site alone there cannot decide.",
    "alone: what a site in that state may do when every other site has stopped.",
];

const MARGIN: f64 = 20.0;
const HEAD: f64 = 34.0;
const FULL: f64 = 1400.0;
/// The width at which long lines above and below the diagrams are broken.
const READABLE: f64 = 660.0;

/// What is drawn: a sheet, what was found about it, and for each transition where it stands on the
/// ways to a blocking verdict.
pub struct Subject<'a> {
    sheet: &'a Sheet,
    judged: Option<&'a Judgement>,
    steps: Vec<String>,
}

/// A line above the diagrams, in its class.
type Line = (&'static str, String);

/// The drawing of a sheet, with its judgement or the ground (30 or 31) on which it has none.
pub fn svg(sheet: &Sheet, judged: &Result<Judgement, u8>) -> String {
    let mut subject = Subject { sheet, judged: judged.as_ref().ok(), steps: Vec::new() };
    let mut head = head(sheet, judged);
    let mut legend: Vec<String> = LEGEND.map(str::to_string).to_vec();
    if let Ok(judgement) = judged {
        let search = Search::of(sheet);
        if let Some(explained) = explain::explanation(sheet, judgement, &search) {
            subject.steps = explained.steps();
            legend.extend(folded(&explained.legend(), "legend"));
        }
        for warning in warnings::warnings(sheet, judgement, &search) {
            let lines = folded(&format!("Warning: {}", warning.text), "warning");
            head.extend(lines.into_iter().map(|line| ("warning", line)));
        }
    }
    page(&subject, &head, &legend)
}

/// A text in lines that can be read easily.
fn folded(text: &str, class: &str) -> Vec<String> {
    letters::lines(text.split_whitespace(), size(class), READABLE)
}

/// The size of the letters above and below the diagrams, as the style has it.
fn size(class: &str) -> f64 {
    match class {
        "title" => 18.0,
        "legend" => 11.0,
        _ => 13.0,
    }
}

/// The whole drawing: the diagrams between the lines above and below them.
fn page(subject: &Subject, head: &[Line], legend: &[String]) -> String {
    let sites = 1..=subject.sheet.sites.len() as u8;
    let diagrams: Vec<Diagram> = sites.map(|site| diagram(subject, site)).collect();
    let top = MARGIN + 22.0 * head.len() as f64;
    let (panels, width, height) = panels(subject.sheet, &diagrams, top);
    let texts = head.iter().map(|(class, line)| letters::width(line, size(class)));
    let notes = legend.iter().map(|line| letters::width(line, size("legend")));
    let width = texts.chain(notes).fold(width, f64::max) + 2.0 * MARGIN;
    let mut body = String::new();
    for (place, (class, line)) in head.iter().enumerate() {
        body += &text(MARGIN, MARGIN + 14.0 + 22.0 * place as f64, "start", class, line);
    }
    body += &panels;
    for (place, line) in legend.iter().enumerate() {
        body += &text(MARGIN, height + 18.0 + 15.0 * place as f64, "start", "legend", line);
    }
    let height = height + 18.0 + 15.0 * legend.len() as f64;
    format!(
        "<svg xmlns=\"http://www.w3.org/2000/svg\" width=\"{width:.0}\" height=\"{height:.0}\" viewBox=\"0 0 {width:.0} {height:.0}\">\n\
         <style>\n{STYLE}</style>\n<defs>{TIP}</defs>\n\
         <rect width=\"{width:.0}\" height=\"{height:.0}\" class=\"page\"/>\n{body}</svg>\n"
    )
}

/// The title and the verdict.
fn head(sheet: &Sheet, judged: &Result<Judgement, u8>) -> Vec<Line> {
    let title = match sheet.title.is_empty() {
        true => format!("A sheet of {} sites", sheet.sites.len()),
        false => sheet.title.clone(),
    };
    let verdict = match judged {
        Err(ground) => refusal::text(*ground, Some(sheet)),
        Ok(judged) => {
            let (verdict, tolerance) = (judge::verdict(sheet, judged), judge::tolerance(judged));
            format!("{verdict}; {tolerance}; {} global states", judged.states)
        }
    };
    let first = match sheet.first {
        0 => "nothing is outstanding at first".to_string(),
        set => format!("outstanding at first: {}", sheet.names(set).join(" ")),
    };
    vec![("title", title), ("verdict", format!("{verdict}; {first}"))]
}

/// The diagrams in one row or, where that would be too wide, in two; framed, with the width and the
/// lower end of the whole.
fn panels(sheet: &Sheet, diagrams: &[Diagram], top: f64) -> (String, f64, f64) {
    let names: Vec<String> = (1..=diagrams.len()).map(|site| sheet.site_called(site)).collect();
    let wide = diagrams.iter().zip(&names).map(|(diagram, name)| panel_width(diagram, name));
    let one_row = wide.map(|width| width + MARGIN).sum::<f64>() < FULL;
    let length = if one_row { diagrams.len() } else { diagrams.len().div_ceil(2) };
    let (mut svg, mut widest, mut y) = (String::new(), 0.0_f64, top);
    for (row, names) in diagrams.chunks(length).zip(names.chunks(length)) {
        let height = row.iter().map(|diagram| diagram.height).fold(0.0, f64::max) + HEAD + MARGIN;
        let mut x = MARGIN;
        for (diagram, name) in row.iter().zip(names) {
            svg += &moved(x, y, &panel(diagram, name, height));
            x += panel_width(diagram, name) + MARGIN;
        }
        widest = widest.max(x - 2.0 * MARGIN);
        y += height + MARGIN;
    }
    (svg, widest, y - MARGIN)
}

fn panel_width(diagram: &Diagram, name: &str) -> f64 {
    diagram.width.max(letters::width(name, 14.0)) + 2.0 * MARGIN
}

/// One diagram in its frame, below the site's name.
fn panel(diagram: &Diagram, name: &str, height: f64) -> String {
    let width = panel_width(diagram, name);
    let frame =
        format!("<rect width=\"{width:.1}\" height=\"{height:.1}\" rx=\"6\" class=\"panel\"/>\n");
    let title = text(MARGIN, 22.0, "start", "site", name);
    let inner = (width - diagram.width) / 2.0;
    frame + &title + &moved(inner, HEAD, &diagram.svg)
}
