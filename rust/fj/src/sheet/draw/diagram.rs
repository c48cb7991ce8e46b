//! One site's state diagram.

use super::label::Label;
use super::place::{Item, Join, Placed, Rows};
use super::svg::{block, escaped, text};
use super::Subject;
use crate::letters::width;
use crate::sheet::library::{Decision, Finding, Judgement};
use crate::sheet::model::{Local, Mark, Sheet, Transition};
use std::collections::BTreeMap;

/// A finished diagram and its size.
pub struct Diagram {
    pub svg: String,
    pub width: f64,
    pub height: f64,
}

/// An arrow: its label, and the items that it goes through.
struct Arrow {
    label: Label,
    chain: Vec<usize>,
}

const RADIUS: f64 = 20.0;
const NAME: f64 = 14.0;
const CAPTION: f64 = 11.0;

/// The diagram of a site.
pub fn diagram(subject: &Subject, site: u8) -> Diagram {
    let (sheet, judged) = (subject.sheet, subject.judged);
    let own: Vec<Local> = sheet.locals().into_iter().filter(|local| local.0 == site).collect();
    let ranks = ranks(sheet, site, own.len());
    let leans = leans(sheet, site, &ranks);
    let mut rows = Rows::default();
    for &local in &own {
        let caption = caption(sheet, judged, local);
        let wide = caption.iter().map(|line| width(&line.0, CAPTION)).fold(0.0, f64::max);
        let half = half_width(sheet, local);
        let (right, lean) = (half + 6.0 + wide, leans[local.1 as usize]);
        let item = Item { left: half, right, height: 2.0 * RADIUS, lean };
        rows.add(2 * ranks[local.1 as usize], item);
    }
    let arrows = arrows(subject, site, &ranks, &leans, &mut rows);
    let placed = rows.placed();
    let mut svg: String = arrows.iter().map(|arrow| arrow.draw(sheet, site, &placed)).collect();
    svg += &own.iter().map(|&local| state(sheet, judged, local, &placed)).collect::<String>();
    Diagram { svg, width: placed.width, height: placed.height }
}

/// Each state's row: the length of the longest way to it.
fn ranks(sheet: &Sheet, site: u8, states: usize) -> Vec<usize> {
    let mut ranks = vec![0; states];
    for _ in 0..states {
        for t in sheet.transitions.iter().filter(|t| t.site == site) {
            let (from, to) = (t.from as usize, t.to as usize);
            ranks[to] = ranks[to].max(ranks[from] + 1);
        }
    }
    ranks
}

/// Abort states stand left, commit states right, and others a little towards where they lead.
fn leans(sheet: &Sheet, site: u8, ranks: &[usize]) -> Vec<f64> {
    let mut leans = vec![1.0; ranks.len()];
    let mut order: Vec<usize> = (0..ranks.len()).collect();
    order.sort_by_key(|&state| std::cmp::Reverse(ranks[state]));
    for state in order {
        let goes = |t: &&Transition| (t.site, t.from as usize) == (site, state);
        let next = sheet.transitions.iter().filter(goes).map(|t| leans[t.to as usize]);
        let next: Vec<f64> = next.collect();
        leans[state] = match sheet.state((site, state as u8)).mark {
            Mark::Abort => 0.0,
            Mark::Commit => 2.0,
            Mark::Working if next.is_empty() => 1.0,
            Mark::Working => 0.6 + 0.4 * next.iter().sum::<f64>() / next.len() as f64,
        };
    }
    leans
}

/// The arrows of a site, one for each pair of states, with labels and bends put into the rows.
fn arrows(
    subject: &Subject,
    site: u8,
    ranks: &[usize],
    leans: &[f64],
    rows: &mut Rows,
) -> Vec<Arrow> {
    let mut ways: BTreeMap<(u8, u8), Vec<usize>> = BTreeMap::new();
    for (number, t) in subject.sheet.transitions.iter().enumerate().filter(|(_, t)| t.site == site)
    {
        ways.entry((t.from, t.to)).or_default().push(number);
    }
    let mut arrows = Vec::new();
    for ((from, to), transitions) in ways {
        let (from, to) = (from as usize, to as usize);
        let label = Label::new(subject, &transitions);
        let (half, lean) = (label.width / 2.0, (leans[from] + leans[to]) / 2.0);
        let first = 2 * ranks[from] + 1;
        let item = Item { left: half, right: half, height: label.height, lean };
        let mut chain = vec![from, rows.add(first, item)];
        for row in first + 1..2 * ranks[to] {
            let lean = leans[to] + if leans[to] < 1.0 { -0.1 } else { 0.1 };
            chain.push(rows.add(row, Item { left: 4.0, right: 4.0, height: 0.0, lean }));
        }
        chain.push(to);
        let inner = chain[1]..chain[1] + chain.len() - 2;
        rows.joins.extend(chain.windows(2).map(|pair| Join {
            upper: pair[0],
            lower: pair[1],
            strength: if pair.iter().all(|item| inner.contains(item)) { 100.0 } else { 1.0 },
        }));
        arrows.push(Arrow { label, chain });
    }
    arrows
}

impl Arrow {
    /// A line from the first state through its label and bends to the last, upright within the
    /// rows that it passes.
    fn draw(&self, sheet: &Sheet, site: u8, placed: &Placed) -> String {
        let outside = |state: usize, towards: (f64, f64)| {
            let at = placed.at[state];
            let half = half_width(sheet, (site, state as u8));
            rim((at.x, (at.top + at.bottom) / 2.0), half, towards)
        };
        let (from, to) = (self.chain[0], self.chain[self.chain.len() - 1]);
        let label = placed.at[self.chain[1]];
        let start = outside(from, (label.x, label.top));
        let mut path = format!("M{:.1} {:.1}", start.0, start.1);
        path += &format!(" L{:.1} {:.1} V{:.1}", label.x, label.top, label.bottom);
        let mut here = (label.x, label.bottom);
        for next in self.chain[2..self.chain.len() - 1].iter().map(|&bend| placed.at[bend]) {
            let half = (here.1 + next.top) / 2.0;
            path += &format!(" C{:.1} {half:.1} {:.1} {half:.1}", here.0, next.x);
            path += &format!(" {:.1} {:.1} V{:.1}", next.x, next.top, next.bottom);
            here = (next.x, next.bottom);
        }
        let end = outside(to, here);
        let bend = here.1 + 0.35 * (end.1 - here.1);
        path += &format!(" Q{:.1} {bend:.1} {:.1} {:.1}", here.0, end.0, end.1);
        let arrow = format!("<path d=\"{path}\" class=\"arrow\" marker-end=\"url(#tip)\"/>\n");
        let middle = label.top + self.label.height / 2.0;
        let behind = block(label.x, middle, self.label.width, self.label.height, 3.0, "behind");
        arrow + &behind + &self.label.draw(label.x, middle)
    }
}

/// Half the width of a state: a circle, or longer where its name is.
fn half_width(sheet: &Sheet, local: Local) -> f64 {
    (width(&sheet.state(local).name, NAME) / 2.0 + 8.0).max(RADIUS)
}

/// The point of a state's rim on the way from its middle to a point outside.
fn rim(middle: (f64, f64), half: f64, towards: (f64, f64)) -> (f64, f64) {
    let at = |part: f64| {
        (middle.0 + part * (towards.0 - middle.0), middle.1 + part * (towards.1 - middle.1))
    };
    let inside = |(x, y): (f64, f64)| {
        let beside = ((x - middle.0).abs() - (half - RADIUS)).max(0.0);
        beside.hypot(y - middle.1) < RADIUS + 2.0
    };
    let (mut near, mut far) = (0.0, 1.0);
    for _ in 0..30 {
        let part = (near + far) / 2.0;
        if inside(at(part)) {
            near = part
        } else {
            far = part
        }
    }
    at(far)
}

/// What stands beside a state, each line with its class.
fn caption(sheet: &Sheet, judged: Option<&Judgement>, local: Local) -> Vec<(String, &'static str)> {
    let mark = sheet.state(local).mark;
    let number = match mark {
        Mark::Working => format!("{}.{}", local.0, local.1),
        _ => format!("{}.{} {}", local.0, local.1, mark.name()),
    };
    let mut lines = vec![(number, "caption")];
    match judged.map(|judged| judged.of(local).decision) {
        Some(Decision::Blocked) => lines.push(("BLOCKED".to_string(), "caption stuck")),
        Some(Decision::Unreached) => lines.push(("unreached".to_string(), "caption")),
        Some(decision) if mark == Mark::Working => {
            lines.push((format!("alone: {}", decision.word()), "caption"));
        }
        _ => {}
    }
    lines
}

/// A state with its name, its rings and its caption.
fn state(sheet: &Sheet, judged: Option<&Judgement>, local: Local, placed: &Placed) -> String {
    let place = placed.at[local.1 as usize];
    let (x, y) = (place.x, (place.top + place.bottom) / 2.0);
    let half = half_width(sheet, local);
    let is = sheet.state(local);
    let found = judged.map(|judged| judged.of(local));
    let class = match (found.map(|found| found.decision), is.mark) {
        (Some(Decision::Blocked), _) => "state blocked",
        (Some(Decision::Unreached), _) => "state unreached",
        (_, Mark::Working) => "state",
        (_, Mark::Abort) => "state abort",
        (_, Mark::Commit) => "state commit",
    };
    let mut svg = block(x, y, 2.0 * half, 2.0 * RADIUS, RADIUS, class);
    if is.mark != Mark::Working {
        let (width, height) = (2.0 * half - 7.0, 2.0 * RADIUS - 7.0);
        svg += &block(x, y, width, height, height / 2.0, "ring");
    }
    svg += &text(x, y + 5.0, "middle", "name", &is.name);
    let lines = caption(sheet, judged, local);
    let top = y + 4.0 - 7.0 * (lines.len() - 1) as f64;
    for (place, (line, class)) in lines.iter().enumerate() {
        svg += &text(x + half + 6.0, top + 14.0 * place as f64, "start", class, line);
    }
    let told = found.map_or(String::new(), |found| told(sheet, local, found));
    format!("<g>{told}{svg}</g>\n")
}

/// What a reader sees who points at a state.
fn told(sheet: &Sheet, local: Local, found: &Finding) -> String {
    let set: Vec<String> = found.set.iter().map(|&other| sheet.called(other)).collect();
    let committable = if found.committable { "committable" } else { "not committable" };
    let told =
        format!("{}, {committable}, found together with {}", sheet.called(local), set.join(", "));
    format!("<title>{}</title>\n", escaped(&told))
}
