//! The messages of a chart: from where each was written to where it ended, with their labels.

use super::geometry::{along, straightened, Point};
use super::labels::{along_arrow, base, Space};
use super::layout::{BADGE, BELOW, CLEAR};
use super::story::{Fate, Message};
use super::svg::Svg;
use super::Chart;
use crate::words::message;

/// A message's name, with a capital letter.
pub fn name(kind: u8) -> String {
    let (first, rest) = message(kind).split_at(1);
    first.to_uppercase() + rest
}

/// A message's arrow: its look, the points that it goes through, and the row where it ends.
struct Arrow {
    class: &'static str,
    points: Vec<Point>,
    row: usize,
}

/// Half the size of the mark at an end.
pub const MARK: f64 = 4.0;

impl Chart<'_> {
    /// Draws the messages, each in the look of its fate, below a picture of everything else.
    /// Gives the rows before which a label had too little room.
    pub fn messages(&mut self, above: &Svg) -> Vec<usize> {
        let arrows: Vec<(usize, Arrow)> = (self.story.messages.iter().enumerate())
            .filter_map(|(place, message)| Some((place, self.arrow(place, message)?)))
            .collect();
        arrows.iter().for_each(|(_, arrow)| arrow.draw(&mut self.svg));
        let mut space = Space::new(self.layout.bounds(), &self.layout.lanes);
        arrows.iter().for_each(|(place, arrow)| space.draw(*place, &straightened(&arrow.points)));
        self.svg.taken.iter().chain(&above.taken).for_each(|rect| space.take(*rect));
        let mut labels = Svg::default();
        let mut crowded = self.cut_off(&mut space, &mut labels);
        for (place, arrow) in &arrows {
            let label = name(self.story.messages[*place].kind);
            let spots = along_arrow(&straightened(&arrow.points), &label);
            let Some(spot) = space.place(*place, &label, spots) else { continue };
            if spot.is_poor() {
                crowded.push(arrow.row);
            }
            labels.text(&format!("label {}", arrow.class), base(spot.at), &label);
        }
        self.svg.append(labels);
        crowded
    }

    /// The arrow of a message, unless it never left.
    fn arrow(&self, place: usize, message: &Message) -> Option<Arrow> {
        let side = if message.from < message.to { -1.0 } else { 1.0 };
        let (lane, up) = (self.layout.lane(message.to), BELOW * self.layout.lifted[place] as f64);
        let (class, to, row) = match message.fate {
            Fate::Delivered(row) => ("delivered", (lane, self.layout.rows[row]), row),
            Fate::PassedOver(row) => ("passed", (lane, self.layout.rows[row]), row),
            Fate::Lost(row) => {
                let below = if row == message.sent { 14.0 } else { 0.0 };
                ("lost", (lane + 16.0 * side, self.layout.rows[row] + below - up), row)
            }
            Fate::Outstanding => {
                let rows = self.story.rows.len();
                ("open", (lane + 14.0 * side, self.layout.outstanding() - up), rows)
            }
            Fate::NeverLeft => return None,
        };
        let from = (self.layout.lane(message.from), self.layout.rows[message.sent]);
        let mut points = self.clear(from, to, message);
        points[0] = along(points[0], points[1], self.gap(message.from, message.sent));
        if matches!(class, "delivered" | "passed") {
            let last = points.len() - 1;
            points[last] = along(points[last], points[last - 1], self.gap(message.to, row));
        }
        Some(Arrow { class, points, row })
    }

    /// How far from the site's line an arrow keeps at a row.
    fn gap(&self, site: u8, row: usize) -> f64 {
        let before = row.checked_sub(1).map_or(&self.story.fresh, |row| &self.story.rows[row].run);
        let same = before.letter(site) == self.story.rows[row].run.letter(site);
        if same {
            5.0
        } else {
            BADGE + 1.0
        }
    }

    /// The straight way between two points, bent where it would run through a mark of a site
    /// between sender and receiver.
    fn clear(&self, from: Point, to: Point, message: &Message) -> Vec<Point> {
        let (low, high) = (message.from.min(message.to), message.from.max(message.to));
        let mut between: Vec<u8> = (low + 1..high).collect();
        if message.from > message.to {
            between.reverse();
        }
        let bends = between.into_iter().filter_map(|site| {
            let x = self.layout.lane(site);
            let y = from.1 + (to.1 - from.1) * (x - from.0) / (to.0 - from.0);
            let mark = self.mark_between(site, y - CLEAR, y + CLEAR)?;
            let clear = if y < mark { mark - CLEAR } else { mark + CLEAR };
            Some((x, clear))
        });
        [from].into_iter().chain(bends).chain([to]).collect()
    }

    /// The height of the first event of a site between two heights.
    fn mark_between(&self, site: u8, above: f64, below: f64) -> Option<f64> {
        let rows = &self.layout.rows;
        let first = rows.partition_point(|&row| row <= above);
        let near = rows.iter().enumerate().skip(first).take_while(|(_, &row)| row < below);
        let mut own = near.filter(|(row, _)| self.story.rows[*row].site == Some(site));
        own.next().map(|(_, &mark)| mark)
    }
}

impl Arrow {
    fn draw(&self, svg: &mut Svg) {
        svg.curve(self.class, &self.points);
        let [before, end] = [2, 1].map(|back| self.points[self.points.len() - back]);
        match self.class {
            "lost" => svg.cross("end lost", end, MARK),
            "open" => svg.circle("end open", end, MARK),
            class => svg.head(&format!("head {class}"), before, end),
        }
    }
}
