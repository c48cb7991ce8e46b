//! What stops kept from leaving: a short line that ends in a cross, with a label.

use super::arrows::{name, MARK};
use super::geometry::{along, Point, Rect};
use super::labels::{base, Space, Spot};
use super::layout::{BADGE, LINE};
use super::story::Fate;
use super::svg::{width, Svg};
use super::Chart;

/// What a stop kept from leaving to one side of a site: the row, the point where the messages would
/// have left, and their label.
struct Cut {
    row: usize,
    from: Point,
    side: f64,
    label: String,
}

/// How far from its mark a label begins.
const BESIDE: f64 = 10.0;

impl Chart<'_> {
    /// Draws what stops kept from leaving; gives the rows before which a label had too little room.
    pub fn cut_off(&mut self, space: &mut Space, labels: &mut Svg) -> Vec<usize> {
        let mut crowded = Vec::new();
        for (number, cut) in self.cuts().into_iter().enumerate() {
            let number = self.story.messages.len() + number;
            let Some(spot) = space.place(number, &cut.label, cut.spots()) else { continue };
            if spot.is_poor() {
                crowded.push(cut.row + 1);
            }
            let end = spot.mark.map_or(cut.from, |mark| mark.middle());
            let start = along(cut.from, end, BADGE);
            self.svg.line("lost", start, end);
            self.svg.cross("end lost", end, MARK);
            space.draw(number, &[start, end]);
            labels.text("label lost", base(spot.at), &cut.label);
        }
        crowded
    }

    /// What each stop kept from leaving.
    fn cuts(&self) -> Vec<Cut> {
        let mut cuts: Vec<Cut> = Vec::new();
        for message in self.story.messages.iter().filter(|m| m.fate == Fate::NeverLeft) {
            let side = if message.to > message.from { 1.0 } else { -1.0 };
            match cuts.last_mut() {
                Some(cut) if (cut.row, cut.side) == (message.sent, side) => {
                    cut.label += &format!(", {}", message.to);
                }
                _ => cuts.push(Cut {
                    row: message.sent,
                    from: (self.layout.lane(message.from), self.layout.rows[message.sent]),
                    side,
                    label: format!("{} to {}", name(message.kind), message.to),
                }),
            }
        }
        cuts
    }
}

impl Cut {
    /// Where its label can stand: beside the end of a short line down to this side or to the
    /// other, or below that end.
    fn spots(&self) -> Vec<Spot> {
        let half = width("label", &self.label) / 2.0;
        let sides = [(self.side, 0.0), (-self.side, 8.0)];
        let spots = sides.map(|(side, cost)| {
            let end = (self.from.0 + side * 22.0, self.from.1 + 26.0);
            let mark = Some(Rect::around(end, 2.0 * MARK, 2.0 * MARK));
            let spots = [
                ((end.0 + side * (BESIDE + half), end.1), 0.0),
                ((end.0 + side * (half - BESIDE), end.1 + LINE), 4.0),
                ((end.0, end.1 + LINE), 6.0),
            ];
            spots.map(|(at, more)| Spot { at, cost: cost + more, mark })
        });
        spots.into_iter().flatten().collect()
    }
}
