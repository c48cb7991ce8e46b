//! Where labels stand: near the ends of their arrows, clear of every other text and mark, and as
//! far as can be of other arrows and of the sites' lines.

use super::geometry::{crosses, direction, Point, Rect};
use super::svg::text_box;

/// A place where a label can stand: the middle of its text, what speaks against it, and the room
/// that a mark needs beside it.
#[derive(Clone, Copy)]
pub struct Spot {
    pub at: Point,
    pub cost: f64,
    pub mark: Option<Rect>,
}

impl Spot {
    /// Whether so much speaks against it that it is worth making room for a better one.
    pub fn is_poor(&self) -> bool {
        self.cost >= OVER_ARROW
    }
}

/// What a chart has already. Lines carry the number of their message.
pub struct Space {
    bounds: Rect,
    lanes: Vec<f64>,
    taken: Bands<Rect>,
    lines: Bands<(usize, Point, Point)>,
}

/// Things by their heights, so that only what is near is looked at.
struct Bands<T>(Vec<Vec<T>>);

const BAND: f64 = 32.0;
/// What is kept clear around a label.
const CLEAR: f64 = 2.0;
/// The way from the base line of a label up to its middle.
const MIDDLE: f64 = 4.0;
/// How far along its arrow the next spot is, and how much that speaks against it.
const STEP: f64 = 6.0;
const FAR: f64 = 0.4;
/// How much it speaks against a spot that it is not on the arrow, that it lies over another one, or
/// over the line of a site.
const BESIDE: f64 = 14.0;
const OVER_ARROW: f64 = 90.0;
const OVER_LANE: f64 = 40.0;
/// Half the width of a site's line.
const LANE: f64 = 2.5;
/// The length of an arrow's head, with a little of its line.
const HEAD: f64 = 13.0;

impl<T: Copy> Bands<T> {
    fn places(&self, top: f64, bottom: f64) -> std::ops::RangeInclusive<usize> {
        (top / BAND).max(0.0) as usize..=(bottom / BAND).max(0.0) as usize
    }

    fn add(&mut self, top: f64, bottom: f64, thing: T) {
        let places = self.places(top, bottom);
        self.0.resize_with(self.0.len().max(places.end() + 1), Vec::new);
        self.0[places].iter_mut().for_each(|band| band.push(thing));
    }

    /// What may be at these heights; some things more than once.
    fn near(&self, top: f64, bottom: f64) -> impl Iterator<Item = T> + '_ {
        let places = self.places(top, bottom);
        places.filter_map(|place| self.0.get(place)).flatten().copied()
    }
}

impl Space {
    pub fn new(bounds: Rect, lanes: &[f64]) -> Space {
        let (taken, lines) = (Bands(Vec::new()), Bands(Vec::new()));
        Space { bounds, lanes: lanes.to_vec(), taken, lines }
    }

    /// Takes room that no label may have.
    pub fn take(&mut self, rect: Rect) {
        self.taken.add(rect.top, rect.bottom, rect);
    }

    /// Takes in the line of a message, which goes straight between points.
    pub fn draw(&mut self, message: usize, points: &[Point]) {
        for pair in points.windows(2) {
            let (top, bottom) = (pair[0].1.min(pair[1].1), pair[0].1.max(pair[1].1));
            self.lines.add(top, bottom, (message, pair[0], pair[1]));
        }
    }

    /// The best of the spots for the label of a message, with all that speaks against it; it is
    /// then taken. Where none is free it is the first, and everything speaks against it.
    pub fn place(&mut self, message: usize, label: &str, mut spots: Vec<Spot>) -> Option<Spot> {
        spots.sort_by(|a, b| a.cost.total_cmp(&b.cost));
        let mut best = Spot { cost: f64::INFINITY, ..*spots.first()? };
        for spot in spots {
            if best.cost <= spot.cost {
                break;
            }
            let cost = self.cost(message, label, &spot);
            if let Some(cost) = cost.filter(|&cost| cost < best.cost) {
                best = Spot { cost, ..spot };
            }
        }
        self.take(label_box(label, best.at));
        best.mark.into_iter().for_each(|mark| self.take(mark));
        Some(best)
    }

    /// What speaks against a spot, where it is free.
    fn cost(&self, message: usize, label: &str, spot: &Spot) -> Option<f64> {
        let rect = wider(label_box(label, spot.at));
        let rooms = || [rect].into_iter().chain(spot.mark);
        let taken = |room: &Rect| self.taken.near(room.top, room.bottom).any(|t| t.overlaps(room));
        if rooms().any(|room| taken(&room) || !room.within(&self.bounds)) {
            return None;
        }
        let lines = self.lines.near(rect.top, rect.bottom);
        let lines = lines.filter(|line| line.0 != message && crosses(&rect, line.1, line.2));
        let mut over: Vec<usize> = lines.map(|line| line.0).collect();
        over.sort_unstable();
        over.dedup();
        let over_lane = |x: f64| rect.left < x + LANE && x - LANE < rect.right;
        let lanes = self.lanes.iter().filter(|&&x| over_lane(x)).count();
        Some(spot.cost + OVER_ARROW * over.len() as f64 + OVER_LANE * lanes as f64)
    }
}

/// Where the base line of a label is whose middle is at a place.
pub fn base((x, y): Point) -> Point {
    (x, y + MIDDLE)
}

fn label_box(label: &str, at: Point) -> Rect {
    text_box("label", base(at), label)
}

fn wider(rect: Rect) -> Rect {
    Rect {
        left: rect.left - CLEAR,
        top: rect.top - CLEAR,
        right: rect.right + CLEAR,
        bottom: rect.bottom + CLEAR,
    }
}

/// The spots along an arrow, from its end back: on its line, and on both sides of it.
pub fn along_arrow(points: &[Point], label: &str) -> Vec<Spot> {
    let rect = wider(label_box(label, (0.0, 0.0)));
    let half = ((rect.right - rect.left) / 2.0, (rect.bottom - rect.top) / 2.0);
    let ends = [points[0].0, points[points.len() - 1].0];
    let between = ends[0].min(ends[1])..ends[0].max(ends[1]);
    let mut spots = Vec::new();
    let (mut left, mut far) = (HEAD, HEAD);
    for pair in points.windows(2).rev() {
        let (from, to) = (pair[1], pair[0]);
        let length = (to.0 - from.0).hypot(to.1 - from.1);
        let (dx, dy) = direction(from, to);
        while left <= length {
            let at = (from.0 + left * dx, from.1 + left * dy);
            let cost = FAR * far;
            let covered = (half.0 / dx.abs().max(1e-9)).min(half.1 / dy.abs().max(1e-9));
            if far >= covered + HEAD {
                spots.push(Spot { at, cost, mark: None });
            }
            for side in [-1.0, 1.0] {
                let at = match dx.abs() * half.1 > dy.abs() * half.0 {
                    true => (at.0, at.1 + side * (half.1 + half.0 * (dy / dx).abs())),
                    false => (at.0 + side * (half.0 + half.1 * (dx / dy).abs()), at.1),
                };
                if between.contains(&at.0) {
                    spots.push(Spot { at, cost: cost + BESIDE, mark: None });
                }
            }
            left += STEP;
            far += STEP;
        }
        left -= length;
    }
    spots
}
