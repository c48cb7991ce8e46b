//! Points, rectangles and lines of a picture.

/// A point, in pixels from the upper left corner.
pub type Point = (f64, f64);

/// A rectangle with its sides along the picture's.
#[derive(Clone, Copy, Debug, PartialEq)]
pub struct Rect {
    pub left: f64,
    pub top: f64,
    pub right: f64,
    pub bottom: f64,
}

impl Rect {
    pub fn around((x, y): Point, width: f64, height: f64) -> Rect {
        let (half, tall) = (width / 2.0, height / 2.0);
        Rect { left: x - half, top: y - tall, right: x + half, bottom: y + tall }
    }

    pub fn middle(&self) -> Point {
        ((self.left + self.right) / 2.0, (self.top + self.bottom) / 2.0)
    }

    pub fn overlaps(&self, other: &Rect) -> bool {
        let across = self.left < other.right && other.left < self.right;
        across && self.top < other.bottom && other.top < self.bottom
    }

    pub fn within(&self, other: &Rect) -> bool {
        let across = self.left >= other.left && self.right <= other.right;
        across && self.top >= other.top && self.bottom <= other.bottom
    }
}

/// The way from a point to another, of length 1.
pub fn direction(from: Point, to: Point) -> Point {
    let (dx, dy) = (to.0 - from.0, to.1 - from.1);
    let length = dx.hypot(dy).max(1e-9);
    (dx / length, dy / length)
}

/// The point that lies so far from the first on the way to the second.
pub fn along(from: Point, to: Point, far: f64) -> Point {
    let (dx, dy) = direction(from, to);
    (from.0 + far * dx, from.1 + far * dy)
}

/// The cubic curves of a smooth line through points: the ends of each, and what it leans to.
pub fn bends(points: &[Point]) -> impl Iterator<Item = [Point; 4]> + '_ {
    let at = |place: usize| points[place.min(points.len() - 1)];
    (1..points.len()).map(move |place| {
        // A sixth of the way between its neighbours is the slope at a point (Catmull and Rom).
        let (before, from, to, after) =
            (at(place.saturating_sub(2)), at(place - 1), at(place), at(place + 1));
        let leave = (from.0 + (to.0 - before.0) / 6.0, from.1 + (to.1 - before.1) / 6.0);
        let reach = (to.0 - (after.0 - from.0) / 6.0, to.1 - (after.1 - from.1) / 6.0);
        [from, leave, reach, to]
    })
}

/// The same smooth line as short straight ones.
pub fn straightened(points: &[Point]) -> Vec<Point> {
    const STEPS: usize = 8;
    if points.len() == 2 {
        return points.to_vec();
    }
    let between = |[a, b, c, d]: [Point; 4], part: f64| {
        let rest = 1.0 - part;
        let mix = |a: f64, b: f64, c: f64, d: f64| {
            let (early, late) = (rest * rest * (rest * a + 3.0 * part * b), part * part);
            early + late * (3.0 * rest * c + part * d)
        };
        (mix(a.0, b.0, c.0, d.0), mix(a.1, b.1, c.1, d.1))
    };
    let parts = |bend| (1..=STEPS).map(move |step| between(bend, step as f64 / STEPS as f64));
    points[..1].iter().copied().chain(bends(points).flat_map(parts)).collect()
}

/// Whether a straight line between two points runs through a rectangle.
pub fn crosses(rect: &Rect, from: Point, to: Point) -> bool {
    // The part of the line that is left, cut at each side.
    let (mut start, mut end) = (0.0, 1.0);
    let sides = [(from.0, to.0, rect.left, rect.right), (from.1, to.1, rect.top, rect.bottom)];
    for (from, to, low, high) in sides {
        if from == to {
            if from <= low || from >= high {
                return false;
            }
            continue;
        }
        let (one, other) = ((low - from) / (to - from), (high - from) / (to - from));
        start = f64::max(start, one.min(other));
        end = f64::min(end, one.max(other));
    }
    start < end
}
