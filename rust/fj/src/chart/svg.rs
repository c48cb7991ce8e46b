//! A picture as SVG text.

use super::geometry::{bends, direction, Point, Rect};
use crate::letters;

/// The size of a text's letters by its class, and the part of it that stands left of its place, as
/// the style has them.
fn letters(class: &str) -> (f64, f64) {
    match class.split(' ').next().unwrap_or_default() {
        "title" => (19.0, 0.0),
        "site" => (13.0, 0.5),
        "place" => (13.0, 1.0),
        "letter" | "mark" => (12.0, 0.5),
        "label" => (11.5, 0.5),
        "note" => (12.0, 0.0),
        _ => (13.0, 0.0),
    }
}

/// The width of a text in a class.
pub fn width(class: &str, text: &str) -> f64 {
    letters::width(text, letters(class).0)
}

/// The room that a text takes whose base line is at a place.
pub fn text_box(class: &str, (x, y): Point, text: &str) -> Rect {
    let ((size, before), width) = (letters(class), width(class, text));
    let left = x - before * width;
    Rect { left, top: y - 0.8 * size, right: left + width, bottom: y + 0.25 * size }
}

/// A text in lines of at most a width.
pub fn wrapped(class: &str, text: &str, most: f64) -> Vec<String> {
    let size = letters(class).0;
    let words = text.split_whitespace().flat_map(|word| letters::pieces(word, size, most));
    letters::lines(words, size, most)
}

/// Shapes, and the room that texts and marks among them take.
#[derive(Default)]
pub struct Svg {
    shapes: String,
    pub taken: Vec<Rect>,
}

impl Svg {
    pub fn line(&mut self, class: &str, (x1, y1): Point, (x2, y2): Point) {
        self.shapes += &format!(
            "<line class=\"{class}\" x1=\"{x1:.1}\" y1=\"{y1:.1}\" x2=\"{x2:.1}\" y2=\"{y2:.1}\"/>\n"
        );
    }

    /// A smooth line through points.
    pub fn curve(&mut self, class: &str, points: &[Point]) {
        let (x, y) = points[0];
        let mut path = format!("M{x:.1} {y:.1}");
        for [_, (ax, ay), (bx, by), (x, y)] in bends(points) {
            path += &format!("C{ax:.1} {ay:.1} {bx:.1} {by:.1} {x:.1} {y:.1}");
        }
        self.shapes += &format!("<path class=\"{class}\" d=\"{path}\"/>\n");
    }

    pub fn circle(&mut self, class: &str, (x, y): Point, radius: f64) {
        self.taken.push(Rect::around((x, y), 2.0 * radius, 2.0 * radius));
        self.shapes +=
            &format!("<circle class=\"{class}\" cx=\"{x:.1}\" cy=\"{y:.1}\" r=\"{radius:.1}\"/>\n");
    }

    pub fn text(&mut self, class: &str, (x, y): Point, text: &str) {
        self.taken.push(text_box(class, (x, y), text));
        self.shapes += &format!(
            "<text class=\"{class}\" x=\"{x:.1}\" y=\"{y:.1}\">{}</text>\n",
            escaped(text)
        );
    }

    /// Puts the shapes of another picture on top.
    pub fn append(&mut self, other: Svg) {
        self.shapes += &other.shapes;
        self.taken.extend(other.taken);
    }

    /// A cross, of two strokes.
    pub fn cross(&mut self, class: &str, (x, y): Point, size: f64) {
        self.taken.push(Rect::around((x, y), 2.0 * size, 2.0 * size));
        self.line(class, (x - size, y - size), (x + size, y + size));
        self.line(class, (x - size, y + size), (x + size, y - size));
    }

    /// The head of an arrow that comes from a point and ends at another.
    pub fn head(&mut self, class: &str, from: Point, to: Point) {
        let (dx, dy) = direction(from, to);
        let corner = |side: f64| (to.0 - 9.0 * dx - side * dy, to.1 - 9.0 * dy + side * dx);
        let ((ax, ay), (bx, by)) = (corner(3.6), corner(-3.6));
        self.shapes += &format!(
            "<polygon class=\"{class}\" points=\"{:.1},{:.1} {ax:.1},{ay:.1} {bx:.1},{by:.1}\"/>\n",
            to.0, to.1
        );
    }

    /// The whole picture, on white.
    pub fn finish(self, width: f64, height: f64, title: &str, style: &str) -> String {
        let title = escaped(title);
        format!(
            "<svg xmlns=\"http://www.w3.org/2000/svg\" viewBox=\"0 0 {width} {height}\" \
             width=\"{width}\" height=\"{height}\" role=\"img\" aria-label=\"{title}\">\n\
             <title>{title}</title>\n<style>\n{style}</style>\n\
             <rect width=\"{width}\" height=\"{height}\" fill=\"#fff\"/>\n{}</svg>\n",
            self.shapes
        )
    }
}

fn escaped(text: &str) -> String {
    let text = text.replace('&', "&amp;").replace('<', "&lt;").replace('>', "&gt;");
    text.replace('"', "&quot;")
}
