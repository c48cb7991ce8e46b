//! The few elements of SVG that the drawings use.

/// A text with what SVG reserves written out.
pub fn escaped(text: &str) -> String {
    text.replace('&', "&amp;").replace('<', "&lt;").replace('>', "&gt;")
}

/// A text in a class, whose base line starts, centres or ends at a point.
pub fn text(x: f64, y: f64, anchor: &str, class: &str, content: &str) -> String {
    format!(
        "<text x=\"{x:.1}\" y=\"{y:.1}\" text-anchor=\"{anchor}\" class=\"{class}\">{}</text>\n",
        escaped(content)
    )
}

/// A rectangle around a middle, with rounded corners.
pub fn block(x: f64, y: f64, width: f64, height: f64, corner: f64, class: &str) -> String {
    format!(
        "<rect x=\"{:.1}\" y=\"{:.1}\" width=\"{width:.1}\" height=\"{height:.1}\" rx=\"{corner:.1}\" class=\"{class}\"/>\n",
        x - width / 2.0,
        y - height / 2.0,
    )
}

pub fn line(x1: f64, y1: f64, x2: f64, y2: f64, class: &str) -> String {
    format!(
        "<line x1=\"{x1:.1}\" y1=\"{y1:.1}\" x2=\"{x2:.1}\" y2=\"{y2:.1}\" class=\"{class}\"/>\n"
    )
}

/// A group, moved.
pub fn moved(x: f64, y: f64, content: &str) -> String {
    format!("<g transform=\"translate({x:.1} {y:.1})\">\n{content}</g>\n")
}
