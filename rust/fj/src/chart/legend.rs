//! What the signs of a chart mean.

use super::layout::{MARGIN, WIDTH};
use super::svg::width;
use super::{badge, refusal, Svg};

/// Draws the legend from a height on: the states in one line, messages and events in the next.
pub fn legend(svg: &mut Svg, y: f64) {
    svg.line("rule", (MARGIN, y - 26.0), (WIDTH - MARGIN, y - 26.0));
    let mut x = MARGIN;
    let states =
        [('q', "first"), ('w', "wait"), ('p', "prepared"), ('c', "commit"), ('a', "abort")];
    for (letter, word) in states {
        badge(svg, &letter.to_string(), letter, (x + 10.0, y));
        x = word_after(svg, x + 26.0, y, word);
    }
    badge(svg, "gone", 'P', (x + 10.0, y));
    x = word_after(svg, x + 26.0, y, "stopped, in p");
    svg.line("life q leads", (x + 4.0, y - 9.0), (x + 4.0, y + 9.0));
    x = word_after(svg, x + 14.0, y, "leads");
    svg.cross("stop", (x + 7.0, y), 6.0);
    x = word_after(svg, x + 22.0, y, "stops");
    refusal(svg, (x + 6.0, y));
    word_after(svg, x + 18.0, y, "refused");
    messages(svg, y + 28.0);
}

fn messages(svg: &mut Svg, y: f64) {
    let mut x = MARGIN;
    for (class, word) in [("delivered", "message delivered"), ("passed", "passed over")] {
        svg.line(class, (x, y), (x + 30.0, y));
        svg.head(&format!("head {class}"), (x, y), (x + 36.0, y));
        x = word_after(svg, x + 46.0, y, word);
    }
    svg.line("lost", (x, y), (x + 30.0, y));
    svg.cross("end lost", (x + 32.0, y), 4.0);
    x = word_after(svg, x + 46.0, y, "lost, its receiver or sender having stopped");
    svg.line("open", (x, y), (x + 28.0, y));
    svg.circle("end open", (x + 32.0, y), 4.0);
    word_after(svg, x + 46.0, y, "outstanding");
}

/// Writes a word and gives the place where the next sign begins.
fn word_after(svg: &mut Svg, x: f64, y: f64, word: &str) -> f64 {
    svg.text("note", (x, y + 4.0), word);
    x + width("note", word) + 18.0
}
