//! No text of a chart lies over another or over the picture's edge, and no label over the arrow of
//! another message: read off the finished pictures, with the sizes of letters from their style.

use super::geometry::{crosses, Point, Rect};
use super::tests::wandering;
use super::{chart, STYLE};
use crate::letters;
use crate::notation::{assemble, title};
use crate::tests::chance;
use crate::words::Fields;

/// A text of a picture: its class, its words and the room that it takes.
struct Text {
    class: String,
    words: String,
    room: Rect,
}

/// The value of a property that the style gives to a class.
fn style(class: &str, property: &str) -> Option<String> {
    let rules = STYLE.split('}').filter_map(|rule| rule.split_once('{'));
    let of_class = |rule: &(&str, &str)| {
        rule.0.split(',').any(|selector| selector.trim() == format!(".{class}"))
    };
    rules.filter(of_class).find_map(|(_, body)| {
        let mut given = body.split(';').filter_map(|one| one.split_once(':'));
        given.find(|(name, _)| name.trim() == property).map(|(_, value)| value.trim().to_string())
    })
}

/// The value of an attribute in an element.
fn attribute<'a>(element: &'a str, name: &str) -> &'a str {
    let (_, rest) = element.split_once(&format!(" {name}=\"")).expect(name);
    rest.split('"').next().expect("a value")
}

fn number(element: &str, name: &str) -> f64 {
    attribute(element, name).parse().expect("a number")
}

fn texts(svg: &str) -> Vec<Text> {
    let elements = svg.lines().filter(|line| line.starts_with("<text "));
    elements
        .map(|element| {
            let class = attribute(element, "class").to_string();
            let kind = class.split(' ').next().expect("a class");
            let size = style(kind, "font-size")
                .map_or(13.0, |size| size.trim_end_matches("px").parse().expect("a size"));
            let (_, words) = element.split_once('>').expect("a text");
            let words =
                words.trim_end_matches("</text>").replace("&lt;", "<").replace("&amp;", "&");
            let width = letters::width(&words, size);
            let left = number(element, "x")
                - match style(kind, "text-anchor").as_deref() {
                    Some("middle") => width / 2.0,
                    Some("end") => width,
                    _ => 0.0,
                };
            let y = number(element, "y");
            let room =
                Rect { left, top: y - 0.8 * size, right: left + width, bottom: y + 0.25 * size };
            Text { class, words, room }
        })
        .collect()
}

/// The arrows of a picture in the order of their messages, each as short straight lines.
fn arrows(svg: &str) -> Vec<Vec<Point>> {
    let paths = svg.lines().filter(|line| line.starts_with("<path "));
    let numbers = |path: &str| -> Vec<f64> {
        let path = attribute(path, "d").replace(['M', 'C'], " ");
        path.split_whitespace().map(|number| number.parse().expect("a number")).collect()
    };
    let between = |ends: [f64; 4], part: f64| {
        let rest = 1.0 - part;
        let weights = [
            rest * rest * rest,
            3.0 * rest * rest * part,
            3.0 * rest * part * part,
            part * part * part,
        ];
        ends.iter().zip(weights).map(|(end, weight)| end * weight).sum::<f64>()
    };
    paths
        .map(|path| {
            let n = numbers(path);
            let mut points = vec![(n[0], n[1])];
            for bend in (2..n.len()).step_by(6) {
                let from = points[points.len() - 1];
                points.extend((1..=20).map(|step| {
                    let part = f64::from(step) / 20.0;
                    let x = between([from.0, n[bend], n[bend + 2], n[bend + 4]], part);
                    (x, between([from.1, n[bend + 1], n[bend + 3], n[bend + 5]], part))
                }));
            }
            points
        })
        .collect()
}

/// Pairs of texts that overlap, and texts that the edge cuts off.
fn faults(svg: &str) -> Vec<String> {
    let mut texts = texts(svg);
    let size =
        Rect { left: 0.0, top: 0.0, right: number(svg, "width"), bottom: number(svg, "height") };
    let outside = texts.iter().filter(|text| !text.room.within(&size));
    let mut faults: Vec<String> =
        outside.map(|text| format!("{} is cut off", text.words)).collect();
    texts.sort_by(|a, b| a.room.top.total_cmp(&b.room.top));
    for (place, text) in texts.iter().enumerate() {
        let near = texts[place + 1..].iter().take_while(|other| other.room.top < text.room.bottom);
        let over = near.filter(|other| other.room.overlaps(&text.room));
        faults.extend(over.map(|other| format!("{} and {} overlap", text.words, other.words)));
    }
    faults
}

/// Labels that lie over the arrow of another message.
fn over_arrows(svg: &str) -> Vec<String> {
    let arrows = arrows(svg);
    let labels: Vec<Text> =
        texts(svg).into_iter().filter(|text| text.class.starts_with("label ")).collect();
    // What a stop cut off has its label before all others, and no arrow.
    let cuts = labels.len() - arrows.len();
    let mut over = Vec::new();
    for (place, label) in labels.iter().enumerate() {
        let others = arrows.iter().enumerate().filter(|(own, _)| own + cuts != place);
        let crossed =
            |points: &[Point]| points.windows(2).any(|pair| crosses(&label.room, pair[0], pair[1]));
        over.extend(others.filter(|(_, points)| crossed(points)).map(|_| label.words.clone()));
    }
    over
}

/// The charts of all scenarios that have one, and of a run with two dead leaders.
fn charts() -> Vec<(String, String)> {
    let folder = concat!(env!("CARGO_MANIFEST_DIR"), "/../../scenarios");
    let files = std::fs::read_dir(folder).expect("the scenarios are there");
    let files = files.map(|file| file.expect("it can be listed").path());
    let journals = files.filter(|file| file.extension().is_some_and(|end| end == "journal"));
    let mut texts: Vec<(String, String)> = journals
        .map(|file| (file.display().to_string(), std::fs::read_to_string(&file).expect("text")))
        .collect();
    texts.push(("two dead leaders".to_string(), TWO_DEAD_LEADERS.to_string()));
    let drawn = |(name, text): (String, String)| {
        Some((name, chart(&assemble(&text).ok()?, title(&text)).ok()?))
    };
    let drawn: Vec<(String, String)> = texts.into_iter().filter_map(drawn).collect();
    assert!(drawn.len() > 15, "{}", drawn.len());
    drawn
}

const TWO_DEAD_LEADERS: &str = "sites 5\nbegin 1 yes\ndeliver 2 start from 1 yes\n\
    deliver 3 start from 1 yes\ndeliver 4 start from 1 yes\ndeliver 5 start from 1 yes\n\
    deliver 1 yes from 2\ndeliver 1 yes from 3\ndeliver 1 yes from 4\ndeliver 1 yes from 5\n\
    conclude 1\ndeliver 3 move-p from 1\ndeliver 2 move-p from 1\nstop 1\nnotice 2 of 1\n\
    notice 3 of 1\ntake over 2\ndeliver 4 move-p from 2\nstop 2\nnotice 3 of 2\nnotice 4 of 1\n\
    notice 4 of 2\ntake over 3\ndeliver 4 move-p from 3\ndeliver 5 move-p from 3\n\
    deliver 3 ack from 4\ndeliver 3 ack from 5\nconclude 3\ndeliver 4 commit from 3\n\
    deliver 5 commit from 3\n";

#[test]
fn no_text_of_a_scenario_lies_over_another_or_over_an_arrow() {
    for (name, svg) in charts() {
        assert_eq!(faults(&svg), Vec::<String>::new(), "{name}");
        assert_eq!(over_arrows(&svg), Vec::<String>::new(), "{name}");
    }
}

/// Every event that the run of n sites may take next, but stops.
fn next_events(n: u8, run: &[u8]) -> Vec<Fields> {
    let mut events = Vec::new();
    for site in 1..=n {
        events.extend([[1, site, 0, 0, 1, 0], [4, site, 0, 0, 0, 0], [5, site, 0, 0, 0, 0]]);
        events.extend((1..=n).map(|other| [3, site, other, 0, 0, 0]));
    }
    for kind in 1..=8 {
        for (from, to) in (1..=n).flat_map(|from| (1..=n).map(move |to| (from, to))) {
            events.push([2, to, from, kind, u8::from(kind == 1), 0]);
        }
    }
    events.retain(|&event| accepted(&mut run.to_vec(), event));
    events
}

fn accepted(run: &mut [u8], [k, s, o, m, v, x]: Fields) -> bool {
    fjadrimor::calls::run_event(run, k, s, o, m, v, x, &mut [0; fjadrimor::calls::RUN_ANSWER]) == 0
}

/// A run to its end, with stops now and then, some of them inside a step.
fn busy(n: u8, seed: u64) -> Vec<u8> {
    let mut next = chance(seed);
    let mut run = vec![0; 138];
    fjadrimor::calls::run_fresh(n, &mut run);
    let mut journal = vec![n];
    loop {
        let events = next_events(n, &run);
        let Some(&event) = (!events.is_empty()).then(|| &events[next() as usize % events.len()])
        else {
            return journal;
        };
        let [k, s, o, m, v, _] = event;
        let event = match next() % 40 {
            0 => [6, s, 0, 0, 0, 0],
            1 => [k + 16, s, o, m, v, next() as u8],
            _ => event,
        };
        let [k, s, o, m, v, x] = event;
        let mut record = [0; 9];
        assert_eq!(fjadrimor::calls::record_write(k, s, o, m, v, x, &mut record, 0), 0);
        assert!(accepted(&mut run, event));
        journal.extend(record);
    }
}

/// Runs to their end, and runs in which much is refused.
#[test]
fn no_text_of_a_generated_run_lies_over_another() {
    let (mut labels, mut poor) = (0, 0);
    for seed in 0..140 {
        let n = 2 + (seed % 7) as u8;
        for journal in [busy(n, seed), wandering(n, seed)] {
            let svg = chart(&journal, None).expect("a chart");
            assert_eq!(faults(&svg), Vec::<String>::new(), "{n} sites, seed {seed}");
            labels += svg.matches("class=\"label ").count();
            poor += over_arrows(&svg).len();
        }
    }
    assert!(labels > 2000 && 100 * poor < labels, "{poor} of {labels}");
}

#[test]
fn a_long_title_is_not_cut_off() {
    let journal = assemble("sites 2\nbegin 1 yes\nbytes 00 00").expect("a journal");
    let long = ["W".repeat(300), "a title of many words ".repeat(20)].join(" ");
    let svg = chart(&journal, Some(&long)).expect("a chart");
    assert_eq!(faults(&svg), Vec::<String>::new());
    assert!(svg.matches("class=\"title\"").count() > 5);
}

#[test]
fn a_chart_that_is_too_tall_says_so() {
    let journal = |events| assemble(&format!("sites 2\nrepeat {events} conclude 1")).unwrap();
    let height = number(&chart(&journal(600), None).expect("a chart"), "height");
    assert!(height < 32_767.0, "{height}");
    let why = chart(&journal(700), None).expect_err("it is too tall");
    let (start, end) = ("a chart of 700 events would be 3", ": leave out events that are refused");
    assert!(why.starts_with(start) && why.ends_with(end), "{why}");
}
