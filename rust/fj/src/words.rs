//! An event in words, such as `deliver 2 start from 1 yes`, and the six fields of its record.

/// K, S, O, M, V and X of an event record.
pub type Fields = [u8; 6];

const MESSAGES: [&str; 8] = ["start", "yes", "no", "move-p", "move-w", "ack", "commit", "abort"];

/// The characters of a text that are told of it.
const QUOTED: usize = 60;

/// How the lines that begin with a word are written.
const FORMS: [(&str, &str); 9] = [
    ("sites", "sites 3"),
    ("begin", "begin 1 yes"),
    ("deliver", "deliver 2 start from 1 yes, or deliver 1 yes from 2"),
    ("notice", "notice 2 of 1"),
    ("take", "take over 2"),
    ("conclude", "conclude 1"),
    ("stop", "stop 3, or stop 1 during conclude leaving 2 3"),
    ("repeat", "repeat 10 conclude 1"),
    ("bytes", "bytes 00 07 02"),
];

/// The name of a message, as it is written in the notation.
pub fn message(kind: u8) -> &'static str {
    usize::from(kind).checked_sub(1).and_then(|place| MESSAGES.get(place)).unwrap_or(&"message")
}

/// The sites of a set, in which site j has weight 2^(j-1).
pub fn members(set: u8) -> impl Iterator<Item = u8> {
    (1..=8).filter(move |site| set >> (site - 1) & 1 == 1)
}

/// What to write instead of a line that is not understood.
pub fn advice(words: &[&str]) -> String {
    match FORMS.iter().find(|(first, _)| words.first() == Some(first)) {
        Some((_, form)) => format!("write it as: {form}"),
        None => "a line begins with sites, begin, deliver, notice, take over, conclude, stop, \
                 repeat or bytes"
            .to_string(),
    }
}

/// An event of these fields in words. Fields that no record has give no words that can be read.
pub fn words([k, s, o, m, v, x]: Fields) -> String {
    let (verb, rest) = step_words(k & 15, o, m, v);
    match k {
        1..=5 => format!("{verb} {s}{rest}"),
        6 => format!("stop {s}"),
        _ if x == 0 => format!("stop {s} during {verb}{rest} leaving none"),
        _ => {
            let leaving: String = members(x).map(|site| format!(" {site}")).collect();
            format!("stop {s} during {verb}{rest} leaving{leaving}")
        }
    }
}

/// A step's verb, and what follows the place where the site stands.
fn step_words(k: u8, o: u8, m: u8, v: u8) -> (&'static str, String) {
    let vote = if v == 1 { "yes" } else { "no" };
    match k {
        1 => ("begin", format!(" {vote}")),
        2 if m == 1 => ("deliver", format!(" start from {o} {vote}")),
        2 => ("deliver", format!(" {} from {o}", message(m))),
        3 => ("notice", format!(" of {o}")),
        4 => ("take over", String::new()),
        _ => ("conclude", String::new()),
    }
}

/// The fields of an event in words. Whether a record may have them, the library decides.
pub fn fields(words: &[&str]) -> Result<Fields, String> {
    match *words {
        ["stop", s] => Ok([6, site(s)?, 0, 0, 0, 0]),
        ["stop", s, "during", ref rest @ ..] => {
            let end = rest.iter().position(|word| *word == "leaving").unwrap_or(rest.len());
            let [k, o, m, v] = step_fields(&rest[..end], words)?;
            let leaving = rest.get(end + 1..).unwrap_or(&["none"]);
            Ok([16 + k, site(s)?, o, m, v, set(leaving)?])
        }
        ["take", "over", s, ref rest @ ..] => plain_fields("take over", s, rest, words),
        [verb, s, ref rest @ ..] => plain_fields(verb, s, rest, words),
        _ => Err(unclear(words)),
    }
}

/// The fields of a step in which the site follows the verb.
fn plain_fields(verb: &str, s: &str, rest: &[&str], event: &[&str]) -> Result<Fields, String> {
    let step: Vec<&str> = verb.split(' ').chain(rest.iter().copied()).collect();
    let [k, o, m, v] = step_fields(&step, event)?;
    Ok([k, site(s)?, o, m, v, 0])
}

/// K, O, M and V of a step of an event, with the site left out.
fn step_fields(step: &[&str], event: &[&str]) -> Result<[u8; 4], String> {
    match *step {
        ["begin", v] => Ok([1, 0, 0, vote(v)?]),
        ["deliver", m, "from", o] => Ok([2, site(o)?, kind(m)?, 0]),
        ["deliver", m, "from", o, v] => Ok([2, site(o)?, kind(m)?, vote(v)?]),
        ["notice", "of", o] => Ok([3, site(o)?, 0, 0]),
        ["take", "over"] => Ok([4, 0, 0, 0]),
        ["conclude"] => Ok([5, 0, 0, 0]),
        _ => Err(unclear(event)),
    }
}

fn unclear(event: &[&str]) -> String {
    format!("{} is not understood; {}", quoted(&event.join(" ")), advice(event))
}

/// A part of a text as it is told, cut where it is too long for a line.
pub fn quoted(text: &str) -> String {
    let cut = if text.chars().count() > QUOTED { ".." } else { "" };
    let shown: String = text.chars().take(QUOTED).collect();
    format!("`{}{cut}`", shown.replace(char::is_control, "\u{fffd}"))
}

/// Why no record has the fields of an event in words, where the library has refused them.
pub fn wrong_field([k, s, o, m, v, x]: Fields) -> Option<String> {
    let named = if matches!(k & 15, 2 | 3) { o } else { s };
    if let Some(other) = [s, named].into_iter().find(|site| !(1..=8).contains(site)) {
        return Some(no_site(&other.to_string()));
    }
    match (m, v) {
        (1, 0) => {
            let event = words([k, s, o, m, 1, x]);
            Some(format!("a start comes with the vote of site {s}; write it as: {event}"))
        }
        (2.., 1..) => {
            let event = words([k, s, o, m, 0, x]);
            Some(format!("only a start comes with a vote; write it as: {event}"))
        }
        _ => None,
    }
}

fn no_site(word: &str) -> String {
    format!("{word} is not a site: a number from 1 to 8")
}

/// A number of one byte, if a word is one.
pub fn number(word: &str) -> Option<u8> {
    word.parse().ok().filter(|_| word.bytes().all(|byte| byte.is_ascii_digit()))
}

/// A site as a record's byte has it. Whether a record may have it, the library decides.
fn site(word: &str) -> Result<u8, String> {
    number(word).ok_or_else(|| no_site(&quoted(word)))
}

fn vote(word: &str) -> Result<u8, String> {
    match word {
        "yes" => Ok(1),
        "no" => Ok(2),
        _ => Err(format!("{} is not a vote: yes or no", quoted(word))),
    }
}

fn kind(word: &str) -> Result<u8, String> {
    let place = MESSAGES.iter().position(|name| *name == word);
    let place = place.ok_or_else(|| {
        format!("{} is not a message; messages are {}", quoted(word), MESSAGES.join(", "))
    })?;
    Ok(place as u8 + 1)
}

/// The set of the sites named after `leaving`.
fn set(words: &[&str]) -> Result<u8, String> {
    match *words {
        [] => Err("after leaving come sites, or none".to_string()),
        ["none"] => Ok(0),
        _ => words.iter().try_fold(0, |set, word| match site(word)? {
            site @ 1..=8 => Ok(set | 1 << (site - 1)),
            other => Err(no_site(&other.to_string())),
        }),
    }
}
