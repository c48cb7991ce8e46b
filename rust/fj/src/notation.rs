//! Journals as text: a line for each event, after a first line with the number of sites.

use crate::grounds::sentence;
use crate::input::LIMIT;
use crate::place::Error;
use crate::words::{advice, fields, number, quoted, words, wrong_field, Fields};
use fjadrimor::Refusal;

/// The bytes of a record.
const RECORD: usize = 9;

/// What is said where a journal has more than is read of it.
pub const FULL: &str = "a journal is read up to 65,536 bytes, which hold 7,281 events";

/// The text's title: its first line, where that is a comment.
pub fn title(text: &str) -> Option<&str> {
    let first = text.lines().map(bare).find(|line| !line.is_empty())?;
    first.strip_prefix('#').map(str::trim).filter(|title| !title.is_empty())
}

fn bare(line: &str) -> &str {
    line.trim_start_matches('\u{feff}').trim()
}

/// The lines of a text that say something, each with its number, in lower case and without comment.
pub fn statements(text: &str) -> impl Iterator<Item = (usize, String)> + '_ {
    (1..).zip(text.lines()).filter_map(|(number, line)| {
        let said = bare(line).split('#').next().unwrap_or_default().trim_end();
        (!said.is_empty()).then(|| (number, said.to_ascii_lowercase()))
    })
}

/// The bytes of a journal as text, or the first line that is wrong and why. A text that says nothing
/// is wrong as a whole.
pub fn assemble(text: &str) -> Result<Vec<u8>, Error> {
    let mut journal = Vec::new();
    for (line, said) in statements(text) {
        statement(&said, &mut journal).map_err(|reason| Error { line, reason })?;
    }
    match journal.is_empty() {
        true => Err(Error { line: 0, reason: "the number of sites is missing".to_string() }),
        false => Ok(journal),
    }
}

/// The line of a journal as text that gives a byte; 0 where none does.
pub fn line_of(text: &str, byte: usize) -> usize {
    let mut journal = Vec::new();
    let mut gives = |said: &str| statement(said, &mut journal).is_ok() && journal.len() > byte;
    statements(text).find(|(_, said)| gives(said)).map_or(0, |(line, _)| line)
}

/// What is said of a number of sites that no run has.
pub fn no_number_of_sites(word: &str) -> String {
    format!("{word} is not a number of sites: 2 to 8")
}

/// Adds the bytes of one line.
fn statement(said: &str, journal: &mut Vec<u8>) -> Result<(), String> {
    let said: Vec<&str> = said.split_whitespace().collect();
    match said[..] {
        ["sites", n] if journal.is_empty() => {
            journal.push(number(n).ok_or_else(|| no_number_of_sites(&quoted(n)))?);
        }
        ["sites", _] => return Err("the number of sites has been said already".to_string()),
        _ if journal.is_empty() => {
            return Err("the number of sites comes first, such as: sites 3".to_string())
        }
        ["bytes", ref bytes @ ..] => {
            for byte in bytes {
                journal.push(hexadecimal(byte)?);
            }
        }
        ["repeat", times, ref event @ ..] if !event.is_empty() => {
            let record = record(event)?;
            let times = repeats(times, journal.len())?;
            journal.extend(record.repeat(times));
        }
        _ => journal.extend(record(&said)?),
    }
    Ok(())
}

/// How often a line is repeated: no more often than there is room for after so many bytes.
fn repeats(times: &str, length: usize) -> Result<usize, String> {
    if !times.bytes().all(|digit| digit.is_ascii_digit()) {
        return Err(format!("{} is not a number of times", quoted(times)));
    }
    let room = LIMIT.saturating_sub(length) / RECORD;
    let fitting = times.parse().ok().filter(|times| *times <= room);
    fitting.ok_or(format!("{} times is more than the {room} that fit: {FULL}", quoted(times)))
}

fn hexadecimal(word: &str) -> Result<u8, String> {
    let digits = word.len() == 2 && word.bytes().all(|digit| digit.is_ascii_hexdigit());
    u8::from_str_radix(word, 16)
        .ok()
        .filter(|_| digits)
        .ok_or(format!("{} is not a byte: two hexadecimal digits", quoted(word)))
}

/// The record of an event in words, as the library writes it.
fn record(event: &[&str]) -> Result<[u8; RECORD], String> {
    let fields = fields(event)?;
    let [k, s, o, m, v, x] = fields;
    let mut room = [0; RECORD];
    match fjadrimor::calls::record_write(k, s, o, m, v, x, &mut room, 0) {
        0 => Ok(room),
        ground => {
            let general = || format!("{}; {}", sentence(ground), advice(event));
            Err(format!("refused {ground}: {}", wrong_field(fields).unwrap_or_else(general)))
        }
    }
}

/// The fields of the record at a place from 1 on, as the library reads it, or its ground.
pub fn record_at(journal: &[u8], place: usize) -> Result<Fields, u8> {
    let mut fields = [0; 6];
    match fjadrimor::calls::record_read(journal, start(place), &mut fields) {
        0 => Ok(fields),
        ground => Err(ground),
    }
}

/// Where the record at a place from 1 on starts: after the number of sites and the records before.
pub fn start(place: usize) -> usize {
    1 + RECORD * (place - 1)
}

/// Why a record is bad, in a journal of which there may be more bytes than are read.
pub fn why_bad(ground: u8, is_longer: bool) -> String {
    let is_cut = is_longer && ground == Refusal::TooShort.number();
    format!("{}; no more is read", if is_cut { FULL } else { sentence(ground) })
}

/// A journal's bytes as text. From a bad record on, where nothing is read, its bytes are shown.
pub fn show(journal: &[u8], is_longer: bool) -> String {
    let Some(n) = journal.first() else {
        return "# no bytes: the number of sites is missing\n".to_string();
    };
    let mut text = format!("sites {n}\n");
    for place in 1.. {
        let rest = journal.get(start(place)..).unwrap_or_default();
        if rest.is_empty() {
            break;
        }
        match record_at(journal, place) {
            Ok(fields) => text += &format!("{}\n", words(fields)),
            Err(ground) => {
                text += &format!("# bad {ground}: {}\n", why_bad(ground, is_longer));
                rest.chunks(RECORD).for_each(|bytes| text += &bytes_line(bytes));
                break;
            }
        }
    }
    text
}

fn bytes_line(bytes: &[u8]) -> String {
    let digits: String = bytes.iter().map(|byte| format!(" {byte:02x}")).collect();
    format!("bytes{digits}\n")
}
