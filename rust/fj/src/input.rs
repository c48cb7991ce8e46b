//! Files as they are read: text or bytes, up to a limit and no further.

use std::ffi::OsStr;
use std::fs::File;
use std::io::{self, Read};

/// The bytes that are taken of a journal or a sheet.
pub const LIMIT: usize = 65_536;

/// The bytes that are taken of a text. It says the same at greater length, and has comments.
const TEXT: usize = 1 << 20;

/// What a file holds, with its name as it is told.
pub struct Input {
    pub name: String,
    pub content: Content,
}

/// Text or bytes.
pub enum Content {
    /// A text, without the byte order mark that may stand before it.
    Text(String),
    /// The first bytes, and whether more follow than are taken.
    Bytes(Vec<u8>, bool),
}

/// Reads a file; `-` is standard input. Text is told from bytes, unless it is to be bytes.
pub fn read(file: &OsStr, as_bytes: bool) -> Result<Input, String> {
    let name = match file == "-" {
        true => "standard input".to_string(),
        false => file.to_string_lossy().into_owned(),
    };
    let start = match file == "-" {
        true => start_of(io::stdin().lock(), as_bytes),
        false => File::open(file).and_then(|file| start_of(file, as_bytes)),
    };
    let bytes = start.map_err(|why| format!("{name}: {why}"))?;
    if as_bytes || !is_text(&bytes) {
        return Ok(Input { name, content: cut(bytes) });
    }
    if bytes.len() > TEXT {
        return Err(format!("{name}: a text is read up to 1,048,576 bytes, and this has more"));
    }
    let text = String::from_utf8_lossy(&bytes);
    let text = text.strip_prefix('\u{feff}').unwrap_or(&text).to_string();
    Ok(Input { name, content: Content::Text(text) })
}

/// The start of what can be read: one byte more than is taken, to know whether there are more.
fn start_of(mut source: impl Read, as_bytes: bool) -> io::Result<Vec<u8>> {
    let mut bytes = Vec::new();
    source.by_ref().take(LIMIT as u64 + 1).read_to_end(&mut bytes)?;
    if !as_bytes && is_text(&bytes) {
        source.take((TEXT - LIMIT) as u64).read_to_end(&mut bytes)?;
    }
    Ok(bytes)
}

/// Bytes up to the limit.
fn cut(mut bytes: Vec<u8>) -> Content {
    let is_longer = bytes.len() > LIMIT;
    bytes.truncate(LIMIT);
    Content::Bytes(bytes, is_longer)
}

/// Whether a file is text. A journal in bytes begins with a number of sites from 2 to 8, and a
/// sheet has its version 1: these are control characters, which no text has.
pub fn is_text(file: &[u8]) -> bool {
    !file.iter().any(is_control)
}

fn is_control(byte: &u8) -> bool {
    byte.is_ascii_control() && !byte.is_ascii_whitespace()
}

/// Why a file was taken as bytes: the first byte that no text has, with its line.
pub fn no_text(file: &[u8]) -> Option<(usize, u8)> {
    let place = file.iter().position(is_control)?;
    let line = 1 + file[..place].iter().filter(|byte| **byte == b'\n').count();
    Some((line, file[place]))
}
