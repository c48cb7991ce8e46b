//! About how wide a text is in a picture, and texts in lines of a width.

/// The widths of the characters from space to tilde in Helvetica, in thousandths of their size.
const WIDTHS: [u16; 95] = [
    278, 278, 355, 556, 556, 889, 667, 191, 333, 333, 389, 584, 278, 333, 278, 278, 556, 556, 556,
    556, 556, 556, 556, 556, 556, 556, 278, 278, 584, 584, 584, 556, 1015, 667, 667, 722, 722, 667,
    611, 778, 722, 278, 500, 667, 556, 833, 722, 778, 667, 778, 722, 667, 611, 722, 667, 944, 667,
    667, 611, 278, 278, 278, 469, 556, 333, 556, 556, 500, 556, 556, 278, 556, 556, 222, 222, 500,
    222, 833, 556, 556, 556, 556, 333, 500, 278, 556, 500, 722, 500, 500, 500, 334, 260, 334, 584,
];
const WIDEST: u16 = 1015;

/// How much wider a text may come out: in bold letters, or in another font without serifs.
const ALLOWANCE: f64 = 1.15;

/// The width of a text in letters of a size, on the wide side of the usual fonts without serifs.
pub fn width(text: &str, size: f64) -> f64 {
    let of = |letter: char| {
        let place = (letter as usize).checked_sub(' ' as usize);
        f64::from(*place.and_then(|place| WIDTHS.get(place)).unwrap_or(&WIDEST))
    };
    text.chars().map(of).sum::<f64>() / 1000.0 * size * ALLOWANCE
}

/// Words in lines of at most a width; a word that is wider has a line of its own.
pub fn lines<'a>(words: impl Iterator<Item = &'a str>, size: f64, most: f64) -> Vec<String> {
    let mut lines: Vec<String> = Vec::new();
    for word in words {
        match lines.last_mut() {
            Some(line) if width(line, size) + width(" ", size) + width(word, size) <= most => {
                *line += &format!(" {word}");
            }
            _ => lines.push(word.to_string()),
        }
    }
    lines
}

/// A word in pieces of at most a width.
pub fn pieces(word: &str, size: f64, most: f64) -> Vec<&str> {
    let (mut pieces, mut rest) = (Vec::new(), word);
    while width(rest, size) > most {
        let ends = rest.char_indices().map(|(at, letter)| at + letter.len_utf8());
        let fits = ends.take_while(|&end| width(&rest[..end], size) <= most).last();
        let one = rest.chars().next().map_or(0, char::len_utf8);
        let (piece, left) = rest.split_at(fits.unwrap_or(one));
        pieces.push(piece);
        rest = left;
    }
    pieces.push(rest);
    pieces
}
