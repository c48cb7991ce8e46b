//! Compares what an executable writes with what the second program writes.

use crate::inputs::journals::Journals;
use crate::inputs::sheets::any_case;
use crate::inputs::Random;
use crate::tally::Tally;
use std::io::{self, Write};
use std::process::{Command, Stdio};

/// Runs an executable on these bytes and hands back what it writes. It need not read them all.
pub fn output(path: &str, input: &[u8]) -> io::Result<Vec<u8>> {
    let mut child = Command::new(path).stdin(Stdio::piped()).stdout(Stdio::piped()).spawn()?;
    let mut stdin = child.stdin.take().expect("the input is piped");
    std::thread::scope(|scope| {
        scope.spawn(move || stdin.write_all(input));
        child.wait_with_output().map(|output| output.stdout)
    })
}

/// Compares an executable with a text on `count` inputs.
fn compare(
    path: &str,
    count: u64,
    text: fn(&[u8]) -> String,
    mut input: impl FnMut() -> Vec<u8>,
) -> io::Result<Tally> {
    let mut tally = Tally::default();
    for _ in 0..count {
        let input = input();
        let printed = String::from_utf8_lossy(&output(path, &input)?).into_owned();
        tally.note(&printed, &text(&input), || format!("input {input:?}"));
    }
    Ok(tally)
}

/// The rehearsal program on journals of every sort.
pub fn rehearsal(path: &str, count: u64) -> io::Result<Tally> {
    let journals = Journals::default();
    let mut random = Random::new(5);
    compare(path, count, second::rehearsal::rehearse, || journals.any(&mut random))
}

/// The sheet program on sheets of every sort, some of them longer than it takes.
pub fn sheets(path: &str, count: u64) -> io::Result<Tally> {
    let mut random = Random::new(9);
    let mut known = crate::sheet::known(&mut random).into_iter();
    let input = || match known.next() {
        Some(case) => case.bytes,
        None => any_case(&mut random).bytes,
    };
    compare(path, count, second::report::sheets, input)
}
