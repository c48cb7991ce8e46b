//! How many sites obey in the sheets that are compared, and two wrong tolerances, which must be caught.

use crate::inputs::obeying::{obeyed_by, sets};
use crate::inputs::sheets::any_case;
use crate::inputs::Random;
use crate::sheet::{compare, obeying_in, Judging, Obeying, OUT};
use second::report::{sheet_judge, sheet_report};
use std::collections::BTreeMap;

const SECOND: Judging = Judging { judge: sheet_judge, report: sheet_report };

/// The answer of the second program's judge, where it accepts the sheet.
fn judged(bytes: &[u8]) -> Option<[u8; OUT]> {
    let mut out = [0; OUT];
    (sheet_judge(bytes, &mut [0; 4096], &mut out) == 0).then_some(out)
}

#[test]
fn the_sites_that_are_named_obey_and_no_others() {
    for set in sets() {
        for refusing in [false, true] {
            let out = judged(&obeyed_by(&set, refusing).bytes()).expect("it is accepted");
            let blocked =
                |site: usize| (0..8).any(|state| out[14 + 6 * (8 * site + state) + 1] == 3);
            let obeying: Vec<bool> = (0..set.len()).map(|site| !blocked(site)).collect();
            assert_eq!((&obeying, out[0] as usize), (&set, set.len()), "refusing {refusing}");
        }
    }
}

/// Sheets of every sort meet each number without being made for it.
#[test]
fn every_number_is_met_at_random() {
    let mut random = Random::new(12);
    let mut met: BTreeMap<Obeying, u64> = BTreeMap::new();
    for _ in 0..1000 {
        if let Some(out) = judged(&any_case(&mut random).bytes) {
            *met.entry(obeying_in(&out)).or_default() += 1;
        }
    }
    assert_eq!(met.len(), 3 + 4 + 5, "{met:?}");
    assert!(met.values().all(|&count| count >= 3), "{met:?}");
}

/// 01's rule in the answer: one less than any count.
fn less_one(bytes: &[u8], words: &mut [u64], out: &mut [u8]) -> u8 {
    let ground = sheet_judge(bytes, words, out);
    if ground == 0 {
        out[7] = obeying_in(out).1.saturating_sub(1) as u8;
    }
    ground
}

/// A report that tells the answer's 0 for a tolerance that is not stated.
fn told_as_number(bytes: &[u8], words: &mut [u64], text: &mut [u8]) -> usize {
    let length = sheet_report(bytes, words, text);
    let told = String::from_utf8_lossy(&text[..length]).replace("not stated", "0");
    text[..told.len()].copy_from_slice(told.as_bytes());
    told.len()
}

/// The answer is wrong where two sites obey, and the report where fewer than three do.
#[test]
fn wrong_tolerances_are_caught() {
    assert!(compare(Judging { judge: less_one, ..SECOND }, SECOND, 0).differ > 0);
    assert!(compare(Judging { report: told_as_number, ..SECOND }, SECOND, 0).differ > 0);
}
