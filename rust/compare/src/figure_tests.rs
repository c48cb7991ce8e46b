//! The figures through the second program: 01's worked sheet and the numbers of states.

use crate::inputs::drafts::{product, Draft};
use crate::inputs::faults;
use crate::inputs::figures::{all, central, decentral};
use crate::inputs::Random;
use second::report::sheets;

/// 01's worked report, which the program prints too.
const TWO_PHASE: &str = include_str!("../../../crates/sheets/stdout");

/// The number of states, the verdict and the tolerance.
fn summary(draft: &Draft) -> (String, String, String) {
    let text = sheets(&draft.bytes());
    let states = text.split(' ').nth(3).unwrap_or_default().to_string();
    let mut last = text.lines().rev().map(str::to_string);
    let tolerance = last.next().unwrap_or_default();
    (states, last.next().unwrap_or_default(), tolerance)
}

#[test]
fn the_worked_sheet() {
    let bytes = central(&[false]).bytes();
    assert_eq!(bytes[..2], [0, 113]);
    assert_eq!(sheets(&bytes), TWO_PHASE);
}

#[test]
fn the_numbers_of_states() {
    let figures = [
        (central(&[false]), "9", false),
        (central(&[false; 2]), "23", false),
        (central(&[false; 3]), "63", false),
        (central(&[true]), "11", true),
        (central(&[true; 2]), "27", true),
        (central(&[true; 3]), "71", true),
        (decentral(2, false), "14", false),
        (decentral(3, false), "46", false),
        (decentral(4, false), "146", false),
        (decentral(2, true), "17", true),
        (decentral(3, true), "53", true),
    ];
    for (draft, states, nonblocking) in figures {
        let found = summary(&draft);
        assert_eq!(
            (&*found.0, found.1 == "verdict nonblocking"),
            (states, nonblocking),
            "{found:?}"
        );
    }
}

#[test]
fn the_edge_of_what_is_reachable() {
    assert_eq!(summary(&product(&[8, 8, 8, 8], false)).0, "4096");
    assert_eq!(summary(&product(&[8, 8, 8, 7], true)).0, "3585");
    assert_eq!(sheets(&product(&[8, 8, 8, 8], true).bytes()), "refused 30\n");
}

/// The coordinator and those with three phases obey: two of three sites, and three of four.
#[test]
fn a_mixture_blocks_and_tolerates() {
    let mixtures = [
        (central(&[true, false]), "verdict blocking at 3.1 condition 1", "tolerance not stated"),
        (central(&[true, true, false]), "verdict blocking at 4.1 condition 1", "tolerance 2"),
    ];
    for (mixture, verdict, tolerance) in mixtures {
        let found = summary(&mixture);
        assert_eq!((&*found.1, &*found.2), (verdict, tolerance));
    }
}

#[test]
fn each_fault_shows_its_ground() {
    let mut random = Random::new(1);
    for (figure, (ground, fault)) in all().iter().flat_map(|f| faults::ALL.map(|fault| (f, fault)))
    {
        let mut draft = figure.clone();
        fault(&mut random, &mut draft);
        assert_eq!(sheets(&draft.bytes()), format!("refused {ground}\n"), "{draft:?}");
    }
}

/// Two faults show the lower ground, at least in one of the two orders of making them.
#[test]
fn each_pair_of_faults_shows_the_lower_ground() {
    let mut random = Random::new(1);
    let mut both = |one: faults::Fault, other: faults::Fault| {
        let mut draft = central(&[true; 2]);
        one(&mut random, &mut draft);
        other(&mut random, &mut draft);
        sheets(&draft.bytes())
    };
    for (a, one) in faults::ALL {
        for (b, other) in faults::ALL.into_iter().filter(|fault| fault.0 != a) {
            let lower = format!("refused {}\n", a.min(b));
            assert!(both(one, other) == lower || both(other, one) == lower, "{a} {b}");
        }
    }
}
