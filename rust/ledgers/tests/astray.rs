//! What comes of the mistakes that docs/EMBEDDING.md speaks of, by search.

use std::process::Command;

fn says(words: &[&str]) -> String {
    let output = Command::new(env!("CARGO_BIN_EXE_astray")).args(words).output().expect("it runs");
    assert!(output.status.success(), "{words:?}");
    String::from_utf8(output.stdout).expect("text")
}

#[test]
fn which_mistakes_go_wrong() {
    for (mistake, disagrees, is_stuck) in [
        ("nothing", false, false),
        ("saves-first", false, false),
        ("twice", false, false),
        ("saves-first-and-comes-back", false, true),
        ("comes-back", true, true),
        ("false-report", true, true),
        ("other-entry", true, true),
    ] {
        let told = says(&[mistake]);
        let goes = |wrong: &str| told.contains(&format!("{wrong}, 2 ledgers:\n"));
        let never = |wrong: &str| told.contains(&format!("{wrong}: never, "));
        for (wrong, found) in [
            ("an entry is posted beside one that is backed out", disagrees),
            ("a ledger that runs never decides", is_stuck),
        ] {
            assert_eq!((goes(wrong), never(wrong)), (found, !found), "{mistake}: {wrong}");
        }
    }
}

#[test]
fn closes_at_random_go_wrong_by_a_mistake_alone() {
    let right = says(&["nothing", "20000"]);
    assert!(right.contains("      0  an entry is posted beside one that is backed out\n"));
    assert!(right.contains("      0  a ledger that runs never decides\n"));
    let wrong = says(&["false-report", "20000"]);
    assert!(!wrong.contains("      0  "), "{wrong}");
    assert_eq!(wrong, says(&["false-report", "20000", "1981"]));
}

#[test]
fn a_command_that_is_not_understood() {
    for words in [&[][..], &["sloth"], &["twice", "many"], &["left", "2"]] {
        let output =
            Command::new(env!("CARGO_BIN_EXE_astray")).args(words).output().expect("it runs");
        assert!(output.status.code() == Some(2) && output.stdout.is_empty(), "{words:?}");
    }
}
