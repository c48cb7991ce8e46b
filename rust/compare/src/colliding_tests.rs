//! The sheets whose states collide do so, in the library's buckets.

use crate::inputs::colliding::{bucket, crowded, merging, BUCKETS};
use crate::inputs::drafts::Draft;
use crate::inputs::Random;
use crate::sheet::OUT;
use second::report::sheet_judge;
use std::collections::{BTreeMap, BTreeSet};

/// The ground of a sheet, and the words that the second program leaves.
fn judged(draft: &Draft) -> (u8, Vec<u64>) {
    let mut words = vec![0; 4096];
    let ground = sheet_judge(&draft.bytes(), &mut words, &mut [0; OUT]);
    (ground, words)
}

#[test]
fn the_buckets_are_those_of_the_code() {
    let code = include_str!("../../../crates/judge/src/words.rt");
    let last = format!("(c * 2246822519 / {} % {BUCKETS}) as usize", (1u64 << 32) / BUCKETS as u64);
    assert!(code.contains("let a = x % 4294967296 * 1640531527;"));
    assert!(code.contains("let b = (a ^ (a / 4294967296)) % 4294967296;"));
    assert!(
        code.contains("let c = (b + x / 4294967296 * 40503) % 4294967296;") && code.contains(&last)
    );
}

/// A step that reads messages 19, 17 and 10, writes 13, 7 and 4, and moves a site on: of a sum of the
/// messages and 40503 times the local states it changes nothing.
#[test]
fn a_step_that_keeps_a_sum_does_not_keep_its_bucket() {
    let (reads, writes) = (1 << 19 | 1 << 17 | 1 << 10, 1 << 13 | 1 << 7 | 1 << 4);
    let mut random = Random::new(1);
    let kept = (0..10_000).filter(|_| {
        let from = (random.below(1 << 47) | reads) & !writes;
        bucket(from) == bucket(from - reads + writes + (16 << 32))
    });
    let kept = kept.count();
    assert!(kept < 100, "{kept} of 10,000 keep it");
}

#[test]
fn a_crowded_sheet_is_accepted_and_fills_a_bucket() {
    for seed in 1..4 {
        let (ground, words) = judged(&crowded(&mut Random::new(seed)));
        let mut full: BTreeMap<usize, u64> = BTreeMap::new();
        let numbers = || words.iter().filter(|&&number| number != 0);
        numbers().for_each(|&number| *full.entry(bucket(number)).or_default() += 1);
        assert_eq!((ground, numbers().count()), (0, 45 * 36));
        assert!(full.values().any(|&states| states >= 44), "{full:?}");
    }
}

/// The messages that the moves of a site write.
fn written(draft: &Draft, site: u8) -> u32 {
    draft.moves.iter().filter(|a| a.site == site).fold(0, |all, a| all | a.writes)
}

#[test]
fn a_merging_sheet_leads_to_few_buckets() {
    let draft = merging(&mut Random::new(1));
    assert_eq!((judged(&draft).0, draft.moves.len()), (31, 64));
    let ways: Vec<_> = draft.moves.iter().filter(|a| a.site == 2).collect();
    let turn = written(&draft, 1) & !draft.first & !ways[0].reads & !written(&draft, 2);
    assert_eq!(turn.count_ones(), 1, "what is not written by all");
    let mut states = BTreeSet::new();
    for a in &ways {
        let ends = u64::from(a.vote) << 33 | 6 << 36 | u64::from(a.to) << 39;
        states.extend([0, turn].map(|turn| ends | u64::from(draft.first | a.writes | turn)));
    }
    let buckets: BTreeSet<usize> = states.iter().map(|&number| bucket(number)).collect();
    assert!(states.len() > 50 && buckets.len() <= 4, "{states:?} in {buckets:?}");
}
