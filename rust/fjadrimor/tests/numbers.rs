//! The numbers of refusals and messages, and sets as masks.

use fjadrimor::{Kind, Mark, Messages, Refusal, Sites};
use std::collections::BTreeSet;

#[test]
fn every_ground_of_01_has_its_own_sentence() {
    let numbers: Vec<u8> = (1..=6).chain(10..=15).chain(20..=32).collect();
    assert!(Refusal::ALL.iter().map(|refusal| refusal.number()).eq(numbers.iter().copied()));
    let sentences: BTreeSet<_> = Refusal::ALL.iter().map(|refusal| refusal.sentence()).collect();
    assert_eq!(sentences.len(), numbers.len());
    let other = (0..=255).filter(|number| !numbers.contains(number));
    assert!(other.map(Refusal::numbered).all(|refusal| refusal.is_none()));
}

#[test]
fn a_refusal_says_its_number_and_sentence() {
    let text = "refused 6: the message conflicts with the site's state";
    assert_eq!(Refusal::Conflict.to_string(), text);
}

#[test]
fn messages_have_the_numbers_of_01() {
    let named = Kind::ALL.map(|kind| (kind.number(), kind.name()));
    let names = ["start", "yes", "no", "move-p", "move-w", "ack", "commit", "abort"];
    assert!((1..).zip(names).eq(named));
    assert!(named.iter().all(|&(number, name)| Kind::numbered(number).unwrap().name() == name));
    assert_eq!((Kind::numbered(0), Kind::numbered(9)), (None, None));
}

#[test]
fn a_set_has_weight_2_to_the_site_less_one() {
    for mask in 0..=255 {
        let set = Sites::from_mask(mask);
        assert_eq!(set.iter().collect::<Sites>(), set);
        assert_eq!(set.iter().count(), set.len());
        assert_eq!(set.is_empty(), mask == 0);
        assert!((0..=255).all(|site| set.contains(site) == set.iter().any(|own| own == site)));
    }
    assert_eq!([1, 3, 8].into_iter().collect::<Sites>().mask(), 0b1000_0101);
    assert_eq!([0, 9, 255].into_iter().collect::<Sites>().mask(), 0);
    assert_eq!(format!("{:?}", Sites::from_mask(6)), "{2, 3}");
}

#[test]
fn a_set_of_messages_has_weight_2_to_the_message() {
    for mask in [0, 1, 6, 1 << 31, 0x8000_0421, u32::MAX] {
        let set = Messages::from_mask(mask);
        assert_eq!((set.mask(), set.iter().collect::<Messages>()), (mask, set));
        assert!(
            (0..=255).all(|message| set.contains(message) == set.iter().any(|own| own == message))
        );
    }
    assert_eq!([0, 5, 31].into_iter().collect::<Messages>().mask(), 0x8000_0021);
    assert_eq!([32, 255].into_iter().collect::<Messages>().mask(), 0);
    assert_eq!(Messages::of(&[0, 5, 31]), Some(Messages::from_mask(0x8000_0021)));
    assert_eq!(Messages::of(&[]), Some(Messages::default()));
    assert_eq!([32, 255].map(|message| Messages::of(&[0, message])), [None, None]);
    assert_eq!(format!("{:?}", Messages::from_mask(6)), "{1, 2}");
}

#[test]
fn marks_have_the_numbers_of_01() {
    let named = Mark::ALL.map(|mark| (mark as u8, mark.name()));
    assert_eq!(named, [(0, "working"), (1, "abort"), (2, "commit")]);
}
