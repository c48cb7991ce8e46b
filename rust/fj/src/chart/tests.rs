//! Where the messages of a chart went, and what the picture has of them.

use super::chart;
use super::story::{Fate, Message, Story};
use crate::notation::assemble;
use crate::rehearsal::{records, transcript};
use crate::tests::chance;

/// The fates of a journal's messages: kind, sender, receiver, the row where it was sent, and its end.
fn fates(text: &str) -> Vec<(u8, u8, u8, usize, Fate)> {
    let journal = assemble(text).unwrap();
    let story = Story::new(journal[0], &records(&transcript(&journal).unwrap(), &journal));
    let fate =
        |message: Message| (message.kind, message.from, message.to, message.sent, message.fate);
    story.messages.into_iter().map(fate).collect()
}

/// A journal of n sites in which most events are accepted, and some refused.
pub fn wandering(n: u8, seed: u64) -> Vec<u8> {
    let mut next = chance(seed);
    let mut run = [0; 138];
    fjadrimor::calls::run_fresh(n, &mut run);
    let mut journal = vec![n];
    for _ in 0..next() % 3000 {
        let mut up_to = |most: u64| (next() % most) as u8;
        // Stops are rare, so that much can happen before.
        let k = [1, 2, 2, 2, 2, 3, 4, 5, 5, 6, 16 + 1 + up_to(5)][usize::from(up_to(11))];
        let [s, o] = [1, 1].map(|one| one + up_to(n.into()));
        let (o, m) =
            (o * u8::from(matches!(k & 15, 2 | 3)), (1 + up_to(8)) * u8::from(k & 15 == 2));
        let v = (1 + up_to(2)) * u8::from(k & 15 == 1 || m == 1);
        let x = up_to(256) * u8::from(k > 16);
        if k == 6 && up_to(12) > 0 || k > 16 && up_to(3) > 0 {
            continue;
        }
        let mut record = [0; 9];
        assert_eq!(fjadrimor::calls::record_write(k, s, o, m, v, x, &mut record, 0), 0);
        if fjadrimor::calls::run_event(
            &mut run,
            k,
            s,
            o,
            m,
            v,
            x,
            &mut [0; fjadrimor::calls::RUN_ANSWER],
        ) == 0
            || up_to(100) == 0
        {
            journal.extend(record);
        }
    }
    journal
}

fn picture(text: &str) -> String {
    chart(&assemble(text).unwrap(), Some("A <title> & more")).unwrap()
}

#[test]
fn a_message_is_delivered_or_outstanding() {
    let text = "sites 3\nbegin 1 yes\nconclude 1\ndeliver 3 start from 1 yes";
    let expected = vec![
        (1, 1, 2, 0, Fate::Outstanding),
        (1, 1, 3, 0, Fate::Delivered(2)),
        (2, 3, 1, 2, Fate::Outstanding),
    ];
    assert_eq!(fates(text), expected);
}

#[test]
fn a_message_passed_over_is_told_apart() {
    let text = "sites 2\nbegin 1 no\nstop 1\nnotice 2 of 1\ntake over 2\ndeliver 2 abort from 1";
    assert_eq!(fates(text), vec![(8, 1, 2, 0, Fate::PassedOver(4))]);
}

#[test]
fn a_stop_loses_what_is_on_the_way_to_it() {
    let text = "sites 3\nbegin 1 yes\nstop 3\nstop 1\ndeliver 2 start from 1 yes";
    let expected = vec![
        (1, 1, 2, 0, Fate::Delivered(3)),
        (1, 1, 3, 0, Fate::Lost(1)),
        (2, 2, 1, 3, Fate::Lost(3)),
    ];
    assert_eq!(fates(text), expected);
}

#[test]
fn a_stop_inside_a_step_cuts_what_did_not_leave() {
    let text = "sites 3\nstop 1 during begin yes leaving 3\n\
                stop 3 during deliver start from 1 yes leaving none";
    let expected = vec![
        (1, 1, 2, 0, Fate::NeverLeft),
        (1, 1, 3, 0, Fate::Delivered(1)),
        (2, 3, 1, 1, Fate::NeverLeft),
    ];
    assert_eq!(fates(text), expected);
}

#[test]
fn refused_events_and_bad_records_move_no_message() {
    let text = "sites 2\nbegin 2 yes\nstop 7\nbytes 00 00";
    assert_eq!(fates(text), vec![]);
    let drawn = picture(text);
    assert!(drawn.contains("Refused 2: ") && drawn.contains("Refused 5: "));
    assert!(drawn.contains("bad 11: "));
}

#[test]
fn the_picture_is_whole_and_always_the_same() {
    let text = "sites 8\nbegin 1 yes\nstop 5 during deliver start from 1 no leaving 1\nstop 2";
    let drawn = picture(text);
    assert_eq!(drawn, picture(text));
    assert!(drawn.starts_with("<svg ") && drawn.ends_with("</svg>\n"));
    assert!(drawn.contains("<title>A &lt;title&gt; &amp; more</title>"));
    assert_eq!(drawn.matches("class=\"site\"").count(), 8);
    // Two strokes for each stop, and two in the legend.
    assert_eq!(drawn.matches("class=\"stop\"").count(), 2 * 2 + 2);
    assert!(!drawn.contains("NaN") && !drawn.contains("inf"));
}

/// What a picture says of whom sites await, in the order of the events.
fn awaited(text: &str) -> Vec<String> {
    let drawn = picture(text);
    let texts = drawn.split(">awaits ").skip(1);
    texts.map(|rest| rest.split('<').next().unwrap_or_default().to_string()).collect()
}

#[test]
fn whom_a_site_awaits_stands_behind_its_event() {
    let text = "sites 3\nbegin 1 yes\ndeliver 2 start from 1 yes\ndeliver 1 yes from 2\n\
                conclude 1\nstop 3\nnotice 1 of 3";
    assert_eq!(awaited(text), ["2 and 3", "3"]);
    let backup = "sites 3\nbegin 1 yes\ndeliver 2 start from 1 yes\nstop 1\nnotice 2 of 1\n\
                  take over 2\nstop 2";
    assert_eq!(awaited(backup), ["2 and 3", "3"]);
}

/// A message of a dead leader comes late to its backup, whose event has a long line.
#[test]
fn the_lowest_awaited_has_room_where_all_have_none() {
    let votes = |site| format!("deliver {site} start from 1 yes\ndeliver 1 yes from {site}\n");
    let votes: String = (2..=8).map(votes).collect();
    let late = "conclude 1\nstop 1\nnotice 2 of 1\ntake over 2\ndeliver 2 move-p from 1";
    let told = awaited(&format!("sites 8\nbegin 1 yes\n{votes}{late}"));
    assert_eq!(told[told.len() - 2..], ["3, 4, 5, 6, 7 and 8", "3 and 5 others"]);
}

#[test]
fn a_run_without_events_is_drawn() {
    assert!(picture("sites 2").contains("Events accepted: 0. Messages written: 0."));
}

#[test]
fn every_message_of_a_run_is_on_its_chart() {
    let mut seen = [0; 5];
    for seed in 0..280 {
        let journal = wandering(2 + (seed % 7) as u8, seed);
        let told = transcript(&journal).unwrap();
        let story = Story::new(journal[0], &records(&told, &journal));
        let count = |is: fn(&Fate) -> bool| story.messages.iter().filter(|m| is(&m.fate)).count();
        let fates = [
            count(|fate| matches!(fate, Fate::Delivered(_))),
            count(|fate| matches!(fate, Fate::PassedOver(_))),
            count(|fate| matches!(fate, Fate::Lost(_))),
            count(|fate| *fate == Fate::Outstanding),
            count(|fate| *fate == Fate::NeverLeft),
        ];
        let written: usize = told.split_whitespace().last().unwrap().parse().unwrap();
        assert_eq!(fates[..4].iter().sum::<usize>(), written, "seed {seed}");
        assert_eq!(fates[3], story.last().waiting(), "seed {seed}");
        seen.iter_mut().zip(fates).for_each(|(all, here)| *all += here);
        let drawn = chart(&journal, None).unwrap();
        assert_eq!(drawn.matches("class=\"label open\"").count(), fates[3]);
        assert_eq!(drawn.matches("class=\"head delivered\"").count(), fates[0] + 1);
        assert!(!drawn.contains("NaN") && !drawn.contains("inf"));
    }
    assert!(seen.iter().all(|count| *count > 10), "{seen:?}");
}
