//! Operations hand over the journal of a close in one call, `Run::journal`. One record stands too
//! early in it. The answer says where; the record is put in its place, and the rest is handed over.
//!
//!     cargo run --offline --manifest-path rust/Cargo.toml -p fjadrimor --example day
//!
//! After each call it prints the answer and the state of every ledger. The journal is the one of
//! scenarios/one-record-early.journal. In C it is examples/day.c.

use fjadrimor::{Day, Event, Journal, Kind, Refusal, Run, Step, Vote};

const LEDGERS: u8 = 3;

fn act(site: u8, step: Step) -> Event {
    Event::Act { site, step }
}

fn deliver(site: u8, kind: Kind, from: u8) -> Event {
    act(site, Step::Deliver { kind, from })
}

/// The events as they were written down. Ledger 1 concludes only after both others said yes.
fn events() -> Vec<Event> {
    let vote = Vote::Yes;
    vec![
        act(1, Step::Begin(vote)),
        act(2, Step::Start { from: 1, vote }),
        act(3, Step::Start { from: 1, vote }),
        deliver(1, Kind::Yes, 2),
        act(1, Step::Conclude), // too early
        deliver(1, Kind::Yes, 3),
        deliver(2, Kind::MoveP, 1),
        deliver(3, Kind::MoveP, 1),
        deliver(1, Kind::Ack, 2),
        deliver(1, Kind::Ack, 3),
        act(1, Step::Conclude),
        deliver(2, Kind::Commit, 1),
        deliver(3, Kind::Commit, 1),
    ]
}

/// The journal of these events.
fn kept(events: &[Event]) -> Result<Journal, Refusal> {
    let mut journal = Journal::new(LEDGERS);
    for event in events {
        journal.push(*event)?;
    }
    Ok(journal)
}

/// Hands over records, and prints what became of them.
fn hands_over(run: &mut Run, records: &[u8]) -> Day {
    let day = run.journal(records);
    let letters = (1..=LEDGERS).filter_map(|number| run.site(number));
    let letters: String = letters.map(|site| site.state().letter()).collect();
    let (accepted, written, awaited) = (day.accepted, day.written, day.awaited);
    print!("{letters}: {accepted} accepted, {written} written, {awaited} awaited");
    if let Some(site) = day.lowest {
        print!(" (ring ledger {site})");
    }
    if let Some(refusal) = day.refusal {
        print!("; refused {} at byte {}", refusal.number(), day.place);
    }
    println!();
    day
}

fn main() -> Result<(), Refusal> {
    let mut run = Run::fresh(LEDGERS)?;
    let mut events = events();
    let day = hands_over(&mut run, kept(&events)?.records());
    // The refused event is the one after those that were accepted.
    events.swap(day.accepted, day.accepted + 1);
    let rest = hands_over(&mut run, &kept(&events)?.records()[day.place..]);
    rest.refusal.map_or(Ok(()), Err)
}
