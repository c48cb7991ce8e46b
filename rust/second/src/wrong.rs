//! Rules that are easy to get wrong, so that `explore` can show that it would notice.

use crate::run::{event, event_by, lawful, Happening, Next, Rule, Run};
use crate::site::{self, Done, Record, State, Step, ABORT, COMMIT, MOVE_P, MOVE_W, YES};

/// A wrong rule: its name, what it does, and the way that events go by it.
pub struct Wrong {
    pub name: &'static str,
    pub does: &'static str,
    pub rule: Rule,
}

/// The wrong rules.
pub const WRONG: [Wrong; 9] = [
    Wrong {
        name: "late-move-p",
        does: "a site in w obeys Move-p of a dead leader, though it follows a later one",
        rule: |run, site, happening| event_by(late_move_p, run, site, happening),
    },
    Wrong {
        name: "q-means-no-vote",
        does: "a backup takes q at a stopped site for \"no vote was sent\", and aborts",
        rule: |run, site, happening| event_by(q_means_no_vote, run, site, happening),
    },
    Wrong {
        name: "skip-phase-1",
        does: "a backup that stands in p commits as it takes over",
        rule: |run, site, happening| event_by(skip_phase_1, run, site, happening),
    },
    Wrong {
        name: "hasty-conclude",
        does: "a leader concludes one acknowledgement short",
        rule: |run, site, happening| event_by(hasty_conclude, run, site, happening),
    },
    Wrong {
        name: "early-take-over",
        does: "a site takes over knowing only its leader stopped",
        rule: |run, site, happening| event_by(early_take_over, run, site, happening),
    },
    Wrong {
        name: "move-w-from-p",
        does: "a site that takes over in p writes Move-w",
        rule: |run, site, happening| event_by(move_w_from_p, run, site, happening),
    },
    Wrong {
        name: "passed-stays",
        does: "a delivery that is passed over stays outstanding",
        rule: passed_stays,
    },
    Wrong {
        name: "forgotten-yes",
        does: "site 1 forgets a Yes that it has heard",
        rule: |run, site, happening| event_by(forgotten_yes, run, site, happening),
    },
    Wrong {
        name: "stopped-means-yes",
        does: "site 1 forgets that a stopped site has not voted",
        rule: |run, site, happening| event_by(stopped_means_yes, run, site, happening),
    },
];

fn late_move_p(run: &Run, site: u8, step: &Step) -> Result<Done, u8> {
    let record = run.record(site);
    match *step {
        Step::Deliver { kind: MOVE_P, from, .. }
            if from < record.leader && record.state == State::W =>
        {
            let mut done = site::step(&Record { leader: from, ..record.clone() }, step)?;
            done.record.leader = record.leader;
            Ok(done)
        }
        _ => lawful(run, site, step),
    }
}

fn q_means_no_vote(run: &Run, site: u8, step: &Step) -> Result<Done, u8> {
    let done = lawful(run, site, step)?;
    let mut known = run.record(site).known.iter();
    let unvoted = known.any(|&other| run.record(other).state == State::Q);
    let undecided = matches!(run.record(site).state, State::W | State::P);
    if matches!(step, Step::TakeOver) && unvoted && undecided {
        return Ok(writing(ABORT, State::A, done));
    }
    Ok(done)
}

fn skip_phase_1(run: &Run, site: u8, step: &Step) -> Result<Done, u8> {
    let done = lawful(run, site, step)?;
    if matches!(step, Step::TakeOver) && run.record(site).state == State::P {
        return Ok(writing(COMMIT, State::C, done));
    }
    Ok(done)
}

fn hasty_conclude(run: &Run, site: u8, step: &Step) -> Result<Done, u8> {
    let record = run.record(site);
    let awaited = record.awaited();
    let counts_votes = site == 1 && record.state == State::W;
    if !matches!(step, Step::Conclude) || counts_votes || awaited.len() != 1 {
        return lawful(run, site, step);
    }
    let acked = &record.acked | &awaited;
    let mut done = site::step(&Record { acked, ..record.clone() }, step)?;
    done.record.acked = record.acked.clone();
    Ok(done)
}

/// Its orders go to the sites above it only, since an order goes from a lower site to a higher.
fn early_take_over(run: &Run, site: u8, step: &Step) -> Result<Done, u8> {
    let record = run.record(site);
    if !matches!(step, Step::TakeOver) || !record.known.contains(&record.leader) {
        return lawful(run, site, step);
    }
    let known = &record.known | &(1..site).collect();
    let mut done = site::step(&Record { known, ..record.clone() }, step)?;
    done.record.known = record.known.clone();
    Ok(done)
}

fn move_w_from_p(run: &Run, site: u8, step: &Step) -> Result<Done, u8> {
    let done = lawful(run, site, step)?;
    if matches!(step, Step::TakeOver) && run.record(site).state == State::P {
        return Ok(writing(MOVE_W, State::P, done));
    }
    Ok(done)
}

fn passed_stays(run: &Run, site: u8, happening: &Happening) -> Result<Next, u8> {
    let mut next = event(run, site, happening)?;
    if let Happening::Step(Step::Deliver { kind, from, .. }) = *happening {
        if next.passed {
            next.run.network.insert((kind, from, site));
        }
    }
    Ok(next)
}

fn forgotten_yes(run: &Run, site: u8, step: &Step) -> Result<Done, u8> {
    let mut done = lawful(run, site, step)?;
    if matches!(step, Step::Deliver { kind: YES, .. }) {
        done.record = run.record(site).clone();
    }
    Ok(done)
}

fn stopped_means_yes(run: &Run, site: u8, step: &Step) -> Result<Done, u8> {
    let record = run.record(site);
    if !matches!(step, Step::Conclude) {
        return lawful(run, site, step);
    }
    let yes = &record.yes | &record.known;
    let mut done = site::step(&Record { yes, ..record.clone() }, step)?;
    done.record.yes = record.yes.clone();
    Ok(done)
}

/// The same step, but its messages are of this kind, and the site goes to this state.
fn writing(kind: u8, state: State, mut done: Done) -> Done {
    done.record.state = state;
    done.messages = done.messages.into_iter().map(|(_, from, to)| (kind, from, to)).collect();
    done
}
