//! Shows that what the processes of a close did is a run of the rules: their steps in some order,
//! each a step that the library takes, and at the end of it the records that are on the disks.

use crate::close::{Found, Told};
use fjadrimor::{Event, Kind, Refusal, Run, Sites, Step, Vote};

/// A step of a ledger, and the messages that it said it would send.
struct Said {
    step: Step,
    sends: Vec<(Kind, u8)>,
}

/// The step that a line tells of, if it tells of one.
fn step(line: &str, vote: Vote) -> Option<Step> {
    Some(match *line.split(' ').collect::<Vec<&str>>() {
        ["begins"] => Step::Begin(vote),
        ["hears", "start", "from", from] => Step::Start { from: from.parse().ok()?, vote },
        ["hears", name, "from", from] => {
            Step::Deliver { kind: kind(name)?, from: from.parse().ok()? }
        }
        ["hears", "of", "the", "stop", "of", stopped] => Step::Notice(stopped.parse().ok()?),
        ["takes", "over"] => Step::TakeOver,
        ["concludes"] => Step::Conclude,
        _ => return None,
    })
}

fn kind(name: &str) -> Option<Kind> {
    Kind::ALL.into_iter().find(|kind| kind.name() == name)
}

/// The message and receiver that a line tells of, if it tells of any.
fn sending(line: &str) -> Option<(Kind, u8)> {
    let (name, to) = line.strip_prefix("sends ")?.split_once(" to ")?;
    Some((kind(name)?, to.parse().ok()?))
}

/// The steps that a ledger said it took.
fn steps(found: &Found, vote: Vote) -> Vec<Said> {
    let mut steps: Vec<Said> = Vec::new();
    for line in &found.said {
        steps.extend(step(line, vote).map(|step| Said { step, sends: Vec::new() }));
        if let Some(said) = steps.last_mut() {
            said.sends.extend(sending(line));
        }
    }
    steps
}

/// The ledgers of a close, each with the steps that it has still to take in the run.
struct Replay<'a> {
    told: &'a Told,
    left: Vec<std::vec::IntoIter<Said>>,
    run: Run,
}

/// Replays a close; what is wrong with it, if anything is.
pub fn replay(told: &Told) -> Result<(), String> {
    let vote = |site| if told.plan.against == Some(site) { Vote::No } else { Vote::Yes };
    let left = (1..).zip(&told.ledgers).map(|(site, found)| steps(found, vote(site)).into_iter());
    let run = Run::fresh(told.plan.n).map_err(|refusal| refusal.to_string())?;
    let mut replay = Replay { told, left: left.collect(), run };
    // Whatever can happen, may: a message that is under way and a stop that has happened stay so.
    loop {
        let mut acted = false;
        for site in 1..=told.plan.n {
            acted |= replay.acts(site)?;
        }
        if !acted {
            return replay.is_over();
        }
    }
}

impl Replay<'_> {
    /// The next step of a ledger happens, if it can; whether it could. In the end every ledger
    /// stops, be it killed or be its input ended.
    fn acts(&mut self, site: u8) -> Result<bool, String> {
        if self.run.stopped().contains(site) {
            return Ok(false);
        }
        let place = usize::from(site) - 1;
        let Some(said) = self.left[place].as_slice().first() else {
            return self.happens(Event::Stop { site });
        };
        let (step, leaving) = (said.step, self.heard(site, &said.sends));
        let is_last = self.left[place].len() == 1;
        let before = self.run;
        let mut acted = self.happens(Event::Act { site, step })?;
        if acted && is_last && self.run.site(site) != Some(self.told.ledgers[place].record) {
            // The record was not saved: the ledger stopped inside this step.
            self.run = before;
            acted = self.happens(Event::StopDuring { site, step, leaving })?;
        }
        if acted {
            self.left[place].next();
        }
        match step {
            Step::Notice(stopped) if acted => self.all_was_read(stopped, site).map(|()| true),
            _ => Ok(acted),
        }
    }

    /// A ledger hears of a stop after all that the stopped one had sent to it.
    fn all_was_read(&self, stopped: u8, site: u8) -> Result<(), String> {
        let late =
            self.run.outstanding().find(|unread| unread.from == stopped && unread.to == site);
        late.map_or(Ok(()), |unread| Err(format!("{unread:?} was not read before the notice")))
    }

    /// Does the event happen now? One that is refused with 4 waits for another ledger.
    fn happens(&mut self, event: Event) -> Result<bool, String> {
        match self.run.happens(event) {
            Ok(_) => Ok(true),
            Err(Refusal::NotThere) => Ok(false),
            Err(refusal) => Err(format!("{event:?} is {refusal}")),
        }
    }

    /// The receivers that heard what a ledger said it would send.
    fn heard(&self, site: u8, sends: &[(Kind, u8)]) -> Sites {
        let heard = |&(kind, to): &(Kind, u8)| {
            let line = format!("hears {} from {site}", kind.name());
            self.told.ledgers[usize::from(to) - 1].said.contains(&line)
        };
        sends.iter().copied().filter(heard).map(|(_, to)| to).collect()
    }

    /// Did all happen, and is each record that of the run?
    fn is_over(&self) -> Result<(), String> {
        for (site, (found, left)) in (1..).zip(self.told.ledgers.iter().zip(&self.left)) {
            if let Some(said) = left.as_slice().first() {
                return Err(format!(
                    "in no run of the rules {:?} of ledger {site} happens",
                    said.step
                ));
            }
            if self.run.site(site) != Some(found.record) {
                return Err(format!("the record of ledger {site} is not that of the run"));
            }
        }
        Ok(())
    }
}
