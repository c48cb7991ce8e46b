//! What can happen to a site, and to a run.

use crate::{Kind, Sites, Vote};

/// Something that happens to one site.
#[derive(Clone, Copy, Debug, PartialEq, Eq, Hash)]
pub enum Step {
    /// Site 1 begins the close with its own vote.
    Begin(Vote),
    /// Start arrives, and the site votes.
    Start { from: u8, vote: Vote },
    /// Any other message arrives. A Start without a vote is refused with 14.
    Deliver { kind: Kind, from: u8 },
    /// The site is told that another has stopped. Never report a site that may still run, and
    /// deliver each message at most once: otherwise nothing is promised.
    Notice(u8),
    /// The site becomes the leader, all lower ones being known to have stopped.
    TakeOver,
    /// The site, a leader, takes the next decision.
    Conclude,
}

impl Step {
    /// K, O, M and V.
    pub(crate) fn fields(self) -> [u8; 4] {
        match self {
            Step::Begin(vote) => [1, 0, 0, vote.field()],
            Step::Start { from, vote } => [2, from, Kind::Start.number(), vote.field()],
            Step::Deliver { kind, from } => [2, from, kind.number(), 0],
            Step::Notice(stopped) => [3, stopped, 0, 0],
            Step::TakeOver => [4, 0, 0, 0],
            Step::Conclude => [5, 0, 0, 0],
        }
    }

    /// The step with these fields, if there is one.
    fn of_fields(fields: [u8; 4]) -> Option<Step> {
        let vote = |v| if v == 1 { Vote::Yes } else { Vote::No };
        let step = match fields {
            [1, _, _, v] => Step::Begin(vote(v)),
            [2, from, 1, v] => Step::Start { from, vote: vote(v) },
            [2, from, m, _] => Step::Deliver { kind: Kind::numbered(m)?, from },
            [3, stopped, ..] => Step::Notice(stopped),
            [4, ..] => Step::TakeOver,
            [5, ..] => Step::Conclude,
            _ => return None,
        };
        (step.fields() == fields).then_some(step)
    }
}

/// Something that happens in a run of several sites.
#[derive(Clone, Copy, Debug, PartialEq, Eq, Hash)]
pub enum Event {
    /// A site takes a step.
    Act { site: u8, step: Step },
    /// A site stops, for ever.
    Stop { site: u8 },
    /// A site stops inside a step: of the messages that it writes, those to `leaving` still leave,
    /// and its record stays as before the step.
    StopDuring { site: u8, step: Step, leaving: Sites },
}

/// What K has more where a site stops during a step.
const DURING: u8 = 16;

impl Event {
    /// K, S, O, M, V and X, the fields of an event record.
    pub fn fields(self) -> [u8; 6] {
        match self {
            Event::Act { site, step } => {
                let [k, o, m, v] = step.fields();
                [k, site, o, m, v, 0]
            }
            Event::Stop { site } => [6, site, 0, 0, 0, 0],
            Event::StopDuring { site, step, leaving } => {
                let [k, o, m, v] = step.fields();
                [DURING + k, site, o, m, v, leaving.mask()]
            }
        }
    }

    /// The event with these fields, if there is one. Whether it can happen in a run, or stand in a
    /// record, the library says.
    pub fn of_fields(fields: [u8; 6]) -> Option<Event> {
        let [k, site, o, m, v, x] = fields;
        let event = match k {
            6 => Event::Stop { site },
            17..=21 => Event::StopDuring {
                site,
                step: Step::of_fields([k - DURING, o, m, v])?,
                leaving: Sites::from_mask(x),
            },
            _ => Event::Act { site, step: Step::of_fields([k, o, m, v])? },
        };
        (event.fields() == fields).then_some(event)
    }
}
