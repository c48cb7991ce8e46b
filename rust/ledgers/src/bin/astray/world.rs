//! A close by single site steps: the ledgers' records, who has stopped, the messages under way.

use crate::mistake::Mistake;
use fjadrimor::{Kind, Message, Site, Sites, State, Step, Vote};
use std::collections::BTreeSet;

/// Something that happens to a ledger.
#[derive(Clone, Copy, Debug)]
pub enum What {
    Step(Step),
    /// It stops between two steps.
    Stop,
    /// It stops inside a step; the messages to these have left.
    StopDuring(Step, Sites),
}

/// What happens to which ledger, and whether it is the mistake.
#[derive(Clone, Copy, Debug)]
pub struct Happening {
    pub site: u8,
    pub what: What,
    pub wrong: bool,
}

/// A close at some moment.
#[derive(Clone, Debug, PartialEq, Eq, Hash)]
pub struct World {
    sites: Vec<Site>,
    /// The ledgers whose entry does not balance, so that they vote no.
    against: Sites,
    stopped: Sites,
    under_way: BTreeSet<Message>,
    /// Has the mistake been made that is made once?
    spent: bool,
}

impl World {
    /// Nothing has happened yet.
    pub fn fresh(n: u8, against: Sites) -> World {
        let sites = (1..=n).map(|number| Site::fresh(n, number).expect("n is 2 to 8")).collect();
        let (stopped, under_way) = Default::default();
        World { sites, against, stopped, under_way, spent: false }
    }

    fn numbers(&self) -> impl Iterator<Item = u8> {
        1..=self.sites.len() as u8
    }

    fn site(&self, number: u8) -> Site {
        self.sites[usize::from(number) - 1]
    }

    fn runs(&self, number: u8) -> bool {
        !self.stopped.contains(number)
    }

    /// The ledgers that run.
    pub fn running(&self) -> Vec<u8> {
        self.numbers().filter(|&number| self.runs(number)).collect()
    }

    /// Has the mistake been made?
    pub fn is_spent(&self) -> bool {
        self.spent
    }

    /// Is an entry posted beside one that is backed out, on the disks of stopped ledgers too?
    pub fn disagrees(&self) -> bool {
        let any = |state| self.sites.iter().any(|site| site.state() == state);
        any(State::Commit) && any(State::Abort)
    }

    /// Has a ledger that runs not decided, though nothing more can happen but stops?
    pub fn is_stuck(&self) -> bool {
        let running = self.running();
        running.iter().any(|&number| !self.site(number).state().is_decided())
            && running.iter().all(|&number| self.steps(number).is_empty())
    }

    /// What the records say where all have stopped.
    pub fn left(&self) -> Option<Vec<State>> {
        self.running().is_empty().then(|| self.sites.iter().map(|site| site.state()).collect())
    }

    /// The states as a transcript has them: in upper case once the ledger has stopped.
    pub fn letters(&self) -> String {
        let letter = |number| match self.site(number).state().letter() {
            letter if self.runs(number) => letter,
            letter => letter.to_ascii_uppercase(),
        };
        self.numbers().map(letter).collect()
    }

    fn vote(&self, number: u8) -> Vote {
        if self.against.contains(number) {
            Vote::No
        } else {
            Vote::Yes
        }
    }

    fn delivery(&self, to: u8, kind: Kind, from: u8) -> Step {
        match kind {
            Kind::Start => Step::Start { from, vote: self.vote(to) },
            _ => Step::Deliver { kind, from },
        }
    }

    /// The deliveries of all that is under way to a ledger.
    fn deliveries(&self, to: u8) -> impl Iterator<Item = Step> + '_ {
        let arriving = self.under_way.iter().filter(move |message| message.to == to);
        arriving.map(move |message| self.delivery(to, message.kind, message.from))
    }

    /// Those of some steps that a ledger can take.
    fn accepted(&self, number: u8, steps: impl Iterator<Item = Step>) -> Vec<Step> {
        steps.filter(|&step| self.site(number).step(step).is_ok()).collect()
    }

    /// The steps that a running ledger can take.
    pub fn steps(&self, number: u8) -> Vec<Step> {
        let own = [Step::Begin(self.vote(number)), Step::TakeOver, Step::Conclude];
        let known = self.site(number).known_stopped();
        let notices = self.stopped.iter().filter(|&other| !known.contains(other)).map(Step::Notice);
        self.accepted(number, own.into_iter().chain(notices).chain(self.deliveries(number)))
    }

    /// The stops of a running ledger inside a step.
    fn stops_inside(&self, number: u8) -> Vec<What> {
        let cuts = |step| {
            let done = self.site(number).step(step).expect("it was accepted");
            subsets(done.receivers).map(move |leaving| What::StopDuring(step, leaving))
        };
        self.steps(number).into_iter().flat_map(cuts).collect()
    }

    /// The stops of a running ledger.
    pub fn stops(&self, number: u8) -> Vec<What> {
        [vec![What::Stop], self.stops_inside(number)].concat()
    }

    /// What can go wrong at a running ledger.
    pub fn mistakes(&self, number: u8, mistake: Mistake) -> Vec<What> {
        if self.spent {
            return Vec::new();
        }
        let others = || self.numbers().filter(move |&other| other != number);
        let steps: Vec<Step> = match mistake {
            _ if mistake.stops_inside() => return self.stops_inside(number),
            Mistake::FalseReport => {
                others().filter(|&other| self.runs(other)).map(Step::Notice).collect()
            }
            Mistake::Twice => self.deliveries(number).collect(),
            Mistake::OtherEntry => others()
                .flat_map(|from| Kind::ALL.map(|kind| self.delivery(number, kind, from)))
                .collect(),
            _ => return Vec::new(),
        };
        self.accepted(number, steps.into_iter()).into_iter().map(What::Step).collect()
    }

    /// All that can happen.
    pub fn happenings(&self, mistake: Mistake) -> Vec<Happening> {
        let mut all = Vec::new();
        for site in self.running() {
            let mut add = |whats: Vec<What>, wrong| {
                all.extend(whats.into_iter().map(|what| Happening { site, what, wrong }));
            };
            add(self.steps(site).into_iter().map(What::Step).collect(), false);
            add(self.stops(site), false);
            add(self.mistakes(site, mistake), true);
        }
        all
    }

    /// The close after something has happened.
    pub fn after(&self, happening: Happening, mistake: Mistake) -> World {
        let Happening { site: number, what, wrong } = happening;
        let mut world = self.clone();
        world.spent |= wrong && !mistake.is_habit();
        match what {
            What::Stop => world.stop(number),
            What::Step(step) => {
                let keeps = wrong && mistake == Mistake::Twice;
                world.take(number, step, Sites::from_mask(u8::MAX), keeps);
            }
            What::StopDuring(step, leaving) => {
                world.take(number, step, leaving, false);
                if !(wrong && mistake.saves_first()) {
                    world.sites[usize::from(number) - 1] = self.site(number);
                }
                if !(wrong && mistake.comes_back()) {
                    world.stop(number);
                }
            }
        }
        world
    }

    /// A step that can be taken, of whose messages some leave. One to a stopped ledger is lost.
    fn take(&mut self, number: u8, step: Step, leaving: Sites, keeps: bool) {
        let done = self.sites[usize::from(number) - 1].step(step).expect("it was accepted");
        let delivered = match step {
            Step::Start { from, .. } => Some(Message { kind: Kind::Start, from, to: number }),
            Step::Deliver { kind, from } => Some(Message { kind, from, to: number }),
            _ => None,
        };
        if let Some(message) = delivered.filter(|_| !keeps) {
            self.under_way.remove(&message);
        }
        for (kind, to) in done.messages() {
            if leaving.contains(to) && self.runs(to) {
                self.under_way.insert(Message { kind, from: number, to });
            }
        }
    }

    fn stop(&mut self, number: u8) {
        self.stopped = self.stopped.iter().chain([number]).collect();
        self.under_way.retain(|message| message.to != number);
    }
}

/// The sets of some of these sites, of none, and of all.
fn subsets(sites: Sites) -> impl Iterator<Item = Sites> {
    let all = sites.mask();
    (0..=all).filter(move |mask| mask & !all == 0).map(Sites::from_mask)
}

impl Happening {
    /// What happens, in the words of a journal.
    pub fn words(&self, mistake: Mistake) -> String {
        let site = self.site;
        let words = match self.what {
            What::Stop => return format!("stop {site}"),
            What::Step(step) => {
                let (verb, rest) = words(step);
                format!("{verb} {site}{rest}")
            }
            What::StopDuring(step, leaving) => {
                let (verb, rest) = words(step);
                let leaving: String = leaving.iter().map(|to| format!(" {to}")).collect();
                let leaving = if leaving.is_empty() { " none" } else { &leaving };
                format!("stop {site} during {verb}{rest} leaving{leaving}")
            }
        };
        words + if self.wrong { mistake.words() } else { "" }
    }
}

/// A step's verb, and what follows the ledger.
fn words(step: Step) -> (&'static str, String) {
    let word = |vote| if vote == Vote::Yes { "yes" } else { "no" };
    match step {
        Step::Begin(vote) => ("begin", format!(" {}", word(vote))),
        Step::Start { from, vote } => ("deliver", format!(" start from {from} {}", word(vote))),
        Step::Deliver { kind, from } => ("deliver", format!(" {} from {from}", kind.name())),
        Step::Notice(stopped) => ("notice", format!(" of {stopped}")),
        Step::TakeOver => ("take over", String::new()),
        Step::Conclude => ("conclude", String::new()),
    }
}
