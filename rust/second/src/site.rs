//! 01, "Site and messages": one site, one step.

use std::collections::BTreeSet;

/// A set of sites by their numbers.
pub type Sites = BTreeSet<u8>;

/// A message: its kind, its sender, its receiver.
pub type Message = (u8, u8, u8);

pub const START: u8 = 1;
pub const YES: u8 = 2;
pub const NO: u8 = 3;
pub const MOVE_P: u8 = 4;
pub const MOVE_W: u8 = 5;
pub const ACK: u8 = 6;
pub const COMMIT: u8 = 7;
pub const ABORT: u8 = 8;

/// "States: q (first), w (wait), p (prepared), a (abort), c (commit)."
#[derive(Clone, Copy, Debug, PartialEq, Eq, Hash)]
pub enum State {
    Q,
    W,
    P,
    A,
    C,
}

/// "A site record has n, its own number, state, the leader it follows, and four sets."
#[derive(Clone, Debug, PartialEq, Eq, Hash)]
pub struct Record {
    pub n: u8,
    pub number: u8,
    pub state: State,
    pub leader: u8,
    pub known: Sites,
    pub yes: Sites,
    pub no: Sites,
    pub acked: Sites,
}

/// What a site can be asked to do. A delivery of Start carries the vote, no other does.
#[derive(Clone, Debug)]
pub enum Step {
    Begin(bool),
    Deliver { kind: u8, from: u8, vote: Option<bool> },
    Notice(u8),
    TakeOver,
    Conclude,
}

/// An accepted step: the new record, whether it was passed over, the messages written.
pub struct Done {
    pub record: Record,
    pub passed: bool,
    pub messages: BTreeSet<Message>,
}

impl Record {
    /// A site that has done nothing yet.
    pub fn fresh(n: u8, number: u8) -> Record {
        Record {
            n,
            number,
            state: State::Q,
            leader: 1,
            known: Sites::new(),
            yes: Sites::new(),
            no: Sites::new(),
            acked: Sites::new(),
        }
    }

    /// "It is sound when n is 2..8, number 1..n, leader 1..own number, no set names itself or a
    /// site above n."
    pub fn sound(&self) -> bool {
        let proper = |set: &Sites| set.iter().all(|&j| j != self.number && j <= self.n);
        (2..=8).contains(&self.n)
            && (1..=self.n).contains(&self.number)
            && (1..=self.number).contains(&self.leader)
            && [&self.known, &self.yes, &self.no, &self.acked].into_iter().all(proper)
    }

    /// "A site leads when it follows itself."
    pub fn leads(&self) -> bool {
        self.leader == self.number
    }

    /// Every other site.
    pub fn others(&self) -> Sites {
        (1..=self.n).filter(|&j| j != self.number).collect()
    }

    /// "All" means every other site not known stopped.
    fn all(&self) -> Sites {
        &self.others() - &self.known
    }

    /// One message of this kind to all.
    fn to_all(&self, kind: u8) -> BTreeSet<Message> {
        self.all().into_iter().map(|j| (kind, self.number, j)).collect()
    }

    /// The last paragraph of 01's section: the sites still awaited.
    pub fn awaited(&self) -> Sites {
        match self.state {
            State::W if self.number == 1 => &(&self.all() - &self.yes) - &self.no,
            State::W | State::P if self.leads() => &self.all() - &self.acked,
            _ => Sites::new(),
        }
    }
}

/// 02, Ask 4: of the awaited sites the lowest, "0 when none is awaited".
pub fn lowest(awaited: &Sites) -> u8 {
    awaited.iter().copied().min().unwrap_or(0)
}

/// The ends that 01 gives to each kind of message, between two sites of 1..n.
pub fn right_ends(n: u8, (kind, from, to): Message) -> bool {
    let within = (1..=n).contains(&from) && (1..=n).contains(&to);
    within
        && match kind {
            START => from == 1 && to > 1,
            YES | NO => from > 1 && to == 1,
            MOVE_P | MOVE_W | COMMIT | ABORT => from < to,
            ACK => from > to,
            _ => false,
        }
}

/// One step of one site: what it does, or the number of the ground on which it is refused.
pub fn step(site: &Record, step: &Step) -> Result<Done, u8> {
    if !site.sound() {
        return Err(1);
    }
    match *step {
        Step::Begin(vote) => begin(site, vote),
        Step::Deliver { kind, from, vote } => deliver(site, kind, from, vote),
        Step::Notice(stopped) => notice(site, stopped),
        Step::TakeOver => take_over(site),
        Step::Conclude => conclude(site),
    }
}

/// A step that is taken and writes these messages.
fn taken(record: Record, messages: BTreeSet<Message>) -> Result<Done, u8> {
    Ok(Done { record, passed: false, messages })
}

/// A step that is passed over and writes nothing.
fn passed(record: Record) -> Result<Done, u8> {
    Ok(Done { record, passed: true, messages: BTreeSet::new() })
}

/// This kind of message goes to all, and the site goes to this state.
fn decide(site: &Record, kind: u8, state: State) -> Result<Done, u8> {
    taken(Record { state, ..site.clone() }, site.to_all(kind))
}

/// "Begin with a vote, site 1 in q."
fn begin(site: &Record, vote: bool) -> Result<Done, u8> {
    if site.number != 1 || site.state != State::Q {
        return Err(5);
    }
    if vote {
        decide(site, START, State::W)
    } else {
        decide(site, ABORT, State::A)
    }
}

/// A message arrives: its ends, then "a sender below the leader followed", then its own rule.
fn deliver(site: &Record, kind: u8, from: u8, vote: Option<bool>) -> Result<Done, u8> {
    if !right_ends(site.n, (kind, from, site.number)) || (kind == START) != vote.is_some() {
        return Err(2);
    }
    match kind {
        YES | NO => hear_vote(site, kind, from),
        ACK => hear_ack(site, from),
        _ if from < site.leader => passed(site.clone()),
        START => start(site, vote == Some(true)),
        _ => obey(site, kind, from),
    }
}

/// "Start in q, with a vote: Yes to 1 and w, or No to 1 and a. In other states passed over."
fn start(site: &Record, vote: bool) -> Result<Done, u8> {
    if site.state != State::Q {
        return passed(site.clone());
    }
    let (kind, state) = if vote { (YES, State::W) } else { (NO, State::A) };
    taken(Record { state, ..site.clone() }, BTreeSet::from([(kind, site.number, 1)]))
}

/// Move-p, Move-w, Commit and Abort from a sender that becomes the leader followed.
fn obey(site: &Record, kind: u8, from: u8) -> Result<Done, u8> {
    use State::*;
    let state = match (kind, site.state) {
        (MOVE_P, W | P) => P,
        (MOVE_P, C) => C,
        (MOVE_W, Q | W | P) => W,
        (MOVE_W, A) => A,
        (COMMIT, P | C) => C,
        (ABORT, Q | W | A) => A,
        _ => return Err(6),
    };
    let record = Record { state, leader: from, ..site.clone() };
    match kind {
        MOVE_P | MOVE_W => taken(record, BTreeSet::from([(ACK, site.number, from)])),
        _ if state == site.state => passed(record),
        _ => taken(record, BTreeSet::new()),
    }
}

/// "Yes or No: site 1 in w records it."
fn hear_vote(site: &Record, kind: u8, from: u8) -> Result<Done, u8> {
    let mut record = site.clone();
    if site.state != State::W {
        return passed(record);
    }
    let heard = if kind == YES { &mut record.yes } else { &mut record.no };
    heard.insert(from);
    taken(record, BTreeSet::new())
}

/// "Ack: recorded by a leader in p, or in w if it isn't site 1."
fn hear_ack(site: &Record, from: u8) -> Result<Done, u8> {
    let mut record = site.clone();
    let gathers = site.state == State::P || (site.state == State::W && site.number != 1);
    if !site.leads() || !gathers {
        return passed(record);
    }
    record.acked.insert(from);
    taken(record, BTreeSet::new())
}

/// "Notice that a site stopped: recorded; passed over if known."
fn notice(site: &Record, stopped: u8) -> Result<Done, u8> {
    if !site.others().contains(&stopped) {
        return Err(2);
    }
    let mut record = site.clone();
    if record.known.insert(stopped) {
        taken(record, BTreeSet::new())
    } else {
        passed(record)
    }
}

/// "Take over, when following a lower site and all lower ones are known stopped."
fn take_over(site: &Record) -> Result<Done, u8> {
    let lower_stopped = (1..site.number).all(|j| site.known.contains(&j));
    if site.leads() || !lower_stopped {
        return Err(5);
    }
    let (kind, state) = match site.state {
        State::Q | State::A => (ABORT, State::A),
        State::C => (COMMIT, State::C),
        State::W => (MOVE_W, State::W),
        State::P => (MOVE_P, State::P),
    };
    let leader = Record { leader: site.number, acked: Sites::new(), ..site.clone() };
    decide(&leader, kind, state)
}

/// "Conclude, for a leader."
fn conclude(site: &Record) -> Result<Done, u8> {
    if !site.leads() {
        return Err(5);
    }
    let answered = site.others().is_subset(&(&site.acked | &site.known));
    match site.state {
        State::W if site.number == 1 => count_votes(site),
        State::W if answered => decide(site, ABORT, State::A),
        State::P if answered => decide(site, COMMIT, State::C),
        _ => Err(5),
    }
}

/// "Site 1 in w: if a No is heard, or a known stopped site has no Yes heard, Abort to all and a;
/// else if all others said Yes, Move-p to all and p; else not yet."
fn count_votes(site: &Record) -> Result<Done, u8> {
    if !site.no.is_empty() || !site.known.is_subset(&site.yes) {
        decide(site, ABORT, State::A)
    } else if site.others().is_subset(&site.yes) {
        decide(site, MOVE_P, State::P)
    } else {
        Err(5)
    }
}
