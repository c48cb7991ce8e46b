//! One site, one step, with sets as masks.

#[derive(Clone, Copy, PartialEq, Eq)]
pub enum State {
    Q,
    W,
    P,
    A,
    C,
}

#[derive(Clone, Copy, PartialEq, Eq)]
pub enum Kind {
    Start = 1,
    Yes,
    No,
    MoveP,
    MoveW,
    Ack,
    Commit,
    Abort,
}

#[derive(Clone, Copy)]
pub struct Site {
    pub n: u8,
    pub number: u8,
    pub state: State,
    pub leader: u8,
    pub known: u8,
    pub yes: u8,
    pub no: u8,
    pub acked: u8,
}

#[derive(Clone, Copy)]
pub enum Step {
    Begin { yes: bool },
    Start { from: u8, yes: bool },
    Deliver { kind: u8, from: u8 },
    Notice { about: u8 },
    TakeOver,
    Conclude,
}

/// How many sites are awaited, and the lowest of them; both 0 for none.
#[derive(Clone, Copy, Default)]
pub struct Awaited {
    pub number: u8,
    pub lowest: u8,
}

/// An accepted step: the new record, whether it was passed over, what was written to whom.
pub struct Done {
    pub site: Site,
    pub passed: bool,
    pub kind: u8,
    pub receivers: u8,
}

impl State {
    pub fn from_byte(byte: u8) -> Option<State> {
        Some(match byte {
            0 => State::Q,
            1 => State::W,
            2 => State::P,
            3 => State::A,
            4 => State::C,
            _ => return None,
        })
    }
}

impl Kind {
    pub fn from_byte(byte: u8) -> Option<Kind> {
        Some(match byte {
            1 => Kind::Start,
            2 => Kind::Yes,
            3 => Kind::No,
            4 => Kind::MoveP,
            5 => Kind::MoveW,
            6 => Kind::Ack,
            7 => Kind::Commit,
            8 => Kind::Abort,
            _ => return None,
        })
    }

    fn right_ends(self, from: u8, to: u8) -> bool {
        match self {
            Kind::Start => from == 1 && to > 1,
            Kind::Yes | Kind::No => from > 1 && to == 1,
            Kind::MoveP | Kind::MoveW | Kind::Commit | Kind::Abort => from < to,
            Kind::Ack => from > to,
        }
    }
}

/// The mask of one site of 1..8.
pub fn bit(site: u8) -> u8 {
    1 << (site - 1)
}

/// The mask of sites 1..n, for n up to 8.
pub fn first(n: u8) -> u8 {
    ((1u16 << n) - 1) as u8
}

impl Site {
    pub fn from_bytes(bytes: &[u8; 8]) -> Option<Site> {
        let &[n, number, state, leader, known, yes, no, acked] = bytes;
        let state = State::from_byte(state)?;
        Some(Site { n, number, state, leader, known, yes, no, acked })
    }

    pub fn to_bytes(self) -> [u8; 8] {
        let state = self.state as u8;
        [self.n, self.number, state, self.leader, self.known, self.yes, self.no, self.acked]
    }

    pub fn sound(&self) -> bool {
        (2..=8).contains(&self.n)
            && (1..=self.n).contains(&self.number)
            && (1..=self.number).contains(&self.leader)
            && (self.known | self.yes | self.no | self.acked) & !self.others() == 0
    }

    pub fn leads(&self) -> bool {
        self.leader == self.number
    }

    fn others(&self) -> u8 {
        first(self.n) & !bit(self.number)
    }

    fn all(&self) -> u8 {
        self.others() & !self.known
    }

    pub fn awaited(&self) -> Awaited {
        let awaited: u8 = match self.state {
            State::W if self.number == 1 => self.all() & !(self.yes | self.no),
            State::W | State::P if self.leads() => self.all() & !self.acked,
            _ => 0,
        };
        let lowest = if awaited == 0 { 0 } else { awaited.trailing_zeros() as u8 + 1 };
        Awaited { number: awaited.count_ones() as u8, lowest }
    }

    /// Goes to a state and writes one kind of message to a set of sites.
    fn goes(self, state: State, kind: Kind, receivers: u8) -> Done {
        let kind = if receivers == 0 { 0 } else { kind as u8 };
        Done { site: Site { state, ..self }, passed: false, kind, receivers }
    }

    fn quiet(self) -> Done {
        Done { site: self, passed: false, kind: 0, receivers: 0 }
    }

    fn passed(self) -> Done {
        Done { site: self, passed: true, kind: 0, receivers: 0 }
    }

    /// One step of a sound site.
    pub fn step(self, step: Step) -> Result<Done, u8> {
        match step {
            Step::Begin { yes } => self.begin(yes),
            Step::Start { from, yes } => self.start(from, yes),
            Step::Deliver { kind, from } => self.deliver(kind, from),
            Step::Notice { about } => self.notice(about),
            Step::TakeOver => self.take_over(),
            Step::Conclude => self.conclude(),
        }
    }

    fn begin(self, yes: bool) -> Result<Done, u8> {
        if self.number != 1 || self.state != State::Q {
            return Err(5);
        }
        Ok(match yes {
            true => self.goes(State::W, Kind::Start, self.all()),
            false => self.goes(State::A, Kind::Abort, self.all()),
        })
    }

    fn start(self, from: u8, yes: bool) -> Result<Done, u8> {
        if from != 1 || self.number == 1 {
            return Err(2);
        }
        if self.leader > 1 || self.state != State::Q {
            return Ok(self.passed());
        }
        Ok(match yes {
            true => self.goes(State::W, Kind::Yes, bit(1)),
            false => self.goes(State::A, Kind::No, bit(1)),
        })
    }

    fn deliver(self, kind: u8, from: u8) -> Result<Done, u8> {
        let kind = Kind::from_byte(kind).ok_or(2)?;
        if !(1..=self.n).contains(&from) || !kind.right_ends(from, self.number) {
            return Err(2);
        }
        match kind {
            Kind::Yes | Kind::No | Kind::Ack => Ok(self.hear(kind, from)),
            _ if from < self.leader => Ok(self.passed()),
            _ => self.obey(kind, from),
        }
    }

    fn hear(mut self, kind: Kind, from: u8) -> Done {
        let heard = match kind {
            Kind::Ack => {
                let backup = self.state == State::W && self.number != 1;
                self.leads() && (self.state == State::P || backup)
            }
            _ => self.state == State::W,
        };
        if !heard {
            return self.passed();
        }
        match kind {
            Kind::Yes => self.yes |= bit(from),
            Kind::No => self.no |= bit(from),
            _ => self.acked |= bit(from),
        }
        self.quiet()
    }

    fn obey(self, kind: Kind, from: u8) -> Result<Done, u8> {
        use State::*;
        let state = match (kind, self.state) {
            (Kind::MoveP, W | P) => P,
            (Kind::MoveP, C) => C,
            (Kind::MoveW, Q | W | P) => W,
            (Kind::MoveW, A) => A,
            (Kind::Commit, P | C) => C,
            (Kind::Abort, Q | W | A) => A,
            _ => return Err(6),
        };
        let follower = Site { state, leader: from, ..self };
        Ok(match kind {
            Kind::MoveP | Kind::MoveW => follower.goes(state, Kind::Ack, bit(from)),
            _ if state == self.state => follower.passed(),
            _ => follower.quiet(),
        })
    }

    fn notice(mut self, about: u8) -> Result<Done, u8> {
        if !(1..=self.n).contains(&about) || about == self.number {
            return Err(2);
        }
        if self.known & bit(about) != 0 {
            return Ok(self.passed());
        }
        self.known |= bit(about);
        Ok(self.quiet())
    }

    fn take_over(self) -> Result<Done, u8> {
        let lower = bit(self.number) - 1;
        if self.leads() || lower & !self.known != 0 {
            return Err(5);
        }
        let (state, kind) = match self.state {
            State::Q | State::A => (State::A, Kind::Abort),
            State::W => (State::W, Kind::MoveW),
            State::P => (State::P, Kind::MoveP),
            State::C => (State::C, Kind::Commit),
        };
        let leader = Site { leader: self.number, acked: 0, ..self };
        Ok(leader.goes(state, kind, self.all()))
    }

    fn conclude(self) -> Result<Done, u8> {
        if !self.leads() {
            return Err(5);
        }
        let answered = self.all() & !self.acked == 0;
        match self.state {
            State::W if self.number == 1 => self.count_votes(),
            State::W if answered => Ok(self.goes(State::A, Kind::Abort, self.all())),
            State::P if answered => Ok(self.goes(State::C, Kind::Commit, self.all())),
            _ => Err(5),
        }
    }

    fn count_votes(self) -> Result<Done, u8> {
        if self.no != 0 || self.known & !self.yes != 0 {
            Ok(self.goes(State::A, Kind::Abort, self.all()))
        } else if self.yes == self.others() {
            Ok(self.goes(State::P, Kind::MoveP, self.all()))
        } else {
            Err(5)
        }
    }
}

impl Step {
    /// The step that K, O, M and V name; 13 or 14 where they name none.
    pub fn from_fields(k: u8, o: u8, m: u8, v: u8) -> Result<Step, u8> {
        match (k, m, v) {
            (1, 0, 1 | 2) if o == 0 => Ok(Step::Begin { yes: v == 1 }),
            (2, 1, 1 | 2) => Ok(Step::Start { from: o, yes: v == 1 }),
            (2, kind, 0) if kind != 1 => Ok(Step::Deliver { kind, from: o }),
            (3, 0, 0) => Ok(Step::Notice { about: o }),
            (4, 0, 0) if o == 0 => Ok(Step::TakeOver),
            (5, 0, 0) if o == 0 => Ok(Step::Conclude),
            (1..=5, ..) => Err(14),
            _ => Err(13),
        }
    }
}

/// `fj_site_step`.
pub fn site_step(site: &mut [u8], k: u8, o: u8, m: u8, v: u8, answer: &mut [u8]) -> u8 {
    let Some(answer) = answer.first_chunk_mut() else {
        return 15;
    };
    match stepped(site, k, o, m, v) {
        Ok(done) => {
            site.copy_from_slice(&done.site.to_bytes());
            let written = done.receivers.count_ones() as u8;
            let Awaited { number, lowest } = done.site.awaited();
            *answer = [done.passed as u8, done.kind, done.receivers, written, number, lowest];
            0
        }
        Err(ground) => {
            *answer = [2, 0, 0, 0, 0, 0];
            ground
        }
    }
}

fn stepped(site: &[u8], k: u8, o: u8, m: u8, v: u8) -> Result<Done, u8> {
    let bytes: &[u8; 8] = site.try_into().map_err(|_| 1)?;
    let site = Site::from_bytes(bytes).ok_or(1)?;
    let step = Step::from_fields(k, o, m, v)?;
    if !site.sound() {
        return Err(1);
    }
    site.step(step)
}
