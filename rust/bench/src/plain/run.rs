//! A run of up to eight sites, with the network as sets of receivers by kind and sender.

use super::site::{bit, first, Awaited, Done, Site, State, Step};

pub const LENGTH: usize = 138;

#[derive(Clone, Copy)]
pub struct Run {
    pub n: u8,
    pub stopped: u8,
    pub sites: [Site; 8],
    /// `network[kind - 1][sender - 1]` is the set of receivers; no kind belongs to the ninth row.
    network: [[u8; 8]; 9],
}

#[derive(Clone, Copy)]
pub enum Event {
    Step(Step),
    Stop,
    StopDuring(Step, u8),
}

/// Whether an accepted event was passed over, the messages written, and who is awaited.
pub struct Reply {
    pub passed: bool,
    pub written: u8,
    pub awaited: Awaited,
}

/// The receivers that 01 allows to a kind of message from a sender.
fn right_receivers(kind: u8, sender: u8) -> u8 {
    let below = bit(sender) - 1;
    match kind {
        1 if sender == 1 => !1,
        2 | 3 if sender != 1 => 1,
        4 | 5 | 7 | 8 => !(below | bit(sender)),
        6 => below,
        _ => 0,
    }
}

impl Run {
    pub fn fresh(n: u8) -> Run {
        let site = |number| Site {
            n,
            number,
            state: State::Q,
            leader: 1,
            known: 0,
            yes: 0,
            no: 0,
            acked: 0,
        };
        let sites = [1, 2, 3, 4, 5, 6, 7, 8].map(site);
        Run { n, stopped: 0, sites, network: [[0; 8]; 9] }
    }

    pub fn from_bytes(bytes: &[u8; LENGTH]) -> Option<Run> {
        let mut run = Run::fresh(bytes[0]);
        run.stopped = bytes[1];
        let (records, rows) = bytes[2..].split_at(64);
        for (site, record) in run.sites.iter_mut().zip(records.chunks_exact(8)) {
            *site = Site::from_bytes(record.try_into().ok()?)?;
        }
        for (row, senders) in run.network.iter_mut().zip(rows.chunks_exact(8)) {
            row.copy_from_slice(senders);
        }
        Some(run)
    }

    pub fn to_bytes(&self, bytes: &mut [u8; LENGTH]) {
        bytes[0] = self.n;
        bytes[1] = self.stopped;
        let (records, rows) = bytes[2..].split_at_mut(64);
        for (record, site) in records.chunks_exact_mut(8).zip(&self.sites) {
            record.copy_from_slice(&site.to_bytes());
        }
        for (senders, row) in rows.chunks_exact_mut(8).zip(&self.network) {
            senders.copy_from_slice(row);
        }
    }

    pub fn sound(&self) -> bool {
        (2..=8).contains(&self.n)
            && self.stopped & !first(self.n) == 0
            && self.sites_sound()
            && self.network_sound()
    }

    fn sites_sound(&self) -> bool {
        (1..=self.n).zip(&self.sites).all(|(number, site)| {
            site.n == self.n
                && site.number == number
                && site.sound()
                && site.known & !self.stopped == 0
        })
    }

    fn network_sound(&self) -> bool {
        let running = first(self.n) & !self.stopped;
        (1..=9).zip(&self.network).all(|(kind, row)| {
            (1..=8).zip(row).all(|(sender, &receivers)| {
                receivers == 0
                    || sender <= self.n
                        && receivers & !(right_receivers(kind, sender) & running) == 0
            })
        })
    }

    /// Whether each running leader knows all lower sites stopped. A sound run in which that is so
    /// stays sound, and it stays so.
    pub fn ordered(&self) -> bool {
        self.sites[..self.n as usize].iter().all(|site| {
            !site.leads()
                || self.stopped & bit(site.number) != 0
                || (bit(site.number) - 1) & !site.known == 0
        })
    }

    /// Whether the message is outstanding that this step takes out of the network.
    fn outstanding(&self, kind: u8, from: u8, to: u8) -> bool {
        self.network[kind as usize - 1][from as usize - 1] & bit(to) != 0
    }

    /// The step of a running site of a sound run, or the ground of its refusal.
    fn step(&self, s: u8, step: Step) -> Result<Done, u8> {
        if !(1..=self.n).contains(&s) {
            return Err(2);
        }
        let site = self.sites[s as usize - 1];
        let right = match step {
            Step::Start { from, .. } => from == 1 && s != 1,
            Step::Deliver { kind, from } => {
                (1..=self.n).contains(&from) && right_receivers(kind, from) & bit(s) != 0
            }
            Step::Notice { about } => (1..=self.n).contains(&about) && about != s,
            _ => true,
        };
        if !right {
            return Err(2);
        }
        if self.stopped & bit(s) != 0 {
            return Err(3);
        }
        let there = match step {
            Step::Start { from, .. } => self.outstanding(1, from, s),
            Step::Deliver { kind, from } => self.outstanding(kind, from, s),
            Step::Notice { about } => self.stopped & !site.known & bit(about) != 0,
            _ => true,
        };
        if !there {
            return Err(4);
        }
        site.step(step)
    }

    fn send(&mut self, kind: u8, from: u8, receivers: u8) {
        let arriving = receivers & !self.stopped;
        if arriving != 0 {
            self.network[kind as usize - 1][from as usize - 1] |= arriving;
        }
    }

    fn stop(&mut self, s: u8) {
        self.stopped |= bit(s);
        for row in &mut self.network {
            for receivers in row {
                *receivers &= !bit(s);
            }
        }
    }

    /// One event of a sound run; a refused one leaves it as it is.
    pub fn event(&mut self, s: u8, event: Event) -> Result<Reply, u8> {
        match event {
            Event::Step(step) => {
                let done = self.step(s, step)?;
                match step {
                    Step::Start { from, .. } => self.take_out(1, from, s),
                    Step::Deliver { kind, from } => self.take_out(kind, from, s),
                    _ => {}
                }
                self.send(done.kind, s, done.receivers);
                self.sites[s as usize - 1] = done.site;
                let written = done.receivers.count_ones() as u8;
                Ok(Reply { passed: done.passed, written, awaited: done.site.awaited() })
            }
            Event::Stop if !(1..=self.n).contains(&s) => Err(2),
            Event::Stop if self.stopped & bit(s) != 0 => Err(3),
            Event::Stop => {
                self.stop(s);
                Ok(Reply { passed: false, written: 0, awaited: Awaited::default() })
            }
            Event::StopDuring(step, leaving) => {
                let done = self.step(s, step)?;
                let receivers = done.receivers & leaving;
                self.send(done.kind, s, receivers);
                self.stop(s);
                let written = receivers.count_ones() as u8;
                Ok(Reply { passed: false, written, awaited: Awaited::default() })
            }
        }
    }

    fn take_out(&mut self, kind: u8, from: u8, to: u8) {
        self.network[kind as usize - 1][from as usize - 1] &= !bit(to);
    }
}

impl Event {
    /// The event that K, O, M, V and X name; 13 or 14 where they name none.
    pub fn from_fields(k: u8, o: u8, m: u8, v: u8, x: u8) -> Result<Event, u8> {
        match k {
            1..=5 => match (Step::from_fields(k, o, m, v)?, x) {
                (step, 0) => Ok(Event::Step(step)),
                _ => Err(14),
            },
            6 if o | m | v | x == 0 => Ok(Event::Stop),
            6 => Err(14),
            17..=21 => Ok(Event::StopDuring(Step::from_fields(k - 16, o, m, v)?, x)),
            _ => Err(13),
        }
    }
}

/// `fj_run_fresh`.
pub fn run_fresh(n: u8, run: &mut [u8]) -> u8 {
    let Ok(bytes) = <&mut [u8; LENGTH]>::try_from(run) else {
        return 15;
    };
    let good = (2..=8).contains(&n);
    Run::fresh(if good { n } else { 0 }).to_bytes(bytes);
    !good as u8
}

/// `fj_run_event`.
#[allow(clippy::too_many_arguments)]
pub fn run_event(
    run: &mut [u8],
    k: u8,
    s: u8,
    o: u8,
    m: u8,
    v: u8,
    x: u8,
    answer: &mut [u8],
) -> u8 {
    let Some(answer) = answer.first_chunk_mut() else {
        return 15;
    };
    match happened(run, [k, s, o, m, v, x]) {
        Ok(reply) => {
            let Awaited { number, lowest } = reply.awaited;
            *answer = [reply.passed as u8, reply.written, number, lowest];
            0
        }
        Err(ground) => {
            *answer = [2, 0, 0, 0];
            ground
        }
    }
}

fn happened(run: &mut [u8], [k, s, o, m, v, x]: [u8; 6]) -> Result<Reply, u8> {
    let bytes = <&mut [u8; LENGTH]>::try_from(run).map_err(|_| 1)?;
    let mut run = Run::from_bytes(bytes).ok_or(1)?;
    let event = Event::from_fields(k, o, m, v, x)?;
    if !run.sound() {
        return Err(1);
    }
    let reply = run.event(s, event)?;
    run.to_bytes(bytes);
    Ok(reply)
}
