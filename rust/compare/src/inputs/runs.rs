//! Runs and their events, as bytes: n, stopped, eight records, nine rows of eight senders.

use super::{any_step, sound_site, steps, Fields, Random};

/// The length of a run.
pub const RUN: usize = 138;
/// Where the network begins.
const NETWORK: usize = 66;

/// K, S, O, M, V, X of an event.
pub type Event = [u8; 6];

fn weight(site: u8) -> u8 {
    1 << (site - 1)
}

/// The mask of sites 1..n.
fn sites(n: u8) -> u8 {
    (0xFFu16 >> (8 - n)) as u8
}

/// The receivers that a kind of message from a sender may have among n sites.
fn right_receivers(n: u8, kind: u8, sender: u8) -> u8 {
    let below = weight(sender) - 1;
    let receivers = match kind {
        1 if sender == 1 => !1,
        2 | 3 => below & 1,
        6 => below,
        4 | 5 | 7 | 8 => !(below | weight(sender)),
        _ => 0,
    };
    receivers & sites(n)
}

/// An arbitrary sound run of n sites; places above n hold whatever has a state.
pub fn sound_run(random: &mut Random, n: u8) -> Vec<u8> {
    let stopped = sites(n) & random.byte() & random.byte();
    let mut run = vec![n, stopped];
    for place in 1..=8 {
        let mut record = sound_site(random, n.max(place), place);
        record[0] = if place <= n { n } else { random.byte() };
        record[4] &= if place <= n { stopped } else { 0xFF };
        run.extend(record);
    }
    let dense = random.once_in(2);
    for (kind, sender) in (1..=9).flat_map(|kind| (1..=8).map(move |sender| (kind, sender))) {
        let right = if sender <= n { right_receivers(n, kind, sender) } else { 0 };
        let some = if dense { 0xFF } else { random.byte() & random.byte() };
        run.push(random.byte() & some & right & !stopped);
    }
    run
}

/// A sound run that may lose that: a site above 1 leads though a lower one runs, and all others have
/// acknowledged. When it concludes, it writes to that lower one, and no such message goes that way.
pub fn unordered_run(random: &mut Random, n: u8) -> Vec<u8> {
    let leader = random.within(2, n);
    let both = weight(leader) | weight(random.within(1, leader - 1));
    let mut run = sound_run(random, n);
    while run[1] & both != 0 {
        run = sound_run(random, n);
    }
    let record = &mut run[2 + 8 * (leader as usize - 1)..][..8];
    record[2] = random.within(1, 2);
    record[3] = leader;
    record[7] = sites(n) & !weight(leader);
    run
}

/// A sound run in which some site leads and has heard from all below another one: that is then the
/// lowest awaited, unless it is the leader itself, is known to have stopped, or its No was heard. Only
/// the leader has messages to come.
pub fn waiting_run(random: &mut Random, n: u8) -> Vec<u8> {
    let mut run = sound_run(random, n);
    let (leader, lowest) = (random.within(1, n), random.within(1, n));
    let heard = (weight(lowest) - 1) & !weight(leader);
    let record = &mut run[2 + 8 * (leader as usize - 1)..][..8];
    record[2] = random.within(1, 2);
    record[3] = leader;
    record[5] = heard;
    record[7] = heard;
    run[NETWORK..].iter_mut().for_each(|receivers| *receivers &= weight(leader));
    run
}

/// A sound run three times in four; else one byte or bit is another, or all bytes are.
pub fn any_run(random: &mut Random) -> Vec<u8> {
    let n = random.within(2, 8);
    let mut run = sound_run(random, n);
    let place = random.below(RUN as u64) as usize;
    match random.below(32) {
        0..=23 => {}
        24 | 25 => run[place] = random.byte(),
        26 | 27 => run[place] ^= 1 << random.below(8),
        28 => run[random.below(2) as usize] = random.within(0, 9),
        29 => run[2 + place % 64] = random.within(0, 9),
        30 => run.iter_mut().skip(2).for_each(|byte| *byte &= 3),
        _ => run = random.bytes(RUN),
    }
    run
}

/// One of the outstanding messages, delivered with some vote if it is a Start.
fn delivery(random: &mut Random, run: &[u8]) -> Option<Event> {
    let start = random.below(72) as usize;
    let place = (0..72).map(|i| (start + i) % 72).find(|&place| run[NETWORK + place] != 0)?;
    let receivers: Vec<u8> = (1..=8).filter(|&j| run[NETWORK + place] & weight(j) != 0).collect();
    let kind = place as u8 / 8 + 1;
    let vote = if kind != 1 { 0 } else { 1 + random.once_in(6) as u8 };
    Some([2, *random.pick(&receivers), place as u8 % 8 + 1, kind, vote, 0])
}

/// A site's notice that some stopped one has stopped.
fn notice(random: &mut Random, run: &[u8], site: u8) -> Option<Event> {
    let unknown = run[1] & !run[2 + 8 * (site as usize - 1) + 4] & !weight(site);
    let stopped: Vec<u8> = (1..=8).filter(|&j| unknown & weight(j) != 0).collect();
    (!stopped.is_empty()).then(|| [3, site, *random.pick(&stopped), 0, 0, 0])
}

/// A step that has a good chance in a run of n sites.
fn likely_step(random: &mut Random, run: &[u8], n: u8) -> Event {
    let site = random.within(1, n);
    let known = match random.below(32) {
        0..=15 => delivery(random, run),
        16..=22 => notice(random, run, site),
        23..=26 => Some([4, site, 0, 0, 0, 0]),
        27..=29 => Some([5, site, 0, 0, 0, 0]),
        _ => Some([1, 1, 0, 0, 1 + random.once_in(8) as u8, 0]),
    };
    known.unwrap_or([5, site, 0, 0, 0, 0])
}

/// An event with any fields, nine times in ten such as the interface takes.
fn any_event(random: &mut Random, steps: &[Fields]) -> Event {
    let [k, o, m, v] = any_step(random, steps);
    let mut event = [k, random.within(0, 9), o, m, v, 0];
    match random.below(8) {
        0 => event = [6, event[1], 0, 0, 0, 0],
        1..=3 => {
            event[0] = k.wrapping_add(16);
            event[5] = random.byte();
        }
        4 if random.once_in(8) => event[random.below(6) as usize] = random.byte(),
        _ => {}
    }
    event
}

/// Events for a run: most of them likely, some of them any.
pub struct Events {
    steps: Vec<Fields>,
    /// One event in so many is any event at all.
    pub stray: u64,
    /// One likely event in so many is a stop or inside one.
    pub stops: u64,
}

impl Events {
    pub fn new(stray: u64, stops: u64) -> Events {
        Events { steps: steps(9), stray, stops }
    }

    pub fn next(&self, random: &mut Random, run: &[u8]) -> Event {
        if run.len() != RUN || !(2..=8).contains(&run[0]) || random.once_in(self.stray) {
            return any_event(random, &self.steps);
        }
        let mut event = likely_step(random, run, run[0]);
        if random.once_in(self.stops) {
            if random.once_in(2) {
                return [6, event[1], 0, 0, 0, 0];
            }
            event[0] += 16;
            event[5] = random.byte();
        }
        event
    }
}
