//! How the ledgers of a register come together, in whatever order and with whatever pauses they
//! are started.
//!
//! Until they have met nothing has happened: a ledger that goes away may be started again, as
//! another life. A ledger calls the lower ones and is called by the higher ones. Once it has a
//! socket to every other it says which lives it sees, and when all see the same, those lives have
//! met. Whoever knows that tells all others, and only then saves its record, with which its stop
//! begins to count.
//!
//! - One that has saved its record has told all others. So nobody who runs waits for somebody who
//!   has gone on: it has been told, or hears the end of the one that was about to tell it.
//! - No two that run have met different lives. A life is heard to its end before the next one of
//!   that ledger is seen: one that sees the next was not told by the former that they had met. And
//!   one that has met says no more what it sees.
//! - A ledger that was in a life that met, and is started again without a record, asks the others in
//!   vain: they tell it that it has stopped.

use crate::disk::named;
use crate::ledger::say;
use crate::mesh::{new_life, take_calls, Caller, Life, Lives, Mesh, News, Peer, Word};
use crate::register::Register;
use std::collections::BTreeMap;
use std::fs;
use std::io;
use std::ops::Range;
use std::os::unix::net::UnixListener;
use std::sync::atomic::{AtomicBool, Ordering::Relaxed};
use std::sync::mpsc::{Receiver, Sender};
use std::sync::Arc;
use std::thread;
use std::time::{Duration, Instant};

/// How long a ledger waits for the same others before it says for whom.
const QUIET: Duration = Duration::from_millis(200);

/// How a meeting ends.
pub enum Outcome {
    /// All have met. Some may have stopped since; and the operator may have asked for the close.
    Met { mesh: Mesh, stopped: Vec<u8>, close: bool },
    /// The others have met an earlier life of this ledger, and gone on without it.
    TurnedAway,
}

/// A ledger that waits for the others.
pub struct Meeting {
    n: u8,
    number: u8,
    life: Life,
    inbox: Sender<News>,
    /// Those to whom there is a socket.
    peers: BTreeMap<u8, Peer>,
    /// What each of these says that it sees.
    seen: BTreeMap<u8, Lives>,
    /// What this one has said that it sees.
    told: Option<Lives>,
    close: bool,
}

impl Meeting {
    pub fn new(n: u8, number: u8, inbox: Sender<News>) -> Meeting {
        let (peers, seen) = Default::default();
        Meeting { n, number, life: new_life(), inbox, peers, seen, told: None, close: false }
    }

    /// Calls the lower ledgers, is called by the higher ones, and waits until all have met. After a
    /// while it also asks the higher ones whether it is too late.
    pub fn meets(mut self, register: &Register, news: &Receiver<News>) -> io::Result<Outcome> {
        let is_over = Arc::new(AtomicBool::new(false));
        self.opens(register)?;
        self.calls(register, 1..self.number, &is_over);
        let mut higher = self.number + 1..self.n + 1;
        let mut patience = Patience { awaited: self.awaited(), since: Instant::now(), said: false };
        loop {
            if let Ok(news) = news.recv_timeout(QUIET) {
                if let Some(outcome) = self.hears(news)? {
                    is_over.store(true, Relaxed);
                    return Ok(outcome);
                }
            }
            if patience.waits(self.awaited()) {
                self.calls(register, std::mem::take(&mut higher), &is_over);
            }
        }
    }

    /// The socket to be called on comes up. The file of an earlier life gives way; the ledger's lock
    /// is held.
    fn opens(&self, register: &Register) -> io::Result<()> {
        let place = register.disk(self.number).socket();
        let listener = match fs::remove_file(&place) {
            Err(error) if error.kind() != io::ErrorKind::NotFound => Err(error),
            _ => UnixListener::bind(&place),
        };
        let (listener, inbox) = (named(&place, listener)?, self.inbox.clone());
        thread::spawn(move || take_calls(&listener, &inbox));
        Ok(())
    }

    /// Calls others until the meeting is over.
    fn calls(&self, register: &Register, others: Range<u8>, is_over: &Arc<AtomicBool>) {
        for to in others {
            let (place, inbox) = (register.disk(to).socket(), self.inbox.clone());
            let caller = Caller { number: self.number, life: self.life, to, place, inbox };
            let is_over = is_over.clone();
            thread::spawn(move || caller.calls(&is_over));
        }
    }

    fn others(&self) -> impl Iterator<Item = u8> {
        let number = self.number;
        (1..=self.n).filter(move |&other| other != number)
    }

    /// The ledgers to which there is no socket.
    fn awaited(&self) -> Vec<u8> {
        self.others().filter(|other| !self.peers.contains_key(other)).collect()
    }

    /// The lives that this ledger sees, if it sees one of every ledger.
    fn lives(&self) -> Option<Lives> {
        let mut lives = [0; 8];
        lives[usize::from(self.number) - 1] = self.life;
        for (&number, peer) in &self.peers {
            lives[usize::from(number) - 1] = peer.life;
        }
        self.awaited().is_empty().then_some(lives)
    }

    /// Something is heard; how the meeting ends, if it ends by that.
    fn hears(&mut self, news: News) -> io::Result<Option<Outcome>> {
        match news {
            News::Close => self.close = true,
            News::Called(peer) => self.is_called(peer)?,
            News::Answered(peer) => drop(self.peers.insert(peer.number, peer)),
            News::TurnedAway => return Ok(Some(Outcome::TurnedAway)),
            News::Said { from, word: Word::Sees(lives), .. } => drop(self.seen.insert(from, lives)),
            News::Said { word: Word::Met(lives), .. } => return Ok(Some(self.met(lives))),
            News::Said { .. } => {}
            News::Ended { number, .. } => self.loses(number),
        }
        Ok(self.agrees())
    }

    /// A higher ledger is answered, unless its earlier life has not been heard out: it calls again.
    /// So does a lower one, which only asks whether it is too late.
    fn is_called(&mut self, peer: Peer) -> io::Result<()> {
        let is_higher = (self.number + 1..=self.n).contains(&peer.number);
        let is_new = !self.peers.contains_key(&peer.number);
        if is_higher && is_new && peer.answer(self.life).is_ok() {
            peer.listen(&self.inbox)?;
            self.peers.insert(peer.number, peer);
        }
        Ok(())
    }

    fn loses(&mut self, number: u8) {
        self.peers.remove(&number);
        self.seen.remove(&number);
        self.told = None;
    }

    /// Where this ledger sees all others it says so, and where all see the same they have met.
    fn agrees(&mut self) -> Option<Outcome> {
        let lives = self.lives()?;
        if self.told.replace(lives) != Some(lives) {
            self.peers.values().for_each(|peer| peer.say(Word::Sees(lives)));
        }
        let same = self.others().all(|other| self.seen.get(&other) == Some(&lives));
        same.then(|| self.met(lives))
    }

    /// These lives have met. Whoever is here in another life has stopped, and so has whoever is gone.
    fn met(&mut self, lives: Lives) -> Outcome {
        let mut peers = std::mem::take(&mut self.peers);
        let late = |peer: &Peer| lives[usize::from(peer.number) - 1] != peer.life;
        peers.values().filter(|peer| late(peer)).for_each(Peer::hang_up);
        peers.retain(|_, peer| !late(peer));
        peers.values().for_each(|peer| peer.say(Word::Met(lives)));
        let stopped = self.others().filter(|other| !peers.contains_key(other)).collect();
        Outcome::Met { mesh: Mesh { lives, peers }, stopped, close: self.close }
    }
}

/// Whom a ledger waits for, since when, and whether it has said so.
struct Patience {
    awaited: Vec<u8>,
    since: Instant,
    said: bool,
}

impl Patience {
    /// Says for whom, where they have been the same for a while; whether it has said so just now.
    fn waits(&mut self, awaited: Vec<u8>) -> bool {
        if awaited != self.awaited {
            *self = Patience { awaited, since: Instant::now(), said: false };
        }
        if self.said || self.awaited.is_empty() || self.since.elapsed() < QUIET {
            return false;
        }
        let names: Vec<String> = self.awaited.iter().map(u8::to_string).collect();
        say(format_args!("waits for {}", names.join(", ")));
        self.said = true;
        true
    }
}
