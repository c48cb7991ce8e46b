//! The sockets between ledgers, and what goes over them.
//!
//! Whoever calls says its number and its life; whoever is called answers with its own life. Then
//! words go both ways. The end of a socket is the end of that life: nothing more will come of it.

use fjadrimor::Kind;
use std::collections::BTreeMap;
use std::hash::{BuildHasher, Hasher, RandomState};
use std::io::{self, BufReader, Read, Write};
use std::net::Shutdown;
use std::os::unix::net::{UnixListener, UnixStream};
use std::path::PathBuf;
use std::sync::atomic::{AtomicBool, Ordering::Relaxed};
use std::sync::mpsc::Sender;
use std::thread;
use std::time::Duration;

/// The time between two calls to a ledger that is not there, at first and at most.
const PAUSES: [Duration; 2] = [Duration::from_millis(1), Duration::from_millis(64)];

/// One start of a ledger, by a number drawn at random. A ledger that is started again has another.
pub type Life = u64;

/// No ledger's life: the answer of one that has gone on without the caller.
const NO_LIFE: Life = 0;

/// A life for a ledger that is being started.
pub fn new_life() -> Life {
    RandomState::new().build_hasher().finish().max(NO_LIFE + 1)
}

/// The lives of all ledgers by their numbers, the first one's first; 0 beyond the last.
pub type Lives = [Life; 8];

/// What one ledger says to another.
#[derive(Clone, Copy, Debug, PartialEq, Eq)]
pub enum Word {
    /// Before they have met: these are the lives that I see.
    Sees(Lives),
    /// These lives have met.
    Met(Lives),
    /// A message of the close. Its kind is a byte as it came.
    Message(u8),
}

/// The first bytes of the words that are no messages; their lives follow.
const SEES: u8 = b's';
const MET: u8 = b'm';

impl Word {
    fn bytes(self) -> Vec<u8> {
        let with = |first: u8, lives: Lives| {
            [first].into_iter().chain(lives.into_iter().flat_map(Life::to_be_bytes)).collect()
        };
        match self {
            Word::Sees(lives) => with(SEES, lives),
            Word::Met(lives) => with(MET, lives),
            Word::Message(kind) => vec![kind],
        }
    }

    fn read(socket: &mut impl Read) -> io::Result<Word> {
        let mut first = [0];
        socket.read_exact(&mut first)?;
        Ok(match first[0] {
            SEES => Word::Sees(read_lives(socket)?),
            MET => Word::Met(read_lives(socket)?),
            kind => Word::Message(kind),
        })
    }
}

fn read_lives(socket: &mut impl Read) -> io::Result<Lives> {
    let mut bytes = [[0; 8]; 8];
    socket.read_exact(bytes.as_flattened_mut())?;
    Ok(bytes.map(Life::from_be_bytes))
}

fn read_life(socket: &mut impl Read) -> io::Result<Life> {
    let mut bytes = [0; 8];
    socket.read_exact(&mut bytes)?;
    Ok(Life::from_be_bytes(bytes))
}

/// Another ledger, in one of its lives, and the socket to it.
#[derive(Debug)]
pub struct Peer {
    pub number: u8,
    pub life: Life,
    pub socket: UnixStream,
}

impl Peer {
    /// Says a word, in one write, so that it leaves whole or not at all. Where the other has stopped
    /// it is lost; that it has stopped is heard by reading.
    pub fn say(&self, word: Word) {
        let _ = (&self.socket).write_all(&word.bytes());
    }

    /// Answers a call.
    pub fn answer(&self, life: Life) -> io::Result<()> {
        (&self.socket).write_all(&life.to_be_bytes())
    }

    /// Tells a caller that the others have gone on without it.
    pub fn turn_away(&self) {
        let _ = self.answer(NO_LIFE);
    }

    /// Ends the socket, though another thread may be reading from it.
    pub fn hang_up(&self) {
        let _ = self.socket.shutdown(Shutdown::Both);
    }

    /// From now on what it says is put into the inbox.
    pub fn listen(&self, inbox: &Sender<News>) -> io::Result<()> {
        let (number, life) = (self.number, self.life);
        let (socket, inbox) = (self.socket.try_clone()?, inbox.clone());
        thread::spawn(move || hear(socket, number, life, &inbox));
        Ok(())
    }
}

/// What comes to a ledger, from its operator or over the sockets.
#[derive(Debug)]
pub enum News {
    /// The operator asks for the close.
    Close,
    /// Another ledger has called.
    Called(Peer),
    /// Another ledger has answered a call.
    Answered(Peer),
    /// Another ledger has answered that all have gone on without this one.
    TurnedAway,
    /// Another ledger has said something.
    Said { from: u8, life: Life, word: Word },
    /// Another ledger has closed its socket: that life is over.
    Ended { number: u8, life: Life },
}

/// Reads all that a ledger says, and only then reports that its life is over. An error is the end
/// too: it means that the other end was closed before it had read everything.
fn hear(socket: UnixStream, from: u8, life: Life, inbox: &Sender<News>) {
    let mut socket = BufReader::new(socket);
    while let Ok(word) = Word::read(&mut socket) {
        let _ = inbox.send(News::Said { from, life, word });
    }
    let _ = inbox.send(News::Ended { number: from, life });
}

/// Takes calls.
pub fn take_calls(listener: &UnixListener, inbox: &Sender<News>) {
    for socket in listener.incoming().map_while(Result::ok) {
        if let Ok(peer) = caller(socket) {
            let _ = inbox.send(News::Called(peer));
        }
    }
}

/// Who calls: that comes with the call, and whoever does not say it at once is no ledger.
fn caller(mut socket: UnixStream) -> io::Result<Peer> {
    socket.set_read_timeout(Some(PAUSES[1]))?;
    let mut hello = [0; 9];
    socket.read_exact(&mut hello)?;
    socket.set_read_timeout(None)?;
    let [number, life @ ..] = hello;
    Ok(Peer { number, life: Life::from_be_bytes(life), socket })
}

/// A ledger that calls another.
pub struct Caller {
    pub number: u8,
    pub life: Life,
    /// Whom it calls, and where that one listens.
    pub to: u8,
    pub place: PathBuf,
    pub inbox: Sender<News>,
}

impl Caller {
    /// Calls until the meeting is over. While a call holds, what the other says is heard.
    pub fn calls(&self, is_over: &AtomicBool) {
        let [shortest, longest] = PAUSES;
        let mut pause = shortest;
        while !is_over.load(Relaxed) {
            let called = self.call().and_then(|(life, socket)| self.speaks(life, socket));
            pause = if called.is_ok() { shortest } else { longest.min(2 * pause) };
            thread::sleep(pause);
        }
    }

    /// One call, and the life that answers it.
    fn call(&self) -> io::Result<(Life, UnixStream)> {
        let mut socket = UnixStream::connect(&self.place)?;
        let mut hello = vec![self.number];
        hello.extend(self.life.to_be_bytes());
        socket.write_all(&hello)?;
        Ok((read_life(&mut socket)?, socket))
    }

    /// What follows an answer, to the end of that life.
    fn speaks(&self, life: Life, socket: UnixStream) -> io::Result<()> {
        if life == NO_LIFE {
            let _ = self.inbox.send(News::TurnedAway);
            return Ok(());
        }
        let hearing = socket.try_clone()?;
        let _ = self.inbox.send(News::Answered(Peer { number: self.to, life, socket }));
        hear(hearing, self.to, life, &self.inbox);
        Ok(())
    }
}

/// What a ledger hears in a close.
#[derive(Clone, Copy, Debug, PartialEq, Eq)]
pub enum Heard {
    /// The operator asks for the close.
    Close,
    /// A message has come. Its kind is the byte that was read.
    Message { kind: u8, from: u8 },
    /// Another ledger has closed its socket: it has stopped.
    Gone(u8),
}

/// The ledgers that have met.
#[derive(Debug)]
pub struct Mesh {
    pub lives: Lives,
    /// Those of them that had not stopped by then, by number.
    pub peers: BTreeMap<u8, Peer>,
}

impl Mesh {
    /// Sends a message.
    pub fn send(&self, kind: Kind, to: u8) {
        if let Some(peer) = self.peers.get(&to) {
            peer.say(Word::Message(kind.number()));
        }
    }

    /// What some news mean in the close, if they mean anything there.
    pub fn hears(&self, news: News) -> Option<Heard> {
        let has_met = |number, life| self.peers.get(&number).is_some_and(|peer| peer.life == life);
        match news {
            News::Close => return Some(Heard::Close),
            News::Said { from, life, word: Word::Message(kind) } if has_met(from, life) => {
                return Some(Heard::Message { kind, from });
            }
            News::Ended { number, life } if has_met(number, life) => {
                return Some(Heard::Gone(number));
            }
            News::Called(peer) => self.is_called(&peer),
            _ => {}
        }
        None
    }

    /// A ledger that was started again after they had met has stopped, and is told so. Another only
    /// has not heard yet that they have met.
    fn is_called(&self, peer: &Peer) {
        if !self.lives.contains(&peer.life) {
            peer.turn_away();
        }
    }
}
