//! A run: all sites, the messages between them, and who has stopped.

use crate::day::Day;
use crate::sites::named;
use crate::{calls, Event, Kind, Message, Outcome, Refusal, Site, Sites};

/// The length of a run in bytes.
const LENGTH: usize = 138;
/// Where the site records begin, each of eight bytes.
const RECORDS: usize = 2;
/// Where the network begins: for each kind, for each sender, the set of receivers.
const NETWORK: usize = 66;

/// The answer to an event.
#[derive(Clone, Copy, Debug, PartialEq, Eq, Hash)]
pub struct Ran {
    pub outcome: Outcome,
    /// The number of messages written; of a stop inside a step, those that left.
    pub written: u8,
    /// The number of sites that the acting one still waits for; 0 after a stop.
    pub awaited: u8,
    /// The lowest of these, the one to ring; none where it waits for nobody, and after a stop.
    pub lowest: Option<u8>,
}

/// A run of two to eight sites.
///
/// ```
/// use fjadrimor::{Event, Run, State, Step, Vote};
///
/// let mut run = Run::fresh(2)?;
/// run.happens(Event::Act { site: 1, step: Step::Begin(Vote::Yes) })?;
/// run.happens(Event::Stop { site: 1 })?;
/// run.happens(Event::Act { site: 2, step: Step::Notice(1) })?;
/// run.happens(Event::Act { site: 2, step: Step::TakeOver })?;
/// assert_eq!(run.site(2).map(|site| site.state()), Some(State::Abort));
/// # Ok::<(), fjadrimor::Refusal>(())
/// ```
#[derive(Clone, Copy, Debug, PartialEq, Eq, Hash)]
pub struct Run([u8; LENGTH]);

impl Run {
    /// The fresh run of n sites. Refused with 1 where n is not 2 to 8.
    pub fn fresh(n: u8) -> Result<Run, Refusal> {
        let mut run = [0; LENGTH];
        Refusal::heed(calls::run_fresh(n, &mut run))?;
        Ok(Run(run))
    }

    /// A saved run. Bytes that are no sound run are refused with 1.
    pub fn from_bytes(bytes: [u8; LENGTH]) -> Result<Run, Refusal> {
        let mut run = Run(bytes);
        // A stop of site 0 changes nothing: it is refused with 2, and before that with 1 where the
        // run is not sound.
        match run.happens(Event::Stop { site: 0 }) {
            Err(Refusal::NotSound) => Err(Refusal::NotSound),
            _ => Ok(run),
        }
    }

    /// The run as it is saved.
    pub fn bytes(&self) -> [u8; LENGTH] {
        self.0
    }

    /// The number of sites.
    pub fn n(&self) -> u8 {
        self.0[0]
    }

    /// The sites that have stopped.
    pub fn stopped(&self) -> Sites {
        Sites::from_mask(self.0[1])
    }

    /// The record of a site from 1 to n.
    pub fn site(&self, number: u8) -> Option<Site> {
        let place = RECORDS + 8 * usize::from(number.checked_sub(1)?);
        let record = self.0.get(place..place + 8).filter(|_| number <= self.n())?;
        Site::from_bytes(record.try_into().ok()?).ok()
    }

    /// The messages under way, by kind, sender and receiver.
    pub fn outstanding(&self) -> impl Iterator<Item = Message> + '_ {
        let senders = Kind::ALL.into_iter().flat_map(|kind| (1..=8).map(move |from| (kind, from)));
        senders.flat_map(|(kind, from)| {
            let place = NETWORK + 8 * usize::from(kind.number() - 1) + usize::from(from - 1);
            Sites::from_mask(self.0[place]).iter().map(move |to| Message { kind, from, to })
        })
    }

    /// An event happens. A refused one changes nothing.
    ///
    /// A run that comes from [`Run::fresh`] stays sound. Any other sound run may be left not sound
    /// by an accepted event, and then the next one is refused with 1 (docs/DECISIONS.md, "Runs").
    pub fn happens(&mut self, event: Event) -> Result<Ran, Refusal> {
        let [k, s, o, m, v, x] = event.fields();
        let mut answer = [0; calls::RUN_ANSWER];
        Refusal::heed(calls::run_event(&mut self.0, k, s, o, m, v, x, &mut answer))?;
        let [outcome, written, awaited, lowest] = answer;
        Ok(Ran { outcome: Outcome::of_byte(outcome), written, awaited, lowest: named(lowest) })
    }

    /// The events of a day's journal happen: its records, from the front, until one is refused by
    /// the reader (10 to 14) or by the run (1 to 6), or no byte is left. It comes out as
    /// [`Run::happens`] on one event after another would. The run is as after the accepted ones.
    ///
    /// `records` may be any bytes, as many as there are. It has no number of sites before the first
    /// record: of a [`Journal`](crate::Journal) these are the
    /// [`records`](crate::Journal::records). A journal is of one run, that is of one entry; what
    /// follows behind its close is taken for events of the same one.
    ///
    /// ```
    /// use fjadrimor::{Event, Journal, Refusal, Run, Step, Vote};
    ///
    /// let mut journal = Journal::new(2);
    /// journal.push(Event::Act { site: 1, step: Step::Begin(Vote::Yes) })?;
    /// journal.push(Event::Act { site: 1, step: Step::Conclude })?;
    ///
    /// let mut run = Run::fresh(2)?;
    /// let day = run.journal(journal.records());
    /// assert_eq!((day.accepted, day.written), (1, 1));
    /// // No vote is heard yet. The record that is refused is the second: it starts at byte 9.
    /// assert_eq!((day.refusal, day.place), (Some(Refusal::NotAllowed), 9));
    /// // Site 1 awaits one vote, and site 2 is the one to ring.
    /// assert_eq!((day.awaited, day.lowest), (1, Some(2)));
    /// # Ok::<(), fjadrimor::Refusal>(())
    /// ```
    pub fn journal(&mut self, records: &[u8]) -> Day {
        let mut answer = [0; calls::DAY_ANSWER];
        let returned = calls::run_journal(&mut self.0, records, &mut answer);
        Day::of_answer(&answer, Refusal::heed(returned).err())
    }
}
