//! Journals: the events of a run as bytes.

use crate::{calls, Event, Refusal};

/// The bytes of a record.
const RECORD: usize = 9;
/// Room for the longest rehearsal.
const ROOM: usize = 1 << 20;

/// A journal: the number of sites, then a record of nine bytes for each event.
///
/// ```
/// use fjadrimor::{Event, Journal, Step, Vote};
///
/// let mut journal = Journal::new(2);
/// journal.push(Event::Act { site: 1, step: Step::Begin(Vote::Yes) })?;
/// assert_eq!(journal.rehearse(), "sites 2\n1 taken wq 2\nend 1 1\n");
/// # Ok::<(), fjadrimor::Refusal>(())
/// ```
#[derive(Clone, Debug, PartialEq, Eq, Hash)]
pub struct Journal(Vec<u8>);

impl Journal {
    /// The journal of n sites without events.
    pub fn new(n: u8) -> Journal {
        Journal(vec![n])
    }

    /// A saved journal. Any bytes will do; reading and rehearsal say where they are bad.
    pub fn from_bytes(bytes: Vec<u8>) -> Journal {
        Journal(bytes)
    }

    /// The journal as it is saved.
    pub fn bytes(&self) -> &[u8] {
        &self.0
    }

    /// Its records, without the number of sites: what [`Run::journal`](crate::Run::journal) takes.
    pub fn records(&self) -> &[u8] {
        self.0.get(1..).unwrap_or_default()
    }

    /// Adds the record of an event. Refused with 14 where a record cannot hold it.
    pub fn push(&mut self, event: Event) -> Result<(), Refusal> {
        let [k, s, o, m, v, x] = event.fields();
        let mut record = [0; RECORD];
        Refusal::heed(calls::record_write(k, s, o, m, v, x, &mut record, 0))?;
        self.0.extend(record);
        Ok(())
    }

    /// The events, up to the first bad record. Its refusal is the last item.
    pub fn events(&self) -> Events<'_> {
        Events { journal: &self.0, at: 1 }
    }

    /// What the rehearsal program prints for this journal. Like the program, it takes the first
    /// 65,536 bytes.
    pub fn rehearse(&self) -> String {
        let mut text = vec![0; ROOM];
        let length = calls::rehearse(&self.0, &mut text);
        text.truncate(length);
        String::from_utf8(text).expect("the library writes ASCII")
    }
}

/// The events of a journal.
#[derive(Clone, Debug)]
pub struct Events<'a> {
    journal: &'a [u8],
    at: usize,
}

impl Iterator for Events<'_> {
    type Item = Result<Event, Refusal>;

    fn next(&mut self) -> Option<Self::Item> {
        if self.at >= self.journal.len() {
            return None;
        }
        let mut fields = [0; 6];
        let read = Refusal::heed(calls::record_read(self.journal, self.at, &mut fields));
        // Nobody knows where the record after a bad one would start.
        self.at = if read.is_ok() { self.at + RECORD } else { self.journal.len() };
        Some(read.map(|()| Event::of_fields(fields).expect("the library reads events only")))
    }
}
