//! What a ledger has on its disk: a dated entry and a site record.

use fjadrimor::{Site, State, Vote};
use std::fmt;
use std::fs::{self, File, TryLockError};
use std::io::{self, Write};
use std::path::{Path, PathBuf};
use std::str::FromStr;

/// What has become of an entry.
#[derive(Clone, Copy, Debug, PartialEq, Eq)]
pub enum Standing {
    Open,
    Posted,
    BackedOut,
}

impl Standing {
    /// The standing of an entry whose ledger is in this state.
    pub fn of(state: State) -> Standing {
        match state {
            State::Commit => Standing::Posted,
            State::Abort => Standing::BackedOut,
            _ => Standing::Open,
        }
    }
}

impl fmt::Display for Standing {
    fn fmt(&self, out: &mut fmt::Formatter) -> fmt::Result {
        out.write_str(match self {
            Standing::Open => "open",
            Standing::Posted => "posted",
            Standing::BackedOut => "backed out",
        })
    }
}

/// A dated entry, in its file a line such as `2031-12-31 debit 1250 credit 1250 open`.
#[derive(Clone, Debug, PartialEq, Eq)]
pub struct Entry {
    pub date: String,
    pub debit: u64,
    pub credit: u64,
    pub standing: Standing,
}

impl Entry {
    /// The ledger's vote: an entry may be posted where it balances.
    pub fn vote(&self) -> Vote {
        if self.debit == self.credit {
            Vote::Yes
        } else {
            Vote::No
        }
    }
}

impl fmt::Display for Entry {
    fn fmt(&self, out: &mut fmt::Formatter) -> fmt::Result {
        let Entry { date, debit, credit, standing } = self;
        write!(out, "{date} debit {debit} credit {credit} {standing}")
    }
}

impl FromStr for Entry {
    type Err = io::Error;

    fn from_str(line: &str) -> io::Result<Entry> {
        let bad = || io::Error::other(format!("`{line}` is not an entry"));
        let [date, "debit", debit, "credit", credit, ref standing @ ..] =
            *line.split_whitespace().collect::<Vec<&str>>()
        else {
            return Err(bad());
        };
        let standing = match standing {
            ["open"] => Standing::Open,
            ["posted"] => Standing::Posted,
            ["backed", "out"] => Standing::BackedOut,
            _ => return Err(bad()),
        };
        let amount = |word: &str| word.parse::<u64>().map_err(|_| bad());
        let (debit, credit) = (amount(debit)?, amount(credit)?);
        Ok(Entry { date: date.to_string(), debit, credit, standing })
    }
}

/// The folder of one ledger.
#[derive(Clone, Debug)]
pub struct Disk(PathBuf);

impl Disk {
    pub(crate) fn new(folder: PathBuf) -> Disk {
        Disk(folder)
    }

    /// Makes the folder, with an open entry in it.
    pub(crate) fn open(folder: PathBuf, entry: &Entry) -> io::Result<Disk> {
        named(&folder, fs::create_dir(&folder))?;
        let disk = Disk(folder);
        disk.save_entry(entry)?;
        Ok(disk)
    }

    /// Makes sure that the ledger runs once. The lock holds until the file is closed, at the latest
    /// when the process ends.
    pub fn lock(&self) -> io::Result<File> {
        let path = self.0.join("lock");
        let file = named(&path, File::create(&path))?;
        match file.try_lock() {
            Ok(()) => Ok(file),
            Err(TryLockError::WouldBlock) => Err(io::Error::other("this ledger runs already")),
            Err(TryLockError::Error(error)) => named(&path, Err(error)),
        }
    }

    /// Where the ledger listens.
    pub fn socket(&self) -> PathBuf {
        self.0.join("socket")
    }

    /// The entry as its file has it. A ledger that was killed between saving its record and marking
    /// its entry has an open one here, and the record says what it is.
    pub fn entry(&self) -> io::Result<Entry> {
        let file = self.0.join("entry");
        named(&file, fs::read_to_string(&file).and_then(|line| line.parse()))
    }

    /// Marks the entry as the saved record has it.
    pub fn mark_entry(&self) -> io::Result<()> {
        let state = self.record()?.map_or(State::First, Site::state);
        self.save_entry(&Entry { standing: Standing::of(state), ..self.entry()? })
    }

    fn save_entry(&self, entry: &Entry) -> io::Result<()> {
        self.replace("entry", format!("{entry}\n").as_bytes())
    }

    /// The site record, if the ledger has taken part in a close.
    pub fn record(&self) -> io::Result<Option<Site>> {
        let file = self.0.join("record");
        let bytes = match fs::read(&file) {
            Err(error) if error.kind() == io::ErrorKind::NotFound => return Ok(None),
            read => named(&file, read)?,
        };
        let bytes = bytes.try_into().map_err(|_| io::Error::other("a record has eight bytes"));
        let site = bytes.and_then(|bytes| Site::from_bytes(bytes).map_err(io::Error::other));
        named(&file, site).map(Some)
    }

    pub fn save_record(&self, site: Site) -> io::Result<()> {
        self.replace("record", &site.bytes())
    }

    /// Puts a file in place of another in one move, so that a reader finds the old or the new. Then
    /// the move is on the disk too, and stays after a power cut.
    fn replace(&self, name: &str, content: &[u8]) -> io::Result<()> {
        let (file, fresh) = (self.0.join(name), self.0.join(format!("{name}.new")));
        named(&fresh, write(&fresh, content))?;
        named(&file, fs::rename(&fresh, &file))?;
        sync(&self.0)
    }
}

/// What came of an access to a file or folder; an error says to which.
pub fn named<T>(path: &Path, done: io::Result<T>) -> io::Result<T> {
    done.map_err(|error| io::Error::new(error.kind(), format!("{}: {error}", path.display())))
}

/// Writes a file, through to the disk.
pub(crate) fn write(file: &Path, content: &[u8]) -> io::Result<()> {
    let mut file = File::create(file)?;
    file.write_all(content)?;
    file.sync_all()
}

/// Brings a folder to the disk: which files it has, and under which names.
pub(crate) fn sync(folder: &Path) -> io::Result<()> {
    named(folder, File::open(folder).and_then(|folder| folder.sync_all()))
}

#[cfg(test)]
mod tests {
    use super::{Entry, Standing};
    use fjadrimor::Vote;

    #[test]
    fn an_entry_is_read_as_it_was_written() {
        for standing in [Standing::Open, Standing::Posted, Standing::BackedOut] {
            let entry = Entry { date: "2031-12-31".to_string(), debit: 5, credit: 7, standing };
            assert_eq!(entry.to_string().parse::<Entry>().ok(), Some(entry));
        }
    }

    #[test]
    fn what_is_no_entry_is_refused() {
        let lines =
            ["", "2031-12-31", "2031-12-31 debit 5 credit x open", "d debit 5 credit 5 lost"];
        assert!(lines.iter().all(|line| line.parse::<Entry>().is_err()));
    }

    #[test]
    fn a_ledger_votes_yes_where_its_entry_balances() {
        let vote = |line: &str| line.parse::<Entry>().map(|entry| entry.vote()).ok();
        assert_eq!(vote("2031-12-31 debit 5 credit 5 open"), Some(Vote::Yes));
        assert_eq!(vote("2031-12-31 debit 5 credit 6 open"), Some(Vote::No));
    }
}
