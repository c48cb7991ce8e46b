//! A register: a folder that says how many ledgers there are, with a folder for each.

use crate::disk::{named, sync, write, Disk, Entry};
use std::fs;
use std::io;
use std::ops::RangeInclusive;
use std::path::{Path, PathBuf};

/// How many ledgers a register can have: the library's sites.
pub const LEDGERS: RangeInclusive<u8> = 2..=8;

/// A register that has been opened.
#[derive(Clone, Debug)]
pub struct Register {
    folder: PathBuf,
    n: u8,
}

impl Register {
    /// Makes a register with a ledger for each entry. Where some ledger is there already, nothing is
    /// made. The number of ledgers comes last, so that a half-made register is none.
    pub fn open(folder: &Path, entries: &[Entry]) -> io::Result<Register> {
        let n = u8::try_from(entries.len()).ok().filter(|n| LEDGERS.contains(n));
        let n = n.ok_or_else(|| io::Error::other("a register has 2 to 8 ledgers"))?;
        let register = Register { folder: folder.to_path_buf(), n };
        must_be_new(folder, &register.count(), "this register has been opened already")?;
        for ledger in register.numbers().map(|number| register.ledger(number)) {
            must_be_new(&ledger, &ledger, "this ledger has been opened already")?;
        }
        named(folder, fs::create_dir_all(folder))?;
        for (number, entry) in (1..).zip(entries) {
            Disk::open(register.ledger(number), entry)?;
        }
        named(&register.count(), write(&register.count(), format!("{n}\n").as_bytes()))?;
        sync(folder)?;
        Ok(register)
    }

    /// The register in a folder.
    pub fn at(folder: &Path) -> io::Result<Register> {
        let register = Register { folder: folder.to_path_buf(), n: 0 };
        let count = match fs::read_to_string(register.count()) {
            Err(error) if error.kind() == io::ErrorKind::NotFound => {
                let reason = io::Error::other("here is no register; `ledgers open` makes one");
                return named(folder, Err(reason));
            }
            read => named(&register.count(), read)?,
        };
        let n = count.trim().parse().ok().filter(|n| LEDGERS.contains(n));
        let bad = || io::Error::other("this is no number of ledgers from 2 to 8");
        Ok(Register { n: named(&register.count(), n.ok_or_else(bad))?, ..register })
    }

    /// The number of ledgers.
    pub fn n(&self) -> u8 {
        self.n
    }

    /// The numbers of the ledgers.
    pub fn numbers(&self) -> RangeInclusive<u8> {
        1..=self.n
    }

    /// What a ledger has on its disk.
    pub fn disk(&self, number: u8) -> Disk {
        Disk::new(self.ledger(number))
    }

    fn ledger(&self, number: u8) -> PathBuf {
        self.folder.join(number.to_string())
    }

    fn count(&self) -> PathBuf {
        self.folder.join("ledgers")
    }
}

/// Refuses to make what is there: its entry may be posted.
fn must_be_new(place: &Path, sign: &Path, reason: &'static str) -> io::Result<()> {
    let free = |exists| match exists {
        true => Err(io::Error::other(reason)),
        false => Ok(()),
    };
    named(place, sign.try_exists().and_then(free))
}
