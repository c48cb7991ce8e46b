//! One ledger of a register, as a process.

use fjadrimor::Site;
use ledgers::disk::{Entry, Standing};
use ledgers::ledger::{say, Ledger, Pace, Trouble};
use ledgers::meeting::{Meeting, Outcome};
use ledgers::mesh::{Heard, News};
use ledgers::register::{Register, LEDGERS};
use std::io;
use std::ops::RangeInclusive;
use std::path::Path;
use std::process::{exit, ExitCode};
use std::sync::mpsc::{channel, Sender};
use std::thread;

const USAGE: &str = "usage: ledgers open REGISTER LEDGERS
           make a folder with so many new ledgers (2 to 8), each with one open entry
       ledgers run REGISTER NUMBER [paced]
           run one ledger; it waits until all have met, in whatever order they are started.
           `close` at ledger 1 begins the close, end of input ends the ledger
           (paced: an empty line lets it take its next action)
       ledgers show REGISTER
           show each ledger's state and entry

exit status: 0 done, 1 it could not be done, 2 the command is not understood";

/// What the operator types: `close`, an empty line to go on, and the end.
fn operator(inbox: &Sender<News>, go: &Sender<()>) {
    for line in io::stdin().lines().map_while(Result::ok) {
        match line.trim() {
            "close" => drop(inbox.send(News::Close)),
            "" => drop(go.send(())),
            other => say(format_args!("`{other}` is not understood: close, or an empty line")),
        }
    }
    // The ledger stops here, wherever it is: for the others that is a stop like any other.
    say("its input has ended, and so has the ledger");
    exit(0);
}

/// Runs a ledger until its input ends. Its record is saved once all have met; before that it has
/// done nothing, and may be started again.
fn run(register: &Register, number: u8, paced: bool) -> Result<(), Trouble> {
    let disk = register.disk(number);
    let _lock = disk.lock()?;
    if disk.record()?.is_some() {
        disk.mark_entry()?;
        return Err(io::Error::other("this ledger has stopped, and a stop is for ever").into());
    }
    let site = Site::fresh(register.n(), number)?;
    let (inbox, news) = channel();
    let (go, paces) = channel();
    let typed = inbox.clone();
    thread::spawn(move || operator(&typed, &go));
    let met = Meeting::new(register.n(), number, inbox).meets(register, &news)?;
    disk.save_record(site)?;
    let Outcome::Met { mesh, stopped, close } = met else {
        let reason = "the others have gone on without this ledger: it has stopped";
        return Err(io::Error::other(reason).into());
    };
    say("ready");
    let mut ledger = Ledger::new(site, disk, mesh, Pace(paced.then_some(paces)));
    let early = stopped.into_iter().map(Heard::Gone).chain(close.then_some(Heard::Close));
    early.into_iter().try_for_each(|heard| ledger.hears(heard))?;
    news.into_iter().try_for_each(|news| ledger.learns(news))
}

/// Makes a register whose entries are open and balance.
fn open(folder: &Path, n: u8) -> io::Result<()> {
    let date = "2031-12-31".to_string();
    let entry = Entry { date, debit: 1250, credit: 1250, standing: Standing::Open };
    Register::open(folder, &vec![entry; n.into()]).map(drop)
}

/// Shows each ledger's state, and its entry.
fn show(register: &Register) -> io::Result<()> {
    for number in register.numbers() {
        let disk = register.disk(number);
        let letter = disk.record()?.map_or('-', |site| site.state().letter());
        say(format_args!("ledger {number} {letter}: {}", disk.entry()?));
    }
    Ok(())
}

/// Why a command is not done.
enum Fault {
    /// It is not understood.
    Usage(String),
    Trouble(Trouble),
}

impl<T: Into<Trouble>> From<T> for Fault {
    fn from(trouble: T) -> Fault {
        Fault::Trouble(trouble.into())
    }
}

/// A number in a range, from the command line.
fn number(word: &str, range: RangeInclusive<u8>, what: &str) -> Result<u8, Fault> {
    let (first, last) = (range.start(), range.end());
    let bad = || Fault::Usage(format!("`{word}` is not {what}, from {first} to {last}"));
    word.parse().ok().filter(|number| range.contains(number)).ok_or_else(bad)
}

/// Runs the ledger that the command line names.
fn runs(folder: &str, word: &str, paced: bool) -> Result<(), Fault> {
    let number = number(word, 1..=*LEDGERS.end(), "the number of a ledger")?;
    let register = Register::at(Path::new(folder))?;
    if !register.numbers().contains(&number) {
        let n = register.n();
        let reason = format!("{folder}: there is no ledger {number} in this register of {n}");
        return Err(io::Error::other(reason).into());
    }
    Ok(run(&register, number, paced)?)
}

/// Does what the command line asks for.
fn done(arguments: &[&str]) -> Result<(), Fault> {
    match arguments {
        _ if arguments.iter().any(|word| ["--help", "-h"].contains(word)) => say(USAGE),
        ["open", folder, n] => {
            open(Path::new(folder), number(n, LEDGERS, "a number of ledgers")?)?;
        }
        ["run", folder, number] => runs(folder, number, false)?,
        ["run", folder, number, "paced"] => runs(folder, number, true)?,
        ["show", folder] => show(&Register::at(Path::new(folder))?)?,
        [] => return Err(Fault::Usage("there is no command".to_string())),
        words => return Err(Fault::Usage(format!("`{}` is not understood", words.join(" ")))),
    }
    Ok(())
}

fn main() -> ExitCode {
    let arguments: Vec<String> = std::env::args().skip(1).collect();
    match done(&arguments.iter().map(String::as_str).collect::<Vec<&str>>()) {
        Ok(()) => ExitCode::SUCCESS,
        Err(Fault::Trouble(trouble)) => {
            eprintln!("ledgers: {trouble}");
            ExitCode::FAILURE
        }
        Err(Fault::Usage(reason)) => {
            eprintln!("ledgers: {reason}\n{USAGE}");
            ExitCode::from(2)
        }
    }
}
