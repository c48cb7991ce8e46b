//! Kills ledgers in the middle of closes, and looks at every disk afterwards.
//!
//! Each close has three to five ledger processes. Some are killed (SIGKILL) as they are about to
//! take an action, or at full speed at no particular moment. Afterwards no entry may be posted
//! beside one that is backed out, on the disks of killed ledgers too, and every ledger that still
//! runs must have decided. What the ledgers said is then replayed as a run of the rules, in which
//! each of them must come to the very record that is on its disk.

mod close;
mod plan;
mod replay;
mod tally;

use ledgers::random::Random;
use plan::Plan;
use std::io;
use std::path::PathBuf;
use std::process::ExitCode;
use std::sync::atomic::{AtomicU64, Ordering::Relaxed};
use std::sync::Mutex;
use std::thread;
use std::time::{Duration, Instant};
use tally::Tally;

const USAGE: &str = "usage: kills [CLOSES [SEED]]";

/// After so long no further close is begun.
const LIMIT: Duration = Duration::from_secs(50);

/// The number of closes at a time.
const AT_A_TIME: usize = 4;

/// A folder for registers, in memory where there is one.
fn workplace() -> PathBuf {
    let memory = PathBuf::from("/dev/shm");
    let place = if memory.is_dir() { memory } else { std::env::temp_dir() };
    place.join(format!("ledgers-{}", std::process::id()))
}

/// Closes to be run, some at a time.
struct Closes {
    count: u64,
    seed: u64,
    start: Instant,
    place: PathBuf,
    begun: AtomicU64,
    tally: Mutex<Tally>,
}

impl Closes {
    /// The number of the next close, if there is one.
    fn next(&self) -> Option<u64> {
        let number = 1 + self.begun.fetch_add(1, Relaxed);
        (number <= self.count && self.start.elapsed() < LIMIT).then_some(number)
    }

    /// Runs closes while there are any, each with random numbers of its own.
    fn work(&self) -> io::Result<()> {
        while let Some(number) = self.next() {
            let mut random = Random::new(self.seed, number);
            let plan = Plan::any(&mut random);
            let told = close::run(&self.place.join(number.to_string()), plan, &mut random)?;
            self.tally.lock().expect("nobody panics").add(number, &told);
        }
        Ok(())
    }
}

/// Runs so many closes from a seed; whether all is well.
fn run(count: u64, seed: u64) -> io::Result<bool> {
    println!("seed {seed}");
    let (start, place) = (Instant::now(), workplace());
    let (begun, tally) = Default::default();
    let closes = Closes { count, seed, start, place, begun, tally };
    thread::scope(|scope| {
        let workers = [(); AT_A_TIME].map(|()| scope.spawn(|| closes.work()));
        workers.into_iter().try_for_each(|worker| worker.join().expect("nobody panics"))
    })?;
    std::fs::remove_dir_all(&closes.place)?;
    println!("{:.1} s", start.elapsed().as_secs_f64());
    Ok(closes.tally.into_inner().expect("nobody panics").finish())
}

fn main() -> ExitCode {
    let numbers: Option<Vec<u64>> =
        std::env::args().skip(1).map(|word| word.parse().ok()).collect();
    let done = match numbers.as_deref() {
        Some([]) => run(600, 1981),
        Some([count]) => run(*count, 1981),
        Some([count, seed]) => run(*count, *seed),
        _ => {
            eprintln!("{USAGE}");
            return ExitCode::from(2);
        }
    };
    match done {
        Ok(true) => ExitCode::SUCCESS,
        Ok(false) => ExitCode::FAILURE,
        Err(error) => {
            eprintln!("kills: {error}");
            ExitCode::FAILURE
        }
    }
}
