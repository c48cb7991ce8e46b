//! What comes of a close in which a ledger, or what carries its messages, does what the promise asks
//! it not to do: a shortest close that goes wrong, of all closes of two and of three ledgers, or how
//! many go wrong of so many at random. Each step is the proved library's.

mod chance;
mod mistake;
mod search;
mod world;

use fjadrimor::State;
use mistake::Mistake;
use search::Search;
use std::process::ExitCode;
use world::World;

const USAGE: &str = "usage: astray MISTAKE [CLOSES [SEED]]
       a shortest close that goes wrong by a mistake, or how many of so many at random do
       astray left
       where all have stopped, what one ledger has on its disk beside what another has
mistakes:";

/// Something that goes wrong, in words and at a moment.
type Wrong = (&'static str, fn(&World) -> bool);

const WRONGS: [Wrong; 2] = [
    ("an entry is posted beside one that is backed out", World::disagrees),
    ("a ledger that runs never decides", World::is_stuck),
];

/// Tells a shortest story of each thing that goes wrong, with two ledgers or else with three.
fn search(mistake: Mistake) {
    let two = Search::of(2, mistake);
    let mut three = None;
    for (wrong, is) in WRONGS {
        if let Some(story) = two.story(is) {
            tell(wrong, 2, &story);
            continue;
        }
        let three = three.get_or_insert_with(|| Search::of(3, mistake));
        match three.story(is) {
            Some(story) => tell(wrong, 3, &story),
            None => println!(
                "{wrong}: never, in {} moments of closes of two ledgers, {} of three",
                two.moments(),
                three.moments()
            ),
        }
    }
}

fn tell(wrong: &str, n: u8, story: &[String]) {
    println!("{wrong}, {n} ledgers:");
    for (number, line) in (1..).zip(story) {
        println!("{number:>3}  {line}");
    }
}

/// Tells what can be left where all ledgers have stopped.
fn left() {
    let pairs: Vec<_> =
        [2, 3].map(|n| Search::of(n, Mistake::Nothing).left()).into_iter().collect();
    println!("left on a disk   beside c   beside a");
    for state in [State::First, State::Wait, State::Prepared, State::Commit, State::Abort] {
        let beside = |other| {
            let found = pairs.iter().any(|pairs| pairs.contains(&(state, other)));
            if found {
                "found"
            } else {
                "never"
            }
        };
        let (posted, backed_out) = (beside(State::Commit), beside(State::Abort));
        println!("{}                {posted}      {backed_out}", state.letter());
    }
}

/// Counts what goes wrong in closes at random.
fn draw(mistake: Mistake, closes: u64, seed: u64) {
    let ends = chance::draw(closes, seed, mistake);
    println!("{closes} closes of three ledgers, seed {seed}");
    if !mistake.is_habit() && mistake != Mistake::Nothing {
        println!("{:>7}  have the mistake", ends.mistaken);
    }
    for ((wrong, _), count) in WRONGS.iter().zip([ends.disagree, ends.stuck]) {
        println!("{count:>7}  {wrong}");
    }
}

/// Does what the command line asks for, if it is understood.
fn done(words: &[&str]) -> Option<()> {
    let (name, numbers) = words.split_first()?;
    if words == ["left"] {
        left();
        return Some(());
    }
    let (mistake, _, sentence) = mistake::ALL.into_iter().find(|(_, other, _)| other == name)?;
    let numbers: Vec<u64> = numbers.iter().map(|word| word.parse().ok()).collect::<Option<_>>()?;
    if numbers.len() > 2 {
        return None;
    }
    println!("{sentence}");
    match numbers.first() {
        None => search(mistake),
        Some(&closes) => draw(mistake, closes, numbers.get(1).copied().unwrap_or(1981)),
    }
    Some(())
}

fn main() -> ExitCode {
    let words: Vec<String> = std::env::args().skip(1).collect();
    if done(&words.iter().map(String::as_str).collect::<Vec<&str>>()).is_some() {
        return ExitCode::SUCCESS;
    }
    eprintln!("{USAGE}");
    mistake::ALL.iter().for_each(|(_, name, sentence)| eprintln!("  {name}: {sentence}"));
    ExitCode::from(2)
}
