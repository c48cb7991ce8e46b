//! The second program's commands.

use second::explore::{bound, explore, Findings, CLAIMS};
use second::run::{event, Rule};
use second::words::journal;
use second::wrong::WRONG;
use std::io::Read;
use std::process::ExitCode;

const USAGE: &str = "usage: second explore N [--wrong RULE] [--claim CLAIM]
         N is 2 to 8, feasible up to 4
       second rehearsal < JOURNAL
       second sheets < SHEET";

/// Searches all runs of n sites by the rule and for the claims that the other arguments name: 01's
/// own rule and every claim where they name none. What a wrong rule does is printed.
fn explored(n: u8, arguments: &[&str]) -> Option<bool> {
    match *arguments {
        ["--wrong", name, ref rest @ ..] => {
            let wrong = WRONG.iter().find(|wrong| wrong.name == name)?;
            let claims = claims(rest)?;
            println!("# {}: {}", wrong.name, wrong.does);
            Some(searched(n, wrong.rule, &claims))
        }
        _ => Some(searched(n, event, &claims(arguments)?)),
    }
}

/// The claims to look at.
fn claims<'a>(arguments: &[&'a str]) -> Option<Vec<&'a str>> {
    match *arguments {
        [] => Some(CLAIMS.to_vec()),
        ["--claim", claim] if CLAIMS.contains(&claim) => Some(vec![claim]),
        _ => None,
    }
}

/// Prints what a search found, and tells whether the claims hold. Of one that does not, a list of
/// events that shows it is printed as a journal, and then its name.
fn searched(n: u8, rule: Rule, claims: &[&str]) -> bool {
    match explore(n, rule, claims) {
        Ok(found) if claims.len() == CLAIMS.len() => tell(n, &found),
        Ok(_) => {
            println!("{} holds", claims.join(", "));
            true
        }
        Err(broken) => {
            print!("{}", journal(n, rule, &broken.events));
            println!("# broken: {}", broken.claim);
            false
        }
    }
}

/// Prints what a search for every claim found, and tells whether both commit and abort are reached.
fn tell(n: u8, found: &Findings) -> bool {
    let yes_no = |reached| if reached { "reached" } else { "never reached" };
    println!("sites {n}");
    println!("states of run and votes {}", found.points);
    println!("longest run {} of at most {}", found.longest, bound(n.into()));
    println!("commit {}, abort {}", yes_no(found.commits), yes_no(found.aborts));
    println!("every claim holds");
    found.commits && found.aborts
}

/// Standard input as a text.
fn answer(text: fn(&[u8]) -> String) -> bool {
    let mut input = Vec::new();
    let read = std::io::stdin().read_to_end(&mut input);
    print!("{}", text(&input));
    read.is_ok()
}

fn run(arguments: &[&str]) -> Option<bool> {
    match arguments {
        ["rehearsal"] => Some(answer(second::rehearsal::rehearse)),
        ["sheets"] => Some(answer(second::report::sheets)),
        ["explore", n, rest @ ..] => {
            let n = n.parse().ok().filter(|n| (2..=8).contains(n))?;
            explored(n, rest)
        }
        _ => None,
    }
}

fn main() -> ExitCode {
    let arguments: Vec<String> = std::env::args().skip(1).collect();
    let arguments: Vec<&str> = arguments.iter().map(String::as_str).collect();
    match run(&arguments) {
        Some(true) => ExitCode::SUCCESS,
        Some(false) => ExitCode::FAILURE,
        None => {
            eprintln!("{USAGE}");
            eprintln!("claims: {}\nwrong rules:", CLAIMS.join(", "));
            WRONG.iter().for_each(|wrong| eprintln!("  {:<18} {}", wrong.name, wrong.does));
            ExitCode::from(2)
        }
    }
}
