//! `fj`, the operators' companion: journals in readable notation, their rehearsal and their chart.
//! Whatever decides is the proved library; here its answers become text and pictures.

mod arguments;
mod beside;
mod chart;
mod commands;
mod day;
#[cfg(test)]
mod day_tests;
mod grounds;
mod input;
mod journal;
mod letters;
mod next;
mod notation;
mod place;
mod reasons;
mod rehearsal;
#[cfg(test)]
mod run_tests;
mod sheet;
mod standing;
mod taken;
#[cfg(test)]
mod tests;
mod waits;
mod words;

use arguments::Arguments;
use std::io::Write;
use std::process::ExitCode;

const HELP: &str = include_str!("help.txt");
const BAD_INPUT: u8 = 1;
const BAD_USAGE: u8 = 2;

/// Says what is wrong with a command, and where its help is; the exit status.
fn bad_usage(why: &str, help: &str) -> u8 {
    say(&format!("{why}; {help} tells how to use it"));
    BAD_USAGE
}

/// Says what is wrong with what was read; the exit status.
fn bad_input(why: &str) -> u8 {
    why.lines().for_each(say);
    BAD_INPUT
}

/// A line on standard error. Where nobody can read it, the exit status must do.
fn say(line: &str) {
    let _ = writeln!(std::io::stderr(), "fj: {line}");
}

/// Writes to standard output; the exit status.
fn written(bytes: &[u8]) -> u8 {
    let mut out = std::io::stdout();
    match out.write_all(bytes).and_then(|()| out.flush()) {
        Ok(()) => 0,
        // Whoever reads the output has seen enough.
        Err(why) if why.kind() == std::io::ErrorKind::BrokenPipe => 0,
        Err(why) => bad_input(&format!("standard output: {why}")),
    }
}

/// The help on a command.
fn help(command: &str) -> &'static str {
    match command {
        "judge" | "sheet" => sheet::USAGE,
        _ => HELP,
    }
}

/// Its own version, and the library's.
fn version() -> String {
    format!("fj {}, library {}\n", env!("CARGO_PKG_VERSION"), fjadrimor::VERSION)
}

/// Does what the arguments ask for; the exit status.
fn done(arguments: &Arguments) -> u8 {
    let command = arguments.word(0).unwrap_or_default();
    if arguments.has("--help") || arguments.has("-h") {
        return written(help(&command).as_bytes());
    }
    if arguments.has("--version") || arguments.has("-V") {
        return written(version().as_bytes());
    }
    match &*command {
        "" => match arguments.other_than(&[]) {
            Some(option) => bad_usage(&format!("{option} comes with a command"), "fj --help"),
            None => bad_usage("no command is given", "fj --help"),
        },
        "help" => written(help(&arguments.word(1).unwrap_or_default()).as_bytes()),
        "judge" | "sheet" => sheet::command(&command, arguments),
        other => commands::run(other, arguments)
            .unwrap_or_else(|| bad_usage(&format!("there is no command {other}"), "fj --help")),
    }
}

fn main() -> ExitCode {
    ExitCode::from(done(&Arguments::new(std::env::args_os().skip(1))))
}
