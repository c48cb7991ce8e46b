//! `fj` as an operator uses it: what it prints, what it says is wrong, and its exit status.

mod day;
mod files;
mod journals;
mod sheets;
mod usage;

use std::io::Write;
use std::process::{Command, Stdio};

/// What came of a command: its exit status, what it printed, and what it said was wrong.
type Came = (Option<i32>, String, String);

const GALLERY: &str = concat!(env!("CARGO_MANIFEST_DIR"), "/../../gallery");
const SCENARIOS: &str = concat!(env!("CARGO_MANIFEST_DIR"), "/../../scenarios");

/// `fj` with these arguments, its output kept.
fn command(arguments: &[&str]) -> Command {
    let mut command = Command::new(env!("CARGO_BIN_EXE_fj"));
    command.args(arguments).stdout(Stdio::piped()).stderr(Stdio::piped());
    command
}

/// What comes of a command with something on its standard input.
fn fj(arguments: &[&str], input: &[u8]) -> Came {
    let mut process = command(arguments).stdin(Stdio::piped()).spawn().expect("it runs");
    // A command that reads nothing, or not all, may have ended already.
    let _ = process.stdin.take().expect("piped").write_all(input);
    came_of(process.wait_with_output().expect("it ends"))
}

fn came_of(output: std::process::Output) -> Came {
    let text = |bytes: Vec<u8>| String::from_utf8_lossy(&bytes).into_owned();
    (output.status.code(), text(output.stdout), text(output.stderr))
}

fn came(status: i32, printed: &str, wrong: &str) -> Came {
    (Some(status), printed.to_string(), wrong.to_string())
}

/// A command of some words over standard input: its exit status, and what it said was wrong.
fn said(command: &str, input: &[u8]) -> (Option<i32>, String) {
    let words: Vec<&str> = command.split(' ').chain(["-"]).collect();
    let (status, _, wrong) = fj(&words, input);
    (status, wrong)
}

/// What is said of standard input, with exit status 1.
fn trouble(wrong: &str) -> (Option<i32>, String) {
    (Some(1), format!("fj: standard input{wrong}\n"))
}

/// A journal in notation as bytes.
fn assembled(text: &str) -> Vec<u8> {
    let output = {
        let mut process = command(&["assemble", "-"]).stdin(Stdio::piped()).spawn().expect("runs");
        process.stdin.take().expect("piped").write_all(text.as_bytes()).expect("it reads");
        process.wait_with_output().expect("it ends")
    };
    output.stdout
}
