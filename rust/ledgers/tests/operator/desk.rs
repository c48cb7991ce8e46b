//! What an operator has at hand: a register in a folder, and its ledgers as processes.

use ledgers::disk::Standing;
use std::io::{BufRead, BufReader, Lines, Write};
use std::path::PathBuf;
use std::process::{Child, ChildStdin, ChildStdout, Command, ExitStatus, Output, Stdio};

const PROGRAM: &str = env!("CARGO_BIN_EXE_ledgers");

/// What the program does with these words.
pub fn asks(words: &[&str]) -> Output {
    Command::new(PROGRAM).args(words).output().expect("it runs")
}

/// A register in a folder of its own, in memory where there is one; it is removed in the end.
pub struct Register(pub PathBuf);

impl Register {
    pub fn named(name: &str) -> Register {
        let memory = PathBuf::from("/dev/shm");
        let place = if memory.is_dir() { memory } else { std::env::temp_dir() };
        Register(place.join(format!("ledgers-{name}-{}", std::process::id())))
    }

    /// A register of three ledgers.
    pub fn open(name: &str) -> Register {
        let register = Register::named(name);
        assert!(register.asks("open", &["3"]).status.success());
        register
    }

    pub fn asks(&self, verb: &str, rest: &[&str]) -> Output {
        let folder = self.0.to_str().expect("text");
        asks(&[&[verb, folder], rest].concat())
    }

    /// Asks for something that cannot be done, and why it cannot.
    pub fn refuses(&self, verb: &str, rest: &[&str]) -> String {
        let output = self.asks(verb, rest);
        assert!(output.status.code() == Some(1) && output.stdout.is_empty());
        String::from_utf8(output.stderr).expect("text")
    }

    /// The path of something in the register's folder.
    pub fn path(&self, name: &str) -> String {
        self.0.join(name).display().to_string()
    }

    /// Has a ledger saved a record?
    pub fn has_record(&self, site: u8) -> bool {
        self.0.join(site.to_string()).join("record").exists()
    }

    pub fn standings(&self) -> [Standing; 3] {
        let register = ledgers::register::Register::at(&self.0).expect("a register");
        [1, 2, 3].map(|site| register.disk(site).entry().expect("an entry").standing)
    }

    /// Runs a ledger.
    pub fn run(&self, site: u8) -> Ledger {
        self.starts(&[&site.to_string()])
    }

    /// Runs a ledger that waits before each action.
    pub fn run_paced(&self, site: u8) -> Ledger {
        self.starts(&[&site.to_string(), "paced"])
    }

    fn starts(&self, rest: &[&str]) -> Ledger {
        let mut command = Command::new(PROGRAM);
        command.arg("run").arg(&self.0).args(rest);
        let piped = command.stdin(Stdio::piped()).stdout(Stdio::piped()).stderr(Stdio::null());
        let mut process = piped.spawn().expect("it runs");
        let typing = process.stdin.take().expect("piped");
        let saying = BufReader::new(process.stdout.take().expect("piped")).lines();
        Ledger { process, typing, saying }
    }
}

impl Drop for Register {
    fn drop(&mut self) {
        let _ = std::fs::remove_dir_all(&self.0);
    }
}

/// A ledger's process, which is killed in the end.
pub struct Ledger {
    process: Child,
    typing: ChildStdin,
    pub saying: Lines<BufReader<ChildStdout>>,
}

impl Ledger {
    pub fn types(&mut self, line: &str) {
        self.typing.write_all(line.as_bytes()).expect("it reads");
    }

    /// Reads on until it says this.
    pub fn says(&mut self, wanted: &str) {
        assert_eq!(self.says_one_of(&[wanted]).as_deref(), Some(wanted));
    }

    /// Reads on until it says one of these, or nothing more.
    pub fn says_one_of(&mut self, wanted: &[&str]) -> Option<String> {
        let mut lines = self.saying.by_ref().map_while(Result::ok);
        lines.find(|line| wanted.contains(&line.as_str()))
    }

    /// Kills it: SIGKILL, after which it does nothing at all.
    pub fn kill(&mut self) {
        let _ = self.process.kill();
        let _ = self.process.wait();
    }

    /// Waits for its end.
    pub fn ends(&mut self) -> ExitStatus {
        self.process.wait().expect("it ends")
    }
}

impl Drop for Ledger {
    fn drop(&mut self) {
        self.kill();
    }
}
