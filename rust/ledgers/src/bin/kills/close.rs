//! One close by ledger processes, some of which are killed.

use crate::plan::{Plan, READY};
use fjadrimor::Site;
use ledgers::disk::{Disk, Entry, Standing};
use ledgers::random::Random;
use ledgers::register::Register;
use std::io::{self, BufRead, BufReader, Write};
use std::path::Path;
use std::process::{Child, ChildStdin, ChildStdout, Command, Stdio};
use std::sync::mpsc::{channel, Receiver, Sender};
use std::thread;
use std::time::{Duration, Instant};

/// A close that takes longer counts as one in which some ledger does not decide.
const PATIENCE: Duration = Duration::from_secs(20);

/// How long the ledgers that run may take to come to their next actions, before one of those that
/// wait is let go on.
const GATHERING: Duration = Duration::from_micros(200);

/// The moment at which a ledger was killed.
#[derive(Clone, Debug)]
pub struct Killed {
    /// What it was about to do; none at full speed, where nobody knows.
    pub before: Option<String>,
    /// How many messages of the same step it had sent.
    pub sent: usize,
}

/// A ledger as it was found when the close was over.
pub struct Found {
    pub killed: Option<Killed>,
    pub record: Site,
    pub entry: Entry,
    /// All that it said.
    pub said: Vec<String>,
}

/// What there is to tell of a close.
pub struct Told {
    pub plan: Plan,
    pub ledgers: Vec<Found>,
    /// What went wrong with the processes, if anything did.
    pub trouble: Option<String>,
}

/// A ledger's process.
struct Process {
    child: Child,
    /// Where the operator types, while the ledger is to run.
    typing: Option<ChildStdin>,
    killed: Option<Killed>,
    said: Vec<String>,
    decided: bool,
    ended: bool,
}

impl Process {
    fn types(&mut self, line: &str) {
        if let Some(typing) = &mut self.typing {
            let _ = typing.write_all(line.as_bytes());
        }
    }

    /// Kills the ledger: SIGKILL, after which it does nothing at all.
    fn kill(&mut self, before: Option<String>) -> io::Result<()> {
        let lines = self.said.iter().rev().skip(1);
        let sent = lines.take_while(|line| line.starts_with("sends ")).count();
        self.killed = Some(Killed { before, sent });
        self.child.kill()?;
        self.child.wait().map(drop)
    }
}

/// A line that a ledger says, or none when its output has ended.
type Line = (u8, Option<String>);

fn hear(site: u8, output: ChildStdout, inbox: &Sender<Line>) {
    for line in BufReader::new(output).lines().map_while(Result::ok) {
        let _ = inbox.send((site, Some(line)));
    }
    let _ = inbox.send((site, None));
}

struct Close<'a> {
    plan: Plan,
    random: &'a mut Random,
    processes: Vec<Process>,
    inbox: Receiver<Line>,
    /// The ledgers that wait before an action.
    waiting: Vec<u8>,
    deadline: Instant,
}

/// Runs a close in a new register.
pub fn run(register: &Path, plan: Plan, random: &mut Random) -> io::Result<Told> {
    let (sender, inbox) = channel();
    let disks = disks(register, &plan)?;
    let processes = (1..=plan.n).map(|site| start(register, &plan, site, &sender));
    let processes = processes.collect::<io::Result<_>>()?;
    let deadline = Instant::now() + PATIENCE;
    let mut close = Close { plan, random, processes, inbox, waiting: Vec::new(), deadline };
    let trouble = close.happens().and_then(|()| close.ends()).err().map(|error| error.to_string());
    for process in &mut close.processes {
        process.child.kill()?;
        process.child.wait()?;
    }
    let ledgers = disks.iter().zip(close.processes).map(|(disk, process)| found(disk, process));
    Ok(Told { plan: close.plan, ledgers: ledgers.collect::<io::Result<_>>()?, trouble })
}

/// A register with an open entry for each ledger.
fn disks(folder: &Path, plan: &Plan) -> io::Result<Vec<Disk>> {
    let entry = |site| {
        let debit = if plan.against == Some(site) { 1251 } else { 1250 };
        let date = "2031-12-31".to_string();
        Entry { date, debit, credit: 1250, standing: Standing::Open }
    };
    let register = Register::open(folder, &(1..=plan.n).map(entry).collect::<Vec<_>>())?;
    Ok(register.numbers().map(|number| register.disk(number)).collect())
}

fn start(register: &Path, plan: &Plan, site: u8, sender: &Sender<Line>) -> io::Result<Process> {
    let program = std::env::current_exe()?.with_file_name("ledgers");
    let mut command = Command::new(program);
    command.arg("run").arg(register).arg(site.to_string());
    command.args(plan.paced.then_some("paced"));
    let mut child = command.stdin(Stdio::piped()).stdout(Stdio::piped()).spawn()?;
    let (typing, output, sender) = (child.stdin.take(), child.stdout.take(), sender.clone());
    thread::spawn(move || output.map(|output| hear(site, output, &sender)));
    Ok(Process { child, typing, killed: None, said: Vec::new(), decided: false, ended: false })
}

/// What is on a ledger's disk.
fn found(disk: &Disk, process: Process) -> io::Result<Found> {
    Ok(Found {
        killed: process.killed,
        record: disk.record()?.ok_or_else(|| io::Error::other("a ledger has no record"))?,
        entry: disk.entry()?,
        said: process.said,
    })
}

impl Close<'_> {
    fn process(&mut self, site: u8) -> &mut Process {
        &mut self.processes[usize::from(site) - 1]
    }

    /// The next line within a time, or none.
    fn next(&mut self, patience: Duration) -> Option<Line> {
        let left = self.deadline.saturating_duration_since(Instant::now());
        self.inbox.recv_timeout(patience.min(left)).ok()
    }

    /// All ledgers are ready. Before that they may say for whom they wait.
    fn meet(&mut self) -> io::Result<()> {
        let mut ready = 0;
        while ready < self.plan.n {
            match self.next(PATIENCE) {
                Some((_, Some(line))) if line == READY => ready += 1,
                Some((_, Some(line))) if line.starts_with("waits for ") => {}
                line => return Err(io::Error::other(format!("{line:?} instead of ready"))),
            }
        }
        Ok(())
    }

    /// From the first process to the last decision.
    fn happens(&mut self) -> io::Result<()> {
        self.meet()?;
        for kill in self.plan.kills.clone().iter().filter(|kill| kill.before == READY) {
            self.process(kill.site).kill(Some(READY.to_string()))?;
        }
        self.process(1).types("close\n");
        while !self.processes.iter().all(|process| process.decided || process.killed.is_some()) {
            let patience = if self.waiting.is_empty() { PATIENCE } else { GATHERING };
            match self.next(patience) {
                Some((site, Some(line))) => self.said(site, line)?,
                Some((site, None)) => self.ended(site)?,
                None if self.waiting.is_empty() => return Err(io::Error::other("no decision")),
                None => self.lets_go(),
            }
        }
        Ok(())
    }

    /// Lets one of the ledgers that wait go on.
    fn lets_go(&mut self) {
        let place = self.random.below(self.waiting.len() as u64) as usize;
        let site = self.waiting.swap_remove(place);
        self.process(site).types("\n");
    }

    /// A ledger says something. If it is an action, it may be its last.
    fn said(&mut self, site: u8, line: String) -> io::Result<()> {
        let action = ["sends ", "saves ", "marks "].iter().any(|verb| line.starts_with(verb));
        let process = self.process(site);
        process.said.push(line.clone());
        process.decided |=
            line == Standing::Posted.to_string() || line == Standing::BackedOut.to_string();
        if process.killed.is_some() || !action {
            return Ok(());
        }
        if self.is_last(site, &line) {
            if self.plan.paced {
                return self.process(site).kill(Some(line));
            }
            thread::sleep(Duration::from_micros(self.random.below(300)));
            return self.process(site).kill(None);
        }
        if self.plan.paced {
            self.waiting.push(site);
        }
        Ok(())
    }

    /// Is this the action before which the ledger is to be killed?
    fn is_last(&mut self, site: u8, line: &str) -> bool {
        let kill = self.plan.kills.iter_mut().find(|kill| kill.site == site);
        let Some(kill) = kill.filter(|kill| line.starts_with(kill.before)) else {
            return false;
        };
        let last = kill.after == 0;
        kill.after = kill.after.saturating_sub(1);
        last
    }

    /// A ledger's output has ended.
    fn ended(&mut self, site: u8) -> io::Result<()> {
        let process = self.process(site);
        process.ended = true;
        if process.killed.is_some() {
            return Ok(());
        }
        let status = process.child.wait()?;
        if process.typing.is_none() && status.success() {
            return Ok(());
        }
        Err(io::Error::other(format!("ledger {site} ended by itself: {status}")))
    }

    /// Ends the ledgers that still run.
    fn ends(&mut self) -> io::Result<()> {
        self.processes.iter_mut().for_each(|process| process.typing = None);
        while !self.processes.iter().all(|process| process.ended) {
            match self.next(PATIENCE) {
                Some((site, Some(line))) => self.process(site).said.push(line),
                Some((site, None)) => self.ended(site)?,
                None => return Err(io::Error::other("a ledger does not end with its input")),
            }
        }
        Ok(())
    }
}
