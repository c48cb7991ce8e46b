//! The two programs that each row goes through, and the words in which rows are written.

use compare::day::RunJournal;
use compare::inputs::drafts::Move;
use compare::inputs::pattern;
use compare::journal::Journaling;
use compare::parts::Writing;
use compare::run::Runs;
use compare::sheet::Judging;
use compare::site::{Call, SiteStep};
use fjadrimor::calls::{RUN_ANSWER, SITE_ANSWER};

pub const SITES: [SiteStep; 2] = [fjadrimor::calls::site_step, second::bytes::site_step];

pub const RUNS: [Runs; 2] = [
    Runs { fresh: fjadrimor::calls::run_fresh, event: fjadrimor::calls::run_event },
    Runs { fresh: second::run_bytes::run_fresh, event: second::run_bytes::run_event },
];

pub const DAYS: [RunJournal; 2] = [fjadrimor::calls::run_journal, second::day::run_journal];

pub const JOURNALS: [Journaling; 2] = [
    Journaling {
        read: fjadrimor::calls::record_read,
        write: fjadrimor::calls::record_write,
        rehearse: fjadrimor::calls::rehearse,
    },
    Journaling {
        read: second::journal::record_read,
        write: second::journal::record_write,
        rehearse: second::rehearsal::rehearse_bytes,
    },
];

pub const JUDGES: [Judging; 2] = [
    Judging { judge: fjadrimor::calls::sheet_judge, report: fjadrimor::calls::sheet_report },
    Judging { judge: second::report::sheet_judge, report: second::report::sheet_report },
];

pub const WRITERS: [Writing; 2] = [
    Writing { parts: fjadrimor::calls::sheet_parts, write: fjadrimor::calls::sheet_write },
    Writing { parts: second::parts::sheet_parts, write: second::parts::sheet_write },
];

/// Each of the two programs with each row.
pub fn each<P: Copy, R>(programs: [P; 2], rows: &[R]) -> impl Iterator<Item = (P, &R)> {
    rows.iter().flat_map(move |row| programs.map(|program| (program, row)))
}

/// The states of a site.
pub const Q: u8 = 0;
pub const W: u8 = 1;
pub const P: u8 = 2;
pub const A: u8 = 3;
pub const C: u8 = 4;
pub const STATES: [u8; 5] = [Q, W, P, A, C];

/// The kinds of message.
pub const START: u8 = 1;
pub const YES: u8 = 2;
pub const NO: u8 = 3;
pub const MOVE_P: u8 = 4;
pub const MOVE_W: u8 = 5;
pub const ACK: u8 = 6;
pub const COMMIT: u8 = 7;
pub const ABORT: u8 = 8;

/// Field K, and what it has more in a stop during a step.
pub const BEGIN: u8 = 1;
pub const DELIVER: u8 = 2;
pub const NOTICE: u8 = 3;
pub const TAKE_OVER: u8 = 4;
pub const CONCLUDE: u8 = 5;
pub const STOP: u8 = 6;
pub const DURING: u8 = 16;

/// Field V.
pub const AYE: u8 = 1;
pub const NAY: u8 = 2;

/// n, number, state, leader, known stopped, yes heard, no heard, acknowledged. In a set site j has
/// weight 2^(j-1).
pub type Site = [u8; 8];

/// A set in words: `2,3`, or `none`.
fn members(set: u8) -> String {
    let sites: Vec<String> =
        (1..=8).filter(|j| set >> (j - 1) & 1 == 1).map(|j| j.to_string()).collect();
    if sites.is_empty() {
        "none".to_string()
    } else {
        sites.join(",")
    }
}

/// A kind of message in words.
fn name(kind: u8) -> &'static str {
    ["Start", "Yes", "No", "Move-p", "Move-w", "Ack", "Commit", "Abort"][kind as usize - 1]
}

/// A record in words: the letter of its state, the leader it follows, and each set that is not as
/// before. The rest of it must be as before.
fn record(before: &[u8], after: &[u8]) -> String {
    assert_eq!(after[..2], before[..2], "n and number stay");
    let letter = ['q', 'w', 'p', 'a', 'c'][after[2] as usize];
    let mut words = format!("{letter}{}", after[3]);
    for (set, place) in [("known", 4), ("yes", 5), ("no", 6), ("acked", 7)] {
        if after[place] != before[place] {
            words += &format!(" {set}={}", members(after[place]));
        }
    }
    words
}

/// A step K O M V in words: its ground where it is refused, else `passed` if it is passed over, the
/// record afterwards, the messages written and to whom, and how many sites are awaited if any is,
/// with the lowest of them.
/// The number of messages must be that of their receivers, and a refusal must leave the record.
pub fn step(program: SiteStep, site: Site, fields: [u8; 4]) -> String {
    let call = Call { site: site.to_vec(), fields, room: SITE_ANSWER };
    let (ground, after, answer) = call.made(program);
    if ground != 0 {
        assert_eq!((&after[..], &answer[..]), (&site[..], &[2, 0, 0, 0, 0, 0][..]));
        return ground.to_string();
    }
    let [outcome, kind, receivers, written, awaited, lowest] = answer[..] else { unreachable!() };
    assert_eq!(written, receivers.count_ones() as u8, "messages are counted in their receivers");
    let mut words = ["", "passed "][outcome as usize].to_string() + &record(&site, &after);
    if (kind, receivers) != (0, 0) {
        words += &format!(" {}>{}", name(kind), members(receivers));
    }
    if (awaited, lowest) != (0, 0) {
        words += &format!(" awaits {awaited}, ring {lowest}");
    }
    words
}

/// A step at a site, and what comes of it in the states q | w | p | a | c.
pub type ByState = (Site, [u8; 4], &'static str);

pub fn hold(rows: &[ByState]) {
    for (program, (site, fields, expected)) in each(SITES, rows) {
        let found = [Q, W, P, A, C].map(|state| {
            let [n, number, _, leader, known, yes, no, acked] = *site;
            step(program, [n, number, state, leader, known, yes, no, acked], *fields)
        });
        assert_eq!(found.join(" | "), *expected, "{site:?} {fields:?}");
    }
}

/// A run's bytes: n, stopped, eight records, and for each kind and sender a set of receivers.
#[derive(Clone, Debug, PartialEq, Eq)]
pub struct Run(pub Vec<u8>);

/// Where the network of a run begins.
pub const NETWORK: usize = 66;

/// "Fresh: all in q, following 1, all sets empty, no messages"; "places above n: filled like the
/// others when fresh".
pub fn run(n: u8) -> Run {
    let mut bytes = vec![n, 0];
    (1..=8).for_each(|number| bytes.extend([n, number, Q, 1, 0, 0, 0, 0]));
    bytes.extend([0; 72]);
    Run(bytes)
}

impl Run {
    /// The run with another byte.
    pub fn with(mut self, place: usize, byte: u8) -> Run {
        self.0[place] = byte;
        self
    }

    /// The run with this record at the place of its number.
    pub fn site(mut self, record: Site) -> Run {
        let place = 2 + 8 * (usize::from(record[1]) - 1);
        self.0[place..place + 8].copy_from_slice(&record);
        self
    }

    /// The run in which these sites have stopped.
    pub fn stopped(self, sites: u8) -> Run {
        self.with(1, sites)
    }

    /// The run in which a kind of message from a sender is outstanding for these receivers.
    pub fn sent(self, kind: u8, sender: u8, receivers: u8) -> Run {
        self.with(NETWORK + 8 * (usize::from(kind) - 1) + usize::from(sender) - 1, receivers)
    }
}

/// An event K S O M V X in words: its ground where it is refused, else `taken` or `passed`, the
/// messages written, the sites awaited with the lowest, and then all that is not as before: the
/// stopped sites, the records, messages that are gone (`-`) and that are there now (`+`). A refusal must leave the run.
pub fn event(program: Runs, run: &Run, fields: [u8; 6]) -> String {
    let (ground, after, answer) = compare::run::happen(program, &run.0, fields, RUN_ANSWER);
    if ground != 0 {
        assert_eq!((&after, &answer[..]), (&run.0, &[2, 0, 0, 0][..]));
        return ground.to_string();
    }
    let outcome = ["taken", "passed"][answer[0] as usize];
    let answer = format!("{outcome} {} written {}", answer[1], awaited(answer[2], answer[3]));
    let changes = changes(&run.0, &after);
    [vec![answer], changes].concat().join(", ")
}

/// How many sites are awaited, and the one to ring where an answer names one.
pub fn awaited(number: u8, lowest: u8) -> String {
    match lowest {
        0 => format!("{number} awaited"),
        _ => format!("{number} awaited, ring {lowest}"),
    }
}

/// What differs between two runs, in words.
pub fn changes(before: &[u8], after: &[u8]) -> Vec<String> {
    assert_eq!((before[0], before.len()), (after[0], after.len()), "n stays");
    let mut words = Vec::new();
    if after[1] != before[1] {
        words.push(format!("stopped={}", members(after[1])));
    }
    for (number, place) in (1..=8).map(|number| (number, 2 + 8 * (number - 1))) {
        let (old, new) = (&before[place..place + 8], &after[place..place + 8]);
        if new != old {
            words.push(format!("{number}:{}", record(old, new)));
        }
    }
    for (sign, old, new) in [('-', after, before), ('+', before, after)] {
        for place in (NETWORK..138).filter(|&place| new[place] & !old[place] != 0) {
            let (kind, sender) = ((place - NETWORK) / 8 + 1, (place - NETWORK) % 8 + 1);
            let receivers = members(new[place] & !old[place]);
            words.push(format!("{sign}{} {sender}>{receivers}", name(kind as u8)));
        }
    }
    words
}

/// The marks of a sheet's states.
pub const WORKING: u8 = 0;
pub const ABORTED: u8 = 1;
pub const COMMITTED: u8 = 2;

/// A transition of a sheet, with the messages that it reads and writes by their numbers.
pub fn go(site: u8, from: u8, to: u8, vote: u8, reads: &[u32], writes: &[u32]) -> Move {
    let set = |messages: &[u32]| messages.iter().map(|message| 1 << message).sum();
    Move { site, from, to, vote, reads: set(reads), writes: set(writes) }
}

/// A sheet's report.
pub fn report(program: Judging, sheet: &[u8]) -> String {
    let (mut words, mut text) = (vec![0; 4096], pattern(compare::sheet::AMPLE));
    let length = (program.report)(sheet, &mut words, &mut text);
    String::from_utf8_lossy(&text[..length]).into_owned()
}
