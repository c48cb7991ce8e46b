//! The two programs on the worst inputs known, each of at most 65,536 bytes.

use crate::journal::FULL;
use crate::sheet::{against_the_order, hostile, largest, slowest_of_all};
use compare::inputs::colliding::merging;
use compare::inputs::drafts::{product, Draft, Move};
use compare::inputs::journals::Journals;
use compare::inputs::sheets::renamed;
use compare::inputs::Random;
use compare::program::output;
use std::time::{Duration, Instant};

/// What both programs take of their input.
const LIMIT: usize = 65_536;
/// What a program may take for it, its start included.
const ALLOWED: Duration = Duration::from_millis(50);
/// How often each input is tried. The best time counts, for the machine does other things too.
const TRIES: u32 = 9;

type Input = (String, Vec<u8>);

/// A journal with this start, filled up to the limit with one record.
fn filled(mut start: Vec<u8>, fields: [u8; 6]) -> Vec<u8> {
    while start.len() < 1 + 9 * FULL {
        start.extend([0, 7, 1]);
        start.extend(fields);
    }
    start
}

/// Full journals of each kind of event, from fresh and after a long run, of two and of eight sites.
fn journals() -> Vec<Input> {
    let kinds = [
        ("begin", [1, 1, 0, 0, 1, 0]),
        ("deliver Start", [2, 2, 1, 1, 1, 0]),
        ("deliver Ack", [2, 1, 2, 6, 0, 0]),
        ("deliver Commit", [2, 2, 1, 7, 0, 0]),
        ("notice", [3, 2, 1, 0, 0, 0]),
        ("take over", [4, 2, 0, 0, 0, 0]),
        ("conclude", [5, 1, 0, 0, 0, 0]),
        ("stop", [6, 1, 0, 0, 0, 0]),
        ("stop during begin", [17, 1, 0, 0, 1, 255]),
        ("stop during Start", [18, 2, 1, 1, 2, 255]),
        ("stop during notice", [19, 2, 1, 0, 0, 255]),
        ("stop during take over", [20, 2, 0, 0, 0, 255]),
        ("stop during conclude", [21, 1, 0, 0, 0, 255]),
    ];
    let mut random = Random::new(41);
    let mut inputs = Vec::new();
    for n in [2, 8] {
        let long = Journals::default().valid(&mut random, n, 150);
        for (kind, fields) in kinds {
            inputs.push((format!("{n} sites, {kind}"), filled(vec![n], fields)));
            inputs.push((format!("{n} sites, a long run, {kind}"), filled(long.clone(), fields)));
        }
        let mixed = Journals::default().valid(&mut random, n, FULL);
        inputs.push((format!("{n} sites, events of every kind"), mixed));
    }
    inputs
}

/// Three sites with two states each, sixteen ways from the first to the second at two of them and
/// fifteen at the third: 4,624 global states by their messages.
fn many_messages() -> Draft {
    let mut moves = Vec::new();
    for (site, ways) in [(1, 16), (2, 16), (3, 15)] {
        let way = |writes| Move {
            site,
            from: 0,
            to: 1,
            vote: 0,
            reads: 1 << (site - 1),
            writes: (writes as u32) << (4 + 5 * site),
        };
        moves.extend((1..=ways).map(way));
    }
    Draft::new(vec![vec![0; 2]; 3], 7, moves)
}

/// Two sites with a transition from each of their eight states to each later one, which the search
/// for a cycle goes through by every path.
fn many_paths() -> Draft {
    let way =
        |(site, from, to)| Move { site, from, to, vote: 0, reads: u32::from(site), writes: 0 };
    let later = |from| (from + 1..8).map(move |to| (from, to));
    let pairs: Vec<(u8, u8)> = (0..8).flat_map(later).collect();
    let moves = [1, 2].map(|site| pairs.iter().map(move |&(from, to)| way((site, from, to))));
    Draft::new(vec![vec![0; 8]; 2], 3, moves.into_iter().flatten().collect())
}

/// The largest sheets in every order known, sheets whose states collide, sheets that are refused as
/// late as can be, and as many bytes as the program takes.
fn sheets() -> Vec<Input> {
    let mut random = Random::new(43);
    let mut full = largest();
    full.moves.extend(full.moves[..8].to_vec());
    let over = product(&[8; 4], true);
    let mut inputs: Vec<Input> = vec![
        ("4096 states in order".into(), full.bytes()),
        ("4096 states against the order".into(), against_the_order().bytes()),
        ("4097 states in order".into(), over.bytes()),
        ("many successors".into(), hostile().bytes()),
        ("colliding states, the worst".into(), slowest_of_all().bytes()),
        ("many messages".into(), many_messages().bytes()),
        ("many paths".into(), many_paths().bytes()),
        ("a sheet and 64,000 bytes more".into(), Draft { pad: 64_000, ..largest() }.bytes()),
        ("65,536 zeros".into(), vec![0; LIMIT]),
    ];
    for order in 1..=8 {
        let named = |what| format!("{what}, order {order}");
        inputs.push((named("4096 states"), renamed(&mut random, &full).bytes()));
        inputs.push((named("4097 states"), renamed(&mut random, &over).bytes()));
        inputs.push((named("many messages"), renamed(&mut random, &many_messages()).bytes()));
        inputs.push((named("colliding states"), merging(&mut random).bytes()));
    }
    inputs
}

/// The best time that a program takes for an input, from its start to its end.
fn best(path: &str, input: &[u8]) -> Duration {
    let timed = |_| {
        let start = Instant::now();
        output(path, input).unwrap_or_else(|error| panic!("{path} cannot be run: {error}"));
        start.elapsed()
    };
    (0..TRIES).map(timed).min().expect("there are tries")
}

/// Prints the slowest inputs of a program, and tells whether all are within what is allowed.
fn within(path: &str, inputs: Vec<Input>) -> bool {
    assert!(inputs.iter().all(|(_, input)| input.len() <= LIMIT));
    let mut times: Vec<(Duration, &str)> =
        inputs.iter().map(|(name, input)| (best(path, input), name.as_str())).collect();
    times.sort_by(|a, b| b.cmp(a));
    println!("{path}: the slowest of {} inputs", inputs.len());
    for (time, name) in times.iter().take(5) {
        println!("{:>8.2} ms  {name}", time.as_secs_f64() * 1e3);
    }
    times[0].0 <= ALLOWED
}

/// Looks at both programs.
pub fn look(rehearsal: &str, judging: &str) -> bool {
    let within = within(rehearsal, journals()) & within(judging, sheets());
    println!("{} takes more than {ALLOWED:?}", if within { "none" } else { "one" });
    within
}
