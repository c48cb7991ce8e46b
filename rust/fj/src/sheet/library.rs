//! The proved judge, through the static library. Whatever is said about a sheet is decided there.

use super::model::Local;

/// The library's answer about an accepted sheet.
#[derive(Clone, Debug)]
pub struct Judgement {
    pub states: usize,
    /// The site, state and condition that a blocking verdict shows.
    pub witness: Option<(u8, u8, u8)>,
    /// None where the library states none.
    pub tolerance: Option<u8>,
    findings: Vec<Finding>,
}

/// What is said about one local state.
#[derive(Clone, Debug)]
pub struct Finding {
    pub reached: bool,
    pub committable: bool,
    pub decision: Decision,
    /// The concurrency set, ascending.
    pub set: Vec<Local>,
}

#[derive(Clone, Copy, Debug, PartialEq, Eq)]
pub enum Decision {
    Unreached,
    Abort,
    Commit,
    Blocked,
}

/// The words to lend, the bytes of an answer, and a room that is large enough for every report.
const WORDS: usize = 4096;
const OUT: usize = 206;
const AMPLE: usize = 1 << 14;

/// The judgement of a sheet's bytes, or the ground of its refusal.
pub fn judge(bytes: &[u8]) -> Result<Judgement, u8> {
    let (mut words, mut out) = (vec![0; WORDS], [0; OUT]);
    match fjadrimor::calls::sheet_judge(bytes, &mut words, &mut out) {
        0 => Ok(judgement(&out)),
        ground => Err(ground),
    }
}

/// The sheet program's text, of all these bytes; the program, and whoever reads a file here, takes
/// the first 65,536.
pub fn report(bytes: &[u8]) -> Vec<u8> {
    let (mut words, mut text) = (vec![0; WORDS], vec![0; AMPLE]);
    let length = fjadrimor::calls::sheet_report(bytes, &mut words, &mut text);
    text.truncate(length);
    text
}

/// Takes an answer apart.
fn judgement(out: &[u8; OUT]) -> Judgement {
    let witness = (out[4], out[5], out[6]);
    Judgement {
        states: usize::from(out[1]) * 256 + usize::from(out[2]),
        witness: (out[3] == 0).then_some(witness),
        tolerance: (out[7] != 0).then_some(out[7]),
        findings: out[14..].chunks(6).map(finding).collect(),
    }
}

/// Takes the six bytes of a local state apart.
fn finding(six: &[u8]) -> Finding {
    let set = six[2..].iter().fold(0u32, |set, &byte| set << 8 | u32::from(byte));
    let within = |place: &u8| set >> place & 1 == 1;
    Finding {
        reached: six[0] & 1 == 1,
        committable: six[0] & 2 == 2,
        decision: match six[1] {
            1 => Decision::Abort,
            2 => Decision::Commit,
            3 => Decision::Blocked,
            _ => Decision::Unreached,
        },
        set: (0..32).filter(within).map(|place| (place / 8 + 1, place % 8)).collect(),
    }
}

impl Judgement {
    pub fn of(&self, (site, state): Local) -> &Finding {
        &self.findings[8 * (usize::from(site) - 1) + usize::from(state)]
    }
}

impl Decision {
    pub fn word(self) -> &'static str {
        match self {
            Decision::Unreached => "-",
            Decision::Abort => "abort",
            Decision::Commit => "commit",
            Decision::Blocked => "blocked",
        }
    }
}
