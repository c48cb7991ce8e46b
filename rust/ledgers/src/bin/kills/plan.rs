//! What is to happen in a close: who takes part, who votes no, who is killed and when.

use ledgers::random::Random;

/// The moment before the close is begun.
pub const READY: &str = "ready";

/// Actions before which a ledger may be killed, by how they begin. The empty one is any action.
type Actions = &'static [&'static str];

/// Those of the coordinator; those that matter most come more than once.
const COORDINATOR: Actions = &[
    "sends commit",
    "sends commit",
    "sends move-p",
    "sends move-p",
    "saves p",
    "sends start",
    "saves c",
    "marks",
    READY,
    "",
];
/// Those of a ledger that comes to lead when the lower ones have stopped.
const BACKUP: Actions =
    &["sends move", "sends move", "sends commit", "sends abort", "saves c", "saves a", "marks"];
/// Those of a ledger that follows.
const FOLLOWER: Actions =
    &["sends yes", "saves w", "saves w", "sends ack", "saves p", "marks", READY, "", ""];

/// A ledger is killed as it is about to take an action that begins so, after as many others.
#[derive(Clone, Copy, Debug)]
pub struct Kill {
    pub site: u8,
    pub before: &'static str,
    pub after: u64,
}

impl Kill {
    fn any(random: &mut Random, n: u8, site: u8, actions: Actions) -> Kill {
        let before = random.pick(actions);
        let after = match before {
            READY | "marks" | "saves w" | "saves c" | "saves a" => 0,
            "" => random.below(12),
            // A leader sends to all others, and fewer of them run when a backup leads.
            _ if site == 1 => random.below(u64::from(n) - 1),
            _ => random.below(2),
        };
        Kill { site, before, after }
    }
}

/// What is to happen in a close.
#[derive(Clone, Debug)]
pub struct Plan {
    pub n: u8,
    /// The ledger whose entry does not balance.
    pub against: Option<u8>,
    /// Do the ledgers wait before each action, so that they are killed just there?
    pub paced: bool,
    pub kills: Vec<Kill>,
}

impl Plan {
    /// Some close of three to five ledgers. At least one is left to run.
    pub fn any(random: &mut Random) -> Plan {
        let n = 3 + random.below(3) as u8;
        let most = u64::from(n) - 1;
        let count = 1 + random.below(most) as u8;
        let kills = match random.below(16) {
            0 => Vec::new(),
            1..=5 => vec![Kill::any(random, n, 1, COORDINATOR)],
            6..=10 => Plan::leaders(random, n, count.max(2)),
            _ => Plan::anyone(random, n, count),
        };
        let against = random.once_in(8).then(|| 1 + random.below(n.into()) as u8);
        Plan { n, against, paced: !random.once_in(4), kills }
    }

    /// Leader after leader is killed.
    fn leaders(random: &mut Random, n: u8, count: u8) -> Vec<Kill> {
        let actions = |site| if site == 1 { COORDINATOR } else { BACKUP };
        (1..=count).map(|site| Kill::any(random, n, site, actions(site))).collect()
    }

    /// Anyone is killed.
    fn anyone(random: &mut Random, n: u8, count: u8) -> Vec<Kill> {
        let mut sites: Vec<u8> = (1..=n).collect();
        let mut kills = Vec::new();
        for _ in 0..count {
            let site = sites.swap_remove(random.below(sites.len() as u64) as usize);
            let actions = random.pick(&[FOLLOWER, FOLLOWER, BACKUP]);
            kills.push(Kill::any(random, n, site, if site == 1 { COORDINATOR } else { actions }));
        }
        kills
    }
}
