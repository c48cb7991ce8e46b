//! Ledgers that close together: a program for a ledger team to start from.
//!
//! Each ledger is a process with a folder of its own. There it keeps its dated entry and its site
//! record of eight bytes. Messages go over Unix sockets, a byte each, and a closed socket is the
//! report that its other end has stopped. What a ledger does when something happens to it, the
//! proved library says, by one call: [`fjadrimor::Site::step`].
//!
//! # By hand
//!
//! ```text
//! ledgers open register 3
//! ledgers run register 2               in a terminal: it waits for 1, 3
//! ledgers run register 3               in another
//! ledgers run register 1 paced         in a third: type close, then Enter for each action
//! ledgers show register
//! ```
//!
//! Kill the third (`kill -9`) as it is about to send its second Commit: the other two post.
//! The program `kills` does this and much else some hundreds of times, looks at the disks, and
//! replays each close as a run of the rules.
//!
//! # How this is a run of the rules
//!
//! What is proved is proved of the rules' runs, so each thing that a process does must be one of
//! their events. What goes wrong otherwise is in docs/EMBEDDING.md, by search: the program `astray`.
//!
//! - **A step** is taken by `Ledger::takes`. The library computes it, its messages leave, and the
//!   record is saved after them. A ledger that is killed on the way has sent none, some or all of
//!   the messages and has the record of before on its disk: that is the rules' stop inside a step.
//! - **A run begins** when all ledgers have met ([`meeting`]), in whatever order they were started.
//!   Before that a ledger has done nothing and saved nothing, and may be started again.
//! - **A stop** is for ever. A ledger that finds a record in its folder has met the others, and does
//!   not join again; what became of the entry, the ledgers that went on know. One that cannot save
//!   stops too.
//! - **A notice** comes once for each stop, since there is one socket between any two ledgers, and
//!   only when the other process can do nothing more. It is read after all that the stopped ledger
//!   had sent. The rules do not ask for that: what is under way may come before a notice or after.
//! - **A message** is delivered once. Those of one sender come in order, those of several in any;
//!   the rules allow every order. One to a stopped ledger is lost, and the failed write is ignored.
//! - **Take over and conclude** are tried after everything heard, until they are refused with 5.
//! - **The entry** is what the saved record says: posted in c, backed out in a, else open. The record
//!   is the one fact on the disk. The entry's file is marked from it, and never before it.

pub mod disk;
pub mod ledger;
pub mod meeting;
pub mod mesh;
pub mod random;
pub mod register;
