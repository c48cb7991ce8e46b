//! The proved commit protocol for ledgers, as safe Rust types over the static library `libembed.a`.
//!
//! Two to eight ledger sites post one dated entry, or all back it out, also where some of them stop
//! on the way. Whatever is decided is decided by the library: this crate holds its bytes, hands
//! them over and puts names to what comes back. It has no dependencies. The build finds the library
//! in the repository's `target/staticlib`, or in the folder that `FJ_LIB_DIR` names.
//!
//! # Where to start
//!
//! A ledger keeps one [`Site`]. When something happens to it, it makes a [`Step`] of that, takes it
//! with [`Site::step`], sends the messages that the answer names, and saves [`Site::bytes`]:
//!
//! ```
//! use fjadrimor::{Kind, Site, State, Step, Vote};
//!
//! // Ledger 2 of 3 hears Start from ledger 1, and its entry may be posted.
//! let mut site = Site::fresh(3, 2)?;
//! let done = site.step(Step::Start { from: 1, vote: Vote::Yes })?;
//!
//! // Its Yes leaves first, and the record is saved after it.
//! assert_eq!(done.messages().collect::<Vec<_>>(), [(Kind::Yes, 1)]);
//! assert_eq!(site.state(), State::Wait);
//! let saved: [u8; 8] = site.bytes();
//! assert_eq!(Site::from_bytes(saved)?, site);
//! # Ok::<(), fjadrimor::Refusal>(())
//! ```
//!
//! [`Step::TakeOver`] and [`Step::Conclude`] are not heard of from outside. A ledger tries them after
//! every other step, until both are refused with [`Refusal::NotAllowed`], which here means *not yet*.
//!
//! The package `ledgers` beside this one is a whole program of that kind, with sockets and files.
//!
//! Every answer says how many sites the acting one still awaits, and names the lowest of them. A desk
//! that is asked why nothing happens rings that one, unless the site can conclude, and after its
//! answer the next:
//!
//! ```
//! use fjadrimor::{Kind, Site, Step, Vote};
//!
//! let mut first = Site::fresh(4, 1)?;
//! let done = first.step(Step::Begin(Vote::Yes))?;
//! assert_eq!((done.awaited, done.lowest), (3, Some(2)));
//! let done = first.step(Step::Deliver { kind: Kind::Yes, from: 2 })?;
//! assert_eq!((done.awaited, done.lowest), (2, Some(3)));
//! # Ok::<(), fjadrimor::Refusal>(())
//! ```
//!
//! # What else there is
//!
//! - [`Run`]: all sites of an entry together with the messages between them, for rehearsals, tests
//!   and operations that hand over a journal. An [`Event`] is a step of one site, a stop, or a stop
//!   inside a step.
//! - [`Journal`]: events as bytes, and their rehearsal as text. [`Run::journal`] takes a whole day's
//!   records in one call, and [`Day`] is its answer.
//! - [`Sheet`]: a commit protocol written down, read from its record and written to it, and built by
//!   names with a [`SheetBuilder`]. [`judge`] gives the [`Verdict`] whether it is nonblocking.
//! - [`Refusal`]: why a call was refused, with the documents' number and a sentence.
//! - [`calls`]: the C interface itself, on bytes.

mod builder;
pub mod calls;
mod day;
mod event;
mod journal;
mod judgement;
mod message;
mod refusal;
mod run;
mod sheet;
mod site;
mod sites;

pub use builder::{Misnamed, SheetBuilder, TransitionBuilder};
pub use day::Day;
pub use event::{Event, Step};
pub use journal::{Events, Journal};
pub use judgement::{judge, report, Decision, Judgement, Local, Verdict};
pub use message::{Kind, Message, Vote};
pub use refusal::Refusal;
pub use run::{Ran, Run};
pub use sheet::{Mark, Messages, Sheet, Transition};
pub use site::{Done, Outcome, Site, State};
pub use sites::Sites;

/// The version of this crate, and of the library that it is made for.
pub const VERSION: &str = env!("CARGO_PKG_VERSION");
