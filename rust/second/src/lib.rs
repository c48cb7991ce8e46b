//! The second program: the rules of documents 01 and 02 once more, by sets and tuples.
//!
//! It is there to be compared with the proved library and shares nothing with it: sets are sorted
//! sets, messages are tuples, and masks occur only in `bytes`, where bytes come in or go out.

pub mod bytes;
pub mod day;
pub mod explore;
pub mod journal;
pub mod judge;
pub mod parts;
pub mod rehearsal;
pub mod report;
pub mod run;
pub mod run_bytes;
pub mod sheet;
pub mod site;
pub mod words;
pub mod wrong;
