//! A plain, fast implementation of the C interface.

pub mod collect;
pub mod day;
pub mod journal;
pub mod judge;
pub mod parts;
pub mod run;
pub mod sheet;
pub mod site;

pub use day::run_journal;
pub use journal::{record_read, record_write, rehearse, rehearse_testing};
pub use judge::{sheet_judge, sheet_judge_table, sheet_report};
pub use parts::{sheet_parts, sheet_write};
pub use run::{run_event, run_fresh};
pub use site::site_step;
