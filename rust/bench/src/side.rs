//! The two sides of a row: the proved library and plain Rust, by the calls of the C interface.

use crate::plain;
use compare::day::Days;
use compare::journal::Journaling;
use compare::parts::Writing;
use compare::run::Runs;
use compare::sheet::Judging;
use compare::site::SiteStep;
use fjadrimor::calls;

#[derive(Clone, Copy)]
pub enum Side {
    Library,
    Plain,
}

impl Side {
    pub fn named(name: &str) -> Option<Side> {
        match name {
            "library" => Some(Side::Library),
            "plain" => Some(Side::Plain),
            _ => None,
        }
    }

    pub fn site_step(self) -> SiteStep {
        match self {
            Side::Library => calls::site_step,
            Side::Plain => plain::site_step,
        }
    }

    pub fn runs(self) -> Runs {
        match self {
            Side::Library => Runs { fresh: calls::run_fresh, event: calls::run_event },
            Side::Plain => Runs { fresh: plain::run_fresh, event: plain::run_event },
        }
    }

    pub fn journaling(self) -> Journaling {
        match self {
            Side::Library => Journaling {
                read: calls::record_read,
                write: calls::record_write,
                rehearse: calls::rehearse,
            },
            Side::Plain => Journaling {
                read: plain::record_read,
                write: plain::record_write,
                rehearse: plain::rehearse,
            },
        }
    }

    pub fn days(self) -> Days {
        let journal = match self {
            Side::Library => calls::run_journal,
            Side::Plain => plain::run_journal,
        };
        Days { journal, read: self.journaling().read, event: self.runs().event }
    }

    pub fn judging(self) -> Judging {
        match self {
            Side::Library => Judging { judge: calls::sheet_judge, report: calls::sheet_report },
            Side::Plain => Judging { judge: plain::sheet_judge, report: plain::sheet_report },
        }
    }

    pub fn writing(self) -> Writing {
        match self {
            Side::Library => Writing { parts: calls::sheet_parts, write: calls::sheet_write },
            Side::Plain => Writing { parts: plain::sheet_parts, write: plain::sheet_write },
        }
    }
}
