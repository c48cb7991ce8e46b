//! Plain Rust with masks, the measure for the proved library's speed: the same bytes in and out.

pub mod day;
pub mod journal;
pub mod parts;
pub mod plain;
pub mod row;
pub mod run;
pub mod sheet;
pub mod side;
pub mod site;
pub mod slowest;

#[cfg(test)]
mod tests;

/// The rows of the table.
pub fn rows() -> Vec<row::Row> {
    let runs = [site::rows(), run::rows(), journal::rows(), day::rows()];
    let sheets = [sheet::rows(), parts::rows()];
    runs.into_iter().chain(sheets).flatten().collect()
}
