//! Comparisons of two programs on the same bytes: the inputs and what is looked at.

pub mod day;
pub mod hostile;
pub mod inputs;
pub mod journal;
pub mod lowest;
pub mod parts;
pub mod program;
pub mod run;
pub mod sheet;
pub mod site;
pub mod tally;

#[cfg(test)]
mod colliding_tests;
#[cfg(test)]
mod figure_tests;
#[cfg(test)]
mod obeying_tests;
#[cfg(test)]
mod parts_tests;

/// The Rust in README.md compiles and runs as it stands there.
#[cfg(doctest)]
#[doc = include_str!("../../../README.md")]
struct Readme;
