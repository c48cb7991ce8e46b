//! The program as an operator meets it.

mod close;
mod desk;
mod start;
