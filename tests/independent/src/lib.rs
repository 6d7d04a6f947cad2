//! Document 01, with requests 01 to 05, 07 to 11, 13 and 14 of document 02, written from their text
//! alone, in plain Rust.
//!
//! `rules` is the implementation and has no unsafe code. `boundary` has the
//! C structures and the exported functions.

pub mod boundary;
pub mod rules;

#[cfg(test)]
mod bench_table;
#[cfg(test)]
mod relay_table;
#[cfg(test)]
mod route_table;
