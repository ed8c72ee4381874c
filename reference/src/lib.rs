//! A second settlement engine, written from the documentation alone, to compare `gmc` with.
//!
//! It takes a whole sheet apart into a list of rows, groups the rows in maps, and sums over the
//! maps. All arithmetic is in 128 bits.

pub mod book;
pub mod charges;
pub mod command;
pub mod concessions;
pub mod refusal;
pub mod engine;
pub mod sheet;
pub mod words;
