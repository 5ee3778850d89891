//! Rueladle a second time: lines, blocks, bodies, frames, trays and the reader, written from docs/ alone.
//!
//! Plain Rust over the standard library. It shares nothing with the proved crates, so that a
//! difference between the two is a fault in one of them, or in the docs.

pub mod blocks;
pub mod bodies;
pub mod frame;
pub mod lines;
pub mod reader;
pub mod tray;
pub mod words;

/// Why a call did nothing: the number of docs/REFUSALS.md, and the place.
#[derive(Clone, Copy, Debug, PartialEq, Eq)]
pub struct Refusal {
    pub number: u8,
    pub place: u64,
}

/// A refusal by a number, at a place in a buffer or a list.
pub fn refused<T>(number: u8, place: usize) -> Result<T, Refusal> {
    Err(Refusal { number, place: place as u64 })
}
