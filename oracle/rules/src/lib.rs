//! The rules of docs/RULES.md, stated a second time, in Rust and for reading.
//!
//! Nothing here is taken from the original or from the proved crates: every function is written from the paper, in its words, over plain bytes.
//! It judges any input, sound or damaged: the number, every answer field and every lent byte.
//! Speed does not matter, beyond being about linear.

pub mod aged;
pub mod answer;
pub mod audit;
pub mod blocks;
pub mod by_list;
pub mod entries;
pub mod fault;
pub mod kiosk;
pub mod layout;
pub mod map;
pub mod merge;
pub mod opens;
pub mod plan;
pub mod salvage;
pub mod sound;
pub mod tree;

pub use answer::Answer;

/// The little-endian u32 at byte `at`.
pub fn word(bytes: &[u8], at: usize) -> u32 {
    u32::from_le_bytes([bytes[at], bytes[at + 1], bytes[at + 2], bytes[at + 3]])
}

/// Writes a little-endian u32 at byte `at`.
pub fn put_word(bytes: &mut [u8], at: usize, value: u32) {
    bytes[at..at + 4].copy_from_slice(&value.to_le_bytes());
}
