//! What the library is measured beside, in plain Rust over the same bytes: the two tests as a careful programmer writes them, and better ones; and files with
//! handles. None has `unsafe`; they may use the heap, which the library does not.

pub mod audit;
pub mod calls;
pub mod careful;
pub mod ends;
pub mod fault;
pub mod files;
pub mod kiosk;
pub mod lookup;
pub mod merge;
pub mod nodes;
pub mod opens;
pub mod plan;
pub mod salvage;
pub mod sorted;
pub mod walks;

pub const FLAG: u32 = 0x8000_0000;
pub const INDEX: u32 = 0x7FFF_FFFF;
