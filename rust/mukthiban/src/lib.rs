//! The block table and the entry tables of a saved-game volume, for Rust.
//!
//! The work is done by a static library whose every call is proved to answer as `docs/RULES.md` says and to leave every
//! other byte as it was. This crate adds names to its numbers, slices to its pointers, and [`Volume`].
//!
//! - [`fat`], [`map`], [`plan`], [`tree`] and, for both layers together, [`mod@volume`] and [`kiosk`] have each call once, over lent
//!   slices, any bytes allowed.
//! - [`Volume`] owns a whole volume, tests it once, and then works without testing again. It has a walk of its tree,
//!   lookup by path, and files that are read and written as the standard library's are.
//! - [`salvage`] says what of a broken volume can still be trusted.
//! - [`BlockTable`] and [`EntryTables`] are one layer each, for a program whose tables stand in files elsewhere: they tell
//!   what each call changed.
//! - [`Refusal`] says why a call was refused.
//! - [`folder`] reads a volume from a folder of the host and puts a changed one in its place.
//! - [`Record`] reads where a file's blocks begin and how long it is; [`name`] makes and shows names.
//!
//! Without the feature `std`, which is on by default, the crate is `no_std` and needs no allocator: all but `Volume`
//! and what belongs to it is there.
#![cfg_attr(not(feature = "std"), no_std)]
#![deny(missing_docs)]

#[cfg(feature = "std")]
mod chains;
#[cfg(all(unix, feature = "std"))]
mod digest;
#[cfg(all(unix, feature = "std"))]
mod disk;
#[cfg(feature = "std")]
mod inner;
#[cfg(all(unix, feature = "std"))]
mod journal;
#[cfg(feature = "std")]
mod parts;
mod record;
mod refusal;
mod tables;
#[cfg(feature = "std")]
mod whole;

pub mod fat;
#[cfg(all(unix, feature = "std"))]
pub mod folder;
pub mod kiosk;
pub mod map;
pub mod name;
pub mod plan;
pub mod salvage;
pub mod tree;
pub mod volume;

#[cfg(feature = "std")]
pub use parts::{Parts, Shape};
pub use record::Record;
pub use refusal::Refusal;
pub use tables::{Kind, Name, Want, ROOT};
#[cfg(feature = "std")]
pub use whole::{BlockTable, Change, Entry, EntryTables, File, FileMut, NotSound, Part, Volume, Walk};

/// The version of the proved library that is linked: major, minor, patch.
///
/// ```
/// let (major, minor, patch) = mukthiban::version();
/// assert_eq!(format!("{major}.{minor}.{patch}"), env!("CARGO_PKG_VERSION"));
/// ```
pub fn version() -> (u32, u32, u32) {
    // SAFETY: it takes nothing.
    let number = unsafe { mukthiban_ffi::mukthiban_version() };
    (number / 65_536, number / 256 % 256, number % 256)
}
