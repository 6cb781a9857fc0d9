//! What can still be trusted on a broken volume. Nothing here writes to one.
//!
//! [`chain`], [`chains`], [`shared`], [`dirs`], [`files`] and [`way`] are calls of the proved library, over lent slices, any bytes
//! allowed. [`Salvage`] takes a whole volume apart with them: every file with its path, its blocks and how far it can be
//! trusted, and the chains that no file names. What it takes beside the live entries and the sure ways, and how it marks a
//! file, is Rust, and tested alone.
//!
//! ```
//! use mukthiban::salvage::{chain, shared, Ends, Trust};
//! use mukthiban::{fat, Refusal};
//! let (mut table, data, mut work) = ([0u8; 8 * 7], [0u8; 6 * 512], [0u32; 6]);
//! fat::format(&mut table)?;
//! let first = fat::create(&mut table, &data, 512, &mut work, 2)?;
//! let second = fat::create(&mut table, &data, 512, &mut work, 3)?;
//! table[0] ^= 1; // the head has not its form: the table is refused, the files are whole
//! assert_eq!(fat::test(&table, &mut work), Err(Refusal::BrokenFat));
//!
//! let mut list = [0; 6];
//! let followed = chain(&table, &mut work, first, &mut list)?;
//! assert_eq!((followed.count, followed.ends), (2, Ends::Whole));
//! assert_eq!(list[..2], [0, 1]);
//! shared(&table, &mut work, &[first as u32, second as u32, 1, 0], &mut list)?;
//! assert_eq!(list[..4].iter().map(|&k| Trust::of(k)).collect::<Vec<_>>(), [
//!     Some(Trust::Shared), // it is named twice
//!     Some(Trust::Whole),
//!     Some(Trust::Cut), // no node begins at block 1
//!     Some(Trust::Shared),
//! ]);
//! # Ok::<(), Refusal>(())
//! ```

use crate::fat::Fault;
use crate::refusal::{judge, Refusal};
use mukthiban_ffi as ffi;

#[cfg(feature = "std")]
mod entries;
#[cfg(feature = "std")]
mod evidence;
#[cfg(all(unix, feature = "std"))]
mod load;
#[cfg(feature = "std")]
mod naive;
#[cfg(feature = "std")]
mod table;
#[cfg(feature = "std")]
mod volume;

#[cfg(feature = "std")]
pub use entries::{Entries, Found, Way};
#[cfg(all(unix, feature = "std"))]
pub use load::load;
#[cfg(feature = "std")]
pub use naive::{naive, NaiveFile};
#[cfg(feature = "std")]
pub use volume::{Doubt, LostChain, Salvage, SalvagedFile};

/// Why a chain has no more blocks.
#[derive(Clone, Copy, Debug, PartialEq, Eq)]
pub enum Ends {
    /// It is whole: its first node has no previous, its last no next.
    Whole,
    /// The next node can't be read (rules 1 to 5 of RULES 3.6), or the entry's node has a next that is no block, does not
    /// name it back, or has a block that came before (rule 7).
    Broken(Fault),
    /// The first node has a previous: the chain begins elsewhere.
    HasPrevious,
}

/// A chain, as far as it could be followed.
#[derive(Clone, Copy, Debug, PartialEq, Eq)]
pub struct Followed {
    /// Its blocks in the list.
    pub count: usize,
    /// Why there are no more.
    pub ends: Ends,
}

impl Followed {
    /// What the three numbers say that [`chains`] writes of a chain; none where it was not followed, since those before it
    /// have more than 4n blocks together.
    pub fn of(told: &[usize; 3]) -> Option<Followed> {
        let ends = match told[2] {
            9 => return None,
            rule => Ends::of(told[1], rule as u32),
        };
        Some(Followed { count: told[0], ends })
    }
}

impl Ends {
    fn of(entry: usize, rule: u32) -> Ends {
        match rule {
            0 => Ends::Whole,
            8 => Ends::HasPrevious,
            rule => Ends::Broken(Fault { entry, rule }),
        }
    }
}

/// What a chain is worth beside others.
#[derive(Clone, Copy, Debug, PartialEq, Eq)]
pub enum Trust {
    /// Whole, and no other whole chain of the list has a block of it.
    Whole,
    /// Not whole.
    Cut,
    /// Whole, but another has a block of it too, or it is named twice.
    Shared,
    /// Not followed: those before it have more than 4n blocks together.
    Unjudged,
}

impl Trust {
    /// What a number that [`shared`] wrote stands for.
    pub fn of(kind: u32) -> Option<Trust> {
        [Trust::Whole, Trust::Cut, Trust::Shared, Trust::Unjudged].get(kind as usize).copied()
    }
}

/// Writes to `list` the blocks of the chain that a block starts, as far as it can be followed: while each node can be
/// read, names back the one before it, and has no block that came before. `NotAFile` where no node can be read at the
/// block.
pub fn chain(table: &[u8], work: &mut [u32], first_block: usize, list: &mut [u32]) -> Result<Followed, Refusal> {
    // SAFETY: pointers and lengths are those of slices, and what is lent `&mut` overlaps nothing.
    let r = unsafe {
        ffi::mukthiban_salvage_chain(
            table.as_ptr(),
            table.len(),
            work.as_mut_ptr(),
            work.len(),
            first_block,
            list.as_mut_ptr(),
            list.len(),
        )
    };
    judge(r.answer)?;
    Ok(Followed { count: r.count, ends: Ends::of(r.entry, r.rule) })
}

/// The same for each of some first blocks, in one call that is linear in blocks and first blocks: `told` has three places
/// for each ([`Followed::of`]), and `list` the blocks of all, one chain behind the other. Answers how many these are; they
/// are no more than 5n. Where no node can be read at a first block, its chain has none.
pub fn chains(
    table: &[u8],
    work: &mut [u32],
    firsts: &[u32],
    told: &mut [[usize; 3]],
    list: &mut [u32],
) -> Result<usize, Refusal> {
    // SAFETY: pointers and lengths are those of slices, three numbers to each of `told`, and what is lent `&mut` overlaps
    // nothing.
    let r = unsafe {
        ffi::mukthiban_salvage_chains(
            table.as_ptr(),
            table.len(),
            work.as_mut_ptr(),
            work.len(),
            firsts.as_ptr(),
            firsts.len(),
            told.as_mut_ptr().cast(),
            3 * told.len(),
            list.as_mut_ptr(),
            list.len(),
        )
    };
    judge(r.answer)?;
    Ok(r.count)
}

/// Writes to `list` the live directories of a directory table, by their inodes, and answers how many there are: those below
/// count and room that the removed list, as far as it can be followed, does not name. A work list has a place for each entry
/// of the room.
pub fn dirs(table: &[u8], work: &mut [u32], list: &mut [u32]) -> Result<usize, Refusal> {
    // SAFETY: pointers and lengths are those of slices, and what is lent `&mut` overlaps nothing.
    let r = unsafe {
        ffi::mukthiban_salvage_dirs(
            table.as_ptr(),
            table.len(),
            work.as_mut_ptr(),
            work.len(),
            list.as_mut_ptr(),
            list.len(),
        )
    };
    judge(r.answer)?;
    Ok(r.count)
}

/// The same of a file table.
pub fn files(table: &[u8], work: &mut [u32], list: &mut [u32]) -> Result<usize, Refusal> {
    // SAFETY: pointers and lengths are those of slices, and what is lent `&mut` overlaps nothing.
    let r = unsafe {
        ffi::mukthiban_salvage_files(
            table.as_ptr(),
            table.len(),
            work.as_mut_ptr(),
            work.len(),
            list.as_mut_ptr(),
            list.len(),
        )
    };
    judge(r.answer)?;
    Ok(r.count)
}

/// Writes to `list` the directories from an inode up by parents, the inode itself first, as far as they can be followed in
/// a directory table, and answers how many there are. It leads to the root where inode 1 is the last.
pub fn way(table: &[u8], work: &mut [u32], inode: u32, list: &mut [u32]) -> Result<usize, Refusal> {
    // SAFETY: pointers and lengths are those of slices, and what is lent `&mut` overlaps nothing.
    let r = unsafe {
        ffi::mukthiban_salvage_way(
            table.as_ptr(),
            table.len(),
            work.as_mut_ptr(),
            work.len(),
            inode,
            list.as_mut_ptr(),
            list.len(),
        )
    };
    judge(r.answer)?;
    Ok(r.count)
}

/// Writes to `list`, for each of some first blocks, what its chain is worth beside the others ([`Trust::of`]).
pub fn shared(table: &[u8], work: &mut [u32], firsts: &[u32], list: &mut [u32]) -> Result<(), Refusal> {
    // SAFETY: pointers and lengths are those of slices, and what is lent `&mut` overlaps nothing.
    let r = unsafe {
        ffi::mukthiban_salvage_shared(
            table.as_ptr(),
            table.len(),
            work.as_mut_ptr(),
            work.len(),
            firsts.as_ptr(),
            firsts.len(),
            list.as_mut_ptr(),
            list.len(),
        )
    };
    judge(r.answer)
}
