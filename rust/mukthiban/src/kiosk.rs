//! The demo kiosk's profile, over lent slices.
//!
//! A kiosk takes only simple volumes. [`test`] says whether a volume is one, and [`create`] makes a file so that it stays
//! one.
//!
//! ```
//! use mukthiban::kiosk::{self, Rule};
//! use mukthiban::{fat, tree, tree::TablesMut, Record, Refusal, ROOT};
//! let (mut table, data) = ([0u8; 8 * 9], [0u8; 8 * 512]);
//! let (mut dir_hash, mut dir_table) = ([0u8; 4 * 3], [0u8; 40 * 2]);
//! let (mut file_hash, mut file_table) = ([0u8; 4 * 3], [0u8; 48 * 4]);
//! let (mut work, mut opens, mut opened) = ([0u32; 8 + 2 + 4], [0u32; 2], 0);
//! let mut tables = TablesMut {
//!     dir_hash: &mut dir_hash,
//!     dir_table: &mut dir_table,
//!     file_hash: &mut file_hash,
//!     file_table: &mut file_table,
//! };
//! fat::format(&mut table)?;
//! tree::format(&mut tables, 2, 4)?;
//! assert_eq!(kiosk::test(&table, &data, 512, tables.shared(), &mut work)?, None);
//!
//! let first_block = kiosk::create(&mut table, &data, 512, &mut work, 3)? as u32;
//! assert_eq!(kiosk::test(&table, &data, 512, tables.shared(), &mut work)?, Some(Rule::Audit));
//! let mut carried = [0; 20];
//! Record { first_block, size: 1025 }.put(&mut carried);
//! tree::make_file(&mut tables, &mut work, &mut opens, &mut opened, ROOT, b"SLOT1\0\0\0\0\0\0\0\0\0\0\0", &carried)?;
//! assert_eq!(kiosk::test(&table, &data, 512, tables.shared(), &mut work)?, None);
//!
//! // Five blocks are free, and none of the nodes has six.
//! assert_eq!(kiosk::create(&mut table, &data, 512, &mut work, 6), Err(Refusal::NoSpace));
//! # Ok::<(), Refusal>(())
//! ```

use crate::refusal::{judge, Refusal};
use crate::tables::Tables;
use core::fmt;
use mukthiban_ffi as ffi;

/// The most blocks of a volume in the profile.
pub const MAX_BLOCKS: usize = 8191;

/// The most live files of a volume in the profile.
pub const MAX_FILES: usize = 64;

/// A rule of the profile (RULES 6.18).
#[derive(Clone, Copy, Debug, PartialEq, Eq, Hash)]
pub enum Rule {
    /// 1: the audit finds nothing.
    Audit,
    /// 2: at most 8,191 blocks.
    Blocks,
    /// 3: no directory but the root.
    Directories,
    /// 4: at most 64 live files.
    Files,
    /// 5: every chain but the free one is a single node.
    Chains,
    /// 6: file names are one or more of A to Z and 0 to 9, then zeros to the end.
    Names,
}

impl Rule {
    /// All of them, in the order in which they are judged.
    pub const ALL: [Rule; 6] = [Rule::Audit, Rule::Blocks, Rule::Directories, Rule::Files, Rule::Chains, Rule::Names];

    /// The rule with that number, 1 to 6.
    pub fn of(number: u32) -> Option<Rule> {
        Rule::ALL.into_iter().find(|rule| rule.number() == number)
    }

    /// Its number.
    pub fn number(self) -> u32 {
        self as u32 + 1
    }
}

/// The rule in words.
impl fmt::Display for Rule {
    fn fmt(&self, f: &mut fmt::Formatter<'_>) -> fmt::Result {
        f.write_str(match self {
            Rule::Audit => "the audit finds nothing",
            Rule::Blocks => "at most 8191 blocks",
            Rule::Directories => "no directory but the root",
            Rule::Files => "at most 64 files",
            Rule::Chains => "every file in one piece",
            Rule::Names => "file names of A to Z and 0 to 9 alone",
        })
    }
}

/// The first rule that the volume breaks; none where it is in the profile.
pub fn test(
    table: &[u8],
    data: &[u8],
    block_len: usize,
    tables: Tables<'_>,
    work: &mut [u32],
) -> Result<Option<Rule>, Refusal> {
    // SAFETY: here and below, pointers and lengths are those of slices, and what is lent `&mut` overlaps nothing.
    let r = unsafe {
        ffi::mukthiban_kiosk_test(
            table.as_ptr(),
            table.len(),
            data.as_ptr(),
            data.len(),
            block_len,
            tables.dir_hash.as_ptr(),
            tables.dir_hash.len(),
            tables.dir_table.as_ptr(),
            tables.dir_table.len(),
            tables.file_hash.as_ptr(),
            tables.file_hash.len(),
            tables.file_table.as_ptr(),
            tables.file_table.len(),
            work.as_mut_ptr(),
            work.len(),
        )
    };
    judge(r.answer)?;
    Ok(Rule::of(r.broken))
}

/// Makes a file of `block_count` blocks in one node, the left part of the first node along the free chain that has so many,
/// and answers its first block. `NoSpace` where no free node has so many.
pub fn create(
    table: &mut [u8],
    data: &[u8],
    block_len: usize,
    work: &mut [u32],
    block_count: usize,
) -> Result<usize, Refusal> {
    let r = unsafe {
        ffi::mukthiban_kiosk_create(
            table.as_mut_ptr(),
            table.len(),
            data.as_ptr(),
            data.len(),
            block_len,
            work.as_mut_ptr(),
            work.len(),
            block_count,
        )
    };
    judge(r.answer)?;
    Ok(r.first_block)
}
