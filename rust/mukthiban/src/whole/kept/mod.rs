//! One layer by itself, for a program whose tables stand in files elsewhere. The table is tested once; each changing call
//! then tells what it changed, so that this alone is written, or taken back where it can't be written.
//!
//! Each is a [`Volume`] of which the other layer is a small one of its own that nobody sees.

mod blocks;
mod entries;
mod watch;

pub use blocks::BlockTable;
pub use entries::EntryTables;
pub use watch::{Change, Part};

use super::Volume;
use crate::parts::Shape;

/// The smallest volume.
fn smallest() -> Volume {
    let shape = Shape { blocks: 1, block_len: 512, dir_max: 2, file_max: 1, buckets: 1 };
    Volume::new(shape).expect("the smallest sizes are within their bounds")
}
