//! Lengths that do not fit.

use crate::words::{count, number};
use mukthiban::folder::Sizes;
use mukthiban::tree;

const TABLES: [(usize, &str, u64); 2] =
    [(3, "dir_table.bin", tree::DIR_WIDTH as u64), (5, "file_table.bin", tree::FILE_WIDTH as u64)];
const HASHES: [(usize, &str); 2] = [(2, "dir_hash.bin"), (4, "file_hash.bin")];

/// Whether the lengths fit each other, whatever their bounds.
pub fn fit(sizes: &Sizes) -> bool {
    misfits(sizes).is_empty()
}

/// Each length that does not fit, or is out of bounds, in a line.
pub fn lines(sizes: &Sizes) -> Vec<String> {
    let mut lines = misfits(sizes);
    let bounds = [
        ("fat.bin: blocks", sizes.blocks(), 1_000_000),
        ("block_len", sizes.block_len as u64, 65_536),
        ("dir_hash.bin: buckets", sizes.files[2] / 4, 65_536),
        ("file_hash.bin: buckets", sizes.files[4] / 4, 65_536),
        ("dir_table.bin: entries", sizes.files[3] / TABLES[0].2, 65_536),
        ("file_table.bin: entries", sizes.files[5] / TABLES[1].2, 65_536),
    ];
    for (name, value, most) in bounds {
        if value < 1 || value > most {
            lines.push(format!("{name}: {} is not from 1 to {}", number(value), number(most)));
        }
    }
    lines
}

fn misfits(sizes: &Sizes) -> Vec<String> {
    let mut lines = Vec::new();
    let bytes = |length: u64| count(length, "byte");
    let [table, data, ..] = sizes.files;
    if table < 8 || !table.is_multiple_of(8) {
        lines.push(format!("fat.bin has {}; a block table has 8 for each block and 8 more", bytes(table)));
    } else if !sizes.data_fits() {
        let (blocks, each) = (count(sizes.blocks(), "block"), bytes(sizes.block_len as u64));
        let want = u128::from(sizes.blocks()) * sizes.block_len as u128;
        let want = number(u64::try_from(want).unwrap_or(u64::MAX));
        lines.push(format!("data.bin has {}; {blocks} of {each} make {want}", bytes(data)));
    }
    for (place, name) in HASHES {
        let length = sizes.files[place];
        if length == 0 || !length.is_multiple_of(4) {
            lines.push(format!("{name} has {}; it needs 4 for each bucket, and one bucket at least", bytes(length)));
        }
    }
    for (place, name, width) in TABLES {
        if sizes.files[place] < width {
            lines.push(format!("{name} has {}; one entry alone has {width}", bytes(sizes.files[place])));
        }
    }
    lines
}
