//! The limits have the header's numbers.

use mukthiban::{fat, tree};

/// The number that the header defines under a name.
fn defined(name: &str) -> usize {
    let header = include_str!("../../../include/mukthiban_types.h");
    let line = header.lines().find_map(|line| line.strip_prefix(&format!("#define MUKTHIBAN_{name} ")));
    let number = line.unwrap_or_else(|| panic!("no {name}")).split_whitespace().next().unwrap();
    number.trim_end_matches('u').parse().unwrap()
}

#[test]
fn limits() {
    assert_eq!(fat::MAX_BLOCKS, defined("MAX_BLOCKS"));
    assert_eq!(fat::MAX_BLOCK_LEN, defined("MAX_BLOCK_LENGTH"));
    assert_eq!(tree::MAX_ENTRIES, defined("MAX_ENTRIES"));
    assert_eq!(tree::MAX_BUCKETS, defined("MAX_BUCKETS"));
    assert_eq!(tree::DIR_WIDTH, defined("DIR_WIDTH"));
    assert_eq!(tree::FILE_WIDTH, defined("FILE_WIDTH"));
    assert_eq!(tree::ROOT as usize, defined("ROOT"));
    assert_eq!(size_of::<tree::Name>(), defined("NAME_LENGTH"));
}
