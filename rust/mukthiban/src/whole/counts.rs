//! What a volume counts when it is opened.

use crate::fat::Tested;

/// For each file's first block the file's blocks, by the node rule (RULES 3.2), on a table that the test has accepted.
/// The sums are held against what the test answered.
pub fn count_files(table: &[u8], tested: Tested) -> Vec<u32> {
    let word = |at: usize| u32::from_le_bytes(table[at..at + 4].try_into().expect("4 bytes")) as usize;
    let index = |at: usize| word(at) & 0x7FFF_FFFF;
    // Of the node at block b: its size, the index before it and the index after it.
    let size = |b: usize| match word(b * 8 + 12) >> 31 {
        0 => 1,
        _ => index(b * 8 + 20) - b,
    };
    let previous = |b: usize| index(b * 8 + 8);
    let next = |b: usize| index(b * 8 + 12);

    let blocks = table.len() / 8 - 1;
    let free_front = index(4);
    let mut counts = vec![0; blocks];
    let (mut node, mut files, mut used) = (0, 0, 0);
    while node < blocks {
        if previous(node) == 0 && free_front != node + 1 {
            let mut count = size(node);
            let mut at = next(node);
            while at != 0 {
                count += size(at - 1);
                at = next(at - 1);
            }
            counts[node] = count as u32;
            files += 1;
            used += count;
        }
        node += size(node);
    }
    assert_eq!((files, used), (tested.files, blocks - tested.free), "the count agrees with the test");
    counts
}
