//! A file's lookup in plain Rust over sound tables: its inode, and how many entries were compared.

use std::hint::black_box;

pub const WIDTH: usize = 48;

#[inline]
pub fn word(bytes: &[u8], at: usize) -> u32 {
    u32::from_le_bytes(bytes[at..at + 4].try_into().unwrap())
}

#[inline]
pub fn bucket(hash: &[u8], words: [u32; 5]) -> u32 {
    let mixed = words.iter().fold(0x1234_5678u32, |h, word| h.rotate_right(1) ^ word);
    word(hash, mixed as usize % (hash.len() / 4) * 4)
}

/// The walk along a bucket, to the entry of which `same` holds.
#[inline]
fn along(table: &[u8], mut inode: u32, same: impl Fn(&[u8]) -> bool) -> (u32, u32) {
    let mut compared = 0;
    while inode != 0 {
        compared += 1;
        let entry = &table[inode as usize * WIDTH..][..WIDTH];
        if same(entry) {
            break;
        }
        inode = word(entry, WIDTH - 4);
    }
    (inode, compared)
}

/// As one writes it for speed: each word of the key is read once, from the name itself.
#[inline(never)]
pub fn straight(hash: &[u8], table: &[u8], parent: u32, name: &[u8; 16]) -> (u32, u32) {
    let words = [parent, word(name, 0), word(name, 4), word(name, 8), word(name, 12)];
    along(table, bucket(hash, words), |entry| entry[4..20] == name[..] && word(entry, 0) == parent)
}

/// The key is filled as twenty bytes first, and hashed and compared from there.
#[inline(never)]
pub fn filled(hash: &[u8], table: &[u8], parent: u32, name: &[u8; 16]) -> (u32, u32) {
    let mut key = [0; 20];
    key[..4].copy_from_slice(&parent.to_le_bytes());
    key[4..].copy_from_slice(name);
    let key = black_box(key);
    let words = [0, 4, 8, 12, 16].map(|at| word(&key, at));
    along(table, bucket(hash, words), |entry| entry[..20] == key)
}
