//! Entry tables to run calls on: formatted ones, and arbitrary sound ones with junk in every byte that the rules do not judge.

use crate::chance::Chance;
use port::{Kind, Tree};
use rules::entries::{hash, key};
use rules::opens::Packed;
use rules::put_word;
use rules::tree::{tree, Four};

/// A name that a new entry may have: the first byte is not zero, and after a zero come only zeros. Few of them, so that keys meet; some use all 16 bytes.
pub fn any_name(chance: &mut Chance) -> [u8; 16] {
    let (mut name, place) = if chance.one_in(4) { ([b'z'; 16], 15) } else { ([0; 16], 0) };
    name[place] = chance.pick(b"abcdefgh");
    name
}

/// A name that an entry may have that is there already: any bytes, also what no new entry may have.
pub fn any_bytes_name(chance: &mut Chance) -> [u8; 16] {
    let mut name = [0; 16];
    match chance.below(8) {
        0 => name[15] = chance.pick(b"abcdefgh"),
        1 => (name[0], name[2]) = (chance.pick(b"abcdefgh"), b'x'),
        2 => {}
        _ => name = any_name(chance),
    }
    name
}

/// One table to be written: its kind, room, maximum, count, and removed inodes in list order.
struct Plan {
    kind: Kind,
    room: usize,
    maximum: usize,
    count: usize,
    removed: Vec<u32>,
}

fn any_plan(chance: &mut Chance, kind: Kind) -> Plan {
    let least = kind.least();
    let largest = chance_size(chance);
    let maximum = chance.within(least, largest);
    let room = maximum + chance.pick(&[0, 0, 1, 5]);
    let count = if chance.one_in(3) { maximum } else { chance.within(least, maximum) };
    let spared = if kind == Kind::Dir { 2 } else { 1 };
    let mut removed: Vec<u32> = (spared..count as u32).filter(|_| chance.one_in(3)).collect();
    chance.shuffle(&mut removed);
    Plan { kind, room, maximum, count, removed }
}

fn chance_size(chance: &mut Chance) -> usize {
    chance.pick(&[2, 3, 4, 6, 8, 12, 20, 40])
}

impl Plan {
    fn live(&self) -> Vec<u32> {
        (1..self.count as u32).filter(|x| !self.removed.contains(x)).collect()
    }
    fn field(&self, table: &mut [u8], inode: u32, place: usize, value: u32) {
        put_word(table, inode as usize * self.kind.width() + place, value);
    }
    /// Threads a list through a field: the first inode, and each entry's successor.
    fn thread(&self, table: &mut [u8], list: &[u32], place: usize) -> u32 {
        for (i, x) in list.iter().enumerate() {
            self.field(table, *x, place, list.get(i + 1).copied().unwrap_or(0));
        }
        list.first().copied().unwrap_or(0)
    }
    fn collision(&self) -> usize {
        self.kind.width() - 4
    }
    /// Entry 0, keys, removed list and buckets, over junk: hash and table.
    fn written(&self, chance: &mut Chance, keys: &[(u32, [u8; 20])]) -> (Vec<u8>, Vec<u8>) {
        let buckets = chance.pick(&[1, 1, 2, 3, 5, 7, 16]);
        let extra = chance.below(5);
        let mut hashes = vec![0; 4 * buckets];
        let mut table = chance.bytes(self.room * self.kind.width() + extra);
        self.field(&mut table, 0, 0, self.count as u32);
        self.field(&mut table, 0, 4, self.maximum as u32);
        let first = self.thread(&mut table, &self.removed, self.collision());
        self.field(&mut table, 0, self.collision(), first);
        let mut lists = vec![vec![]; buckets];
        for (x, key) in keys {
            let at = *x as usize * self.kind.width();
            table[at..at + 20].copy_from_slice(key);
            lists[hash(key) as usize % buckets].push(*x);
        }
        for (bucket, list) in lists.iter_mut().enumerate() {
            chance.shuffle(list);
            let first = self.thread(&mut table, list, self.collision());
            put_word(&mut hashes, bucket * 4, first);
        }
        (hashes, table)
    }
}

/// A key for each inode: a parent from those given to it, and a name that is not yet taken there.
fn any_keys(chance: &mut Chance, inodes: &[u32], parents: impl Fn(&mut Chance, usize) -> u32) -> Vec<(u32, [u8; 20])> {
    let mut keys: Vec<(u32, [u8; 20])> = vec![];
    for (i, x) in inodes.iter().enumerate() {
        let parent = parents(chance, i);
        let mut wanted = key(parent, &any_bytes_name(chance));
        while keys.iter().any(|(_, other)| *other == wanted) {
            let name: [u8; 16] = chance.bytes(16).try_into().unwrap();
            wanted = key(parent, &name);
        }
        keys.push((*x, wanted));
    }
    keys
}

/// Threads the children of each directory, in any order, and writes the first into the directory.
fn children(chance: &mut Chance, dirs: &Plan, dir_table: &mut [u8], these: &Plan, keys: &[(u32, [u8; 20])]) -> Vec<(u32, u32)> {
    let mut links = vec![];
    let place = if these.kind == Kind::Dir { 24 } else { 28 };
    for dir in dirs.live() {
        let of = |key: &[u8; 20]| rules::word(key, 0) == dir;
        let mut list: Vec<u32> = keys.iter().filter(|(_, key)| of(key)).map(|(x, _)| *x).collect();
        chance.shuffle(&mut list);
        dirs.field(dir_table, dir, place, list.first().copied().unwrap_or(0));
        for (i, x) in list.iter().enumerate() {
            links.push((*x, list.get(i + 1).copied().unwrap_or(0)));
        }
    }
    links
}

/// Arbitrary sound tables over junk, with nothing open.
pub fn any_sound(chance: &mut Chance) -> Tree {
    let (dirs, files) = (any_plan(chance, Kind::Dir), any_plan(chance, Kind::File));
    let mut others = dirs.live();
    others.retain(|x| *x != 1);
    chance.shuffle(&mut others);
    // A directory's parent is the root or one dealt before it, so all reach the root.
    let dealt = others.clone();
    let mut dir_keys = any_keys(chance, &others, |chance, i| {
        if i == 0 || chance.one_in(3) { 1 } else { dealt[chance.below(i)] }
    });
    dir_keys.push((1, [0; 20]));
    let homes = dirs.live();
    let file_keys = any_keys(chance, &files.live(), |chance, _| chance.pick(&homes));
    let (dir_hash, mut dir_table) = dirs.written(chance, &dir_keys);
    let (file_hash, mut file_table) = files.written(chance, &file_keys);
    let below_root: Vec<_> = dir_keys.iter().filter(|(x, _)| *x != 1).cloned().collect();
    let dir_links = children(chance, &dirs, &mut dir_table, &dirs, &below_root);
    let file_links = children(chance, &dirs, &mut dir_table, &files, &file_keys);
    for (x, next) in dir_links {
        dirs.field(&mut dir_table, x, 20, next);
    }
    dirs.field(&mut dir_table, 1, 20, 0);
    for (x, next) in file_links {
        files.field(&mut file_table, x, 20, next);
    }
    let four = Four {
        dir_hash: &dir_hash,
        dir_table: &dir_table,
        file_hash: &file_hash,
        file_table: &file_table,
    };
    assert!(tree(four).is_some(), "tables that are laid out are sound");
    let spare = chance.below(3);
    let work = chance.words(dirs.room + files.room + spare);
    Tree {
        dir_hash,
        dir_table,
        file_hash,
        file_table,
        work,
        dir_opens: any_places(chance, dirs.room),
        file_opens: any_places(chance, files.room),
        list: vec![],
    }
}

/// Nothing open, in a list with a place for every entry, or for some.
fn any_places(chance: &mut Chance, room: usize) -> Packed {
    let places = if chance.one_in(2) { 2 * room } else { chance.below(2 * room + 2) };
    Packed { list: chance.words(places), opened: 0 }
}

/// Arbitrary sound tables with few entries.
pub fn small_sound(chance: &mut Chance) -> Tree {
    loop {
        let lent = any_sound(chance);
        if lent.room(Kind::Dir) <= 6 && lent.room(Kind::File) <= 6 {
            return lent;
        }
    }
}

/// Formatted tables, over zeros or junk.
pub fn formatted(chance: &mut Chance) -> Tree {
    let dir_max = chance_size(chance);
    let file_max = chance.pick(&[1, 2, 3, 5, 9, 20]);
    let (dir_room, file_room) = (dir_max + chance.below(3), file_max + chance.below(3));
    let junk = chance.one_in(2);
    let mut filled = |len: usize| if junk { chance.bytes(len) } else { vec![0; len] };
    let (mut dir_table, mut file_table) = (filled(40 * dir_room), filled(48 * file_room));
    let mut dir_hash = vec![1; 4 * chance.pick(&[1, 2, 3, 5, 11])];
    let mut file_hash = vec![1; 4 * chance.pick(&[1, 2, 3, 5, 11])];
    let mut four = rules::tree::FourMut {
        dir_hash: &mut dir_hash,
        dir_table: &mut dir_table,
        file_hash: &mut file_hash,
        file_table: &mut file_table,
    };
    rules::tree::format(&mut four, dir_max, file_max).unwrap();
    Tree {
        dir_hash,
        dir_table,
        file_hash,
        file_table,
        work: chance.words(dir_room + file_room),
        dir_opens: any_places(chance, dir_room),
        file_opens: any_places(chance, file_room),
        list: vec![],
    }
}
