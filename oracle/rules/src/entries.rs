//! "Entry tables": the two kinds of entry, keys, the hash, and what one table holds.

use crate::{put_word, word};
use std::collections::HashSet;

pub const MOST_BUCKETS: usize = 65_536;
pub const MOST_ROOM: usize = 65_536;

pub type Name = [u8; 16];
/// "Key: parent inode, 16 name bytes."
pub type Key = [u8; 20];

#[derive(Clone, Copy, PartialEq, Eq, Debug)]
pub enum Kind {
    Dir,
    File,
}

// Places within an entry, the same for both kinds.
const KEY: usize = 0;
pub const NAME: usize = 4;
const NEXT: usize = 20;
// Places within a directory entry.
const SUB_DIR: usize = 24;
const SUB_FILE: usize = 28;
const PADDING: usize = 32;
// Place within a file entry.
const CARRIED: usize = 24;
// Places within entry 0.
const COUNT: usize = 0;
const MAXIMUM: usize = 4;

impl Kind {
    /// "Directory entry, 40 bytes: key 20, next, sub_dir, sub_file, padding, collision. File entry, 48 bytes: key 20, next, 20 carried bytes, collision."
    pub fn width(self) -> usize {
        match self {
            Kind::Dir => 40,
            Kind::File => 48,
        }
    }

    fn collision(self) -> usize {
        self.width() - 4
    }

    /// Where the carried bytes stand, and how many there are.
    pub fn carried(self) -> (usize, usize) {
        match self {
            Kind::Dir => (PADDING, 4),
            Kind::File => (CARRIED, 20),
        }
    }

    /// Where a directory entry names its first child of this kind.
    fn child_list(self) -> usize {
        match self {
            Kind::Dir => SUB_DIR,
            Kind::File => SUB_FILE,
        }
    }

    /// "At format a maximum below 2 (directories) or 1 (files)"; a sound count is at least this too.
    pub fn least(self) -> usize {
        match self {
            Kind::Dir => 2,
            Kind::File => 1,
        }
    }
}

pub fn key(parent: u32, name: &Name) -> Key {
    let mut key = [0; 20];
    put_word(&mut key, 0, parent);
    key[4..].copy_from_slice(name);
    key
}

/// "Start 0x12345678; for each key word, rotate right by 1, then xor the word."
pub fn hash(key: &Key) -> u32 {
    let step = |h: u32, w: usize| h.rotate_right(1) ^ word(key, w * 4);
    (0..5).fold(0x1234_5678, step)
}

/// Hash bytes and table bytes of one kind, seen through the fields of RULES 5.1.
#[derive(Clone, Copy)]
pub struct View<'a> {
    pub kind: Kind,
    pub hash: &'a [u8],
    pub table: &'a [u8],
}

impl View<'_> {
    fn field(&self, inode: u32, place: usize) -> u32 {
        word(self.table, inode as usize * self.kind.width() + place)
    }
    pub fn buckets(&self) -> usize {
        self.hash.len() / 4
    }
    pub fn room(&self) -> usize {
        self.table.len() / self.kind.width()
    }
    pub fn count(&self) -> u32 {
        self.field(0, COUNT)
    }
    pub fn maximum(&self) -> u32 {
        self.field(0, MAXIMUM)
    }
    /// The entry that make uses: the first removed one, else the one after those in use. None where neither is to be had.
    pub fn unused(&self) -> Option<u32> {
        match self.collision(0) {
            0 => (self.count() < self.maximum()).then(|| self.count()),
            removed => Some(removed),
        }
    }
    pub fn first_in_bucket(&self, bucket: usize) -> u32 {
        word(self.hash, bucket * 4)
    }
    /// For entry 0, the first removed entry.
    pub fn collision(&self, inode: u32) -> u32 {
        self.field(inode, self.kind.collision())
    }
    pub fn next(&self, inode: u32) -> u32 {
        self.field(inode, NEXT)
    }
    pub fn parent(&self, inode: u32) -> u32 {
        self.field(inode, KEY)
    }
    /// A directory's first child of that kind.
    pub fn first_child(&self, inode: u32, child: Kind) -> u32 {
        self.field(inode, child.child_list())
    }
    pub fn key(&self, inode: u32) -> Key {
        let at = inode as usize * self.kind.width() + KEY;
        self.table[at..at + 20].try_into().unwrap()
    }
    pub fn bucket_of(&self, key: &Key) -> usize {
        hash(key) as usize % self.buckets()
    }
    pub fn carried(&self, inode: u32) -> &[u8] {
        let (place, len) = self.kind.carried();
        let at = inode as usize * self.kind.width() + place;
        &self.table[at..at + len]
    }
}

/// The same bytes, lent to be changed.
pub struct ViewMut<'a> {
    pub kind: Kind,
    pub hash: &'a mut [u8],
    pub table: &'a mut [u8],
}

impl ViewMut<'_> {
    pub fn view(&self) -> View<'_> {
        View { kind: self.kind, hash: self.hash, table: self.table }
    }
    fn set_field(&mut self, inode: u32, place: usize, value: u32) {
        put_word(self.table, inode as usize * self.kind.width() + place, value);
    }
    fn set_first_in_bucket(&mut self, bucket: usize, inode: u32) {
        put_word(self.hash, bucket * 4, inode);
    }
    fn set_collision(&mut self, inode: u32, value: u32) {
        self.set_field(inode, self.kind.collision(), value);
    }
    pub fn set_next(&mut self, inode: u32, value: u32) {
        self.set_field(inode, NEXT, value);
    }
    pub fn set_first_child(&mut self, inode: u32, child: Kind, value: u32) {
        self.set_field(inode, child.child_list(), value);
    }
    pub fn set_key(&mut self, inode: u32, key: &Key) {
        let at = inode as usize * self.kind.width() + KEY;
        self.table[at..at + 20].copy_from_slice(key);
    }
    pub fn set_carried(&mut self, inode: u32, bytes: &[u8]) {
        let (place, len) = self.kind.carried();
        let at = inode as usize * self.kind.width() + place;
        self.table[at..at + len].copy_from_slice(&bytes[..len]);
    }

    /// Format: "entry 0: count at byte 0, maximum at byte 4, zeros"; the hash is all 0.
    pub fn clear(&mut self, count: u32, maximum: u32) {
        self.hash.fill(0);
        let width = self.kind.width();
        self.table[..width].fill(0);
        self.set_field(0, COUNT, count);
        self.set_field(0, MAXIMUM, maximum);
    }

    /// "Make uses the first removed entry if there is one, else the count, which grows by 1." None where neither is to be had.
    pub fn take(&mut self) -> Option<u32> {
        let inode = self.view().unused()?;
        if self.view().collision(0) != 0 {
            let rest = self.view().collision(inode);
            self.set_collision(0, rest);
        } else {
            self.set_field(0, COUNT, inode + 1);
        }
        Some(inode)
    }

    /// "Copies entry 0's whole width over the entry, then names it first removed."
    pub fn give(&mut self, inode: u32) {
        let width = self.kind.width();
        self.table.copy_within(0..width, inode as usize * width);
        self.set_collision(0, inode);
    }

    /// "New entries go to the front of their bucket."
    pub fn into_bucket(&mut self, inode: u32) {
        let bucket = self.view().bucket_of(&self.view().key(inode));
        let first = self.view().first_in_bucket(bucket);
        self.set_collision(inode, first);
        self.set_first_in_bucket(bucket, inode);
    }

    /// Takes an entry out of its bucket's list, which is given.
    pub fn out_of_bucket(&mut self, inode: u32, list: &[u32]) {
        let bucket = self.view().bucket_of(&self.view().key(inode));
        let behind = self.view().collision(inode);
        match before(inode, list) {
            None => self.set_first_in_bucket(bucket, behind),
            Some(other) => self.set_collision(other, behind),
        }
    }
}

/// The inode that stands before this one in a list; none where it is the first.
pub fn before(inode: u32, list: &[u32]) -> Option<u32> {
    let at = list.iter().position(|y| *y == inode).unwrap();
    at.checked_sub(1).map(|p| list[p])
}

/// What one sound table holds.
pub struct Held {
    pub removed: Vec<u32>,
    /// For each inode below count, whether it is live.
    pub live: Vec<bool>,
    pub buckets: Vec<Vec<u32>>,
}

impl Held {
    pub fn is_live(&self, inode: u32) -> bool {
        self.live.get(inode as usize).copied().unwrap_or(false)
    }
    pub fn inodes(&self) -> impl Iterator<Item = u32> + '_ {
        (1..self.live.len() as u32).filter(|x| self.live[*x as usize])
    }
}

/// The list that starts at `first` and goes on by `next` up to 0, if every inode in it passes and is met for the first time.
pub fn threaded(
    first: u32,
    met: &mut [bool],
    passes: impl Fn(u32) -> bool,
    next: impl Fn(u32) -> u32,
) -> Option<Vec<u32>> {
    let mut list = vec![];
    let mut x = first;
    while x != 0 {
        if !passes(x) || met[x as usize] {
            return None;
        }
        met[x as usize] = true;
        list.push(x);
        x = next(x);
    }
    Some(list)
}

/// What the table holds, if it keeps the sentences of "Sound" that concern one table alone.
pub fn held(view: View) -> Option<Held> {
    let (count, maximum) = (view.count() as usize, view.maximum() as usize);
    let bounded = maximum <= view.room() && view.kind.least() <= count && count <= maximum;
    if !bounded {
        return None;
    }
    // Removed inodes distinct and below count; the other inodes from 1 below count are live.
    let mut gone = vec![false; count];
    let below = |x: u32| (x as usize) < count;
    let removed = threaded(view.collision(0), &mut gone, below, |x| view.collision(x))?;
    let mut live: Vec<bool> = gone.iter().map(|x| !x).collect();
    live[0] = false;
    let mut held = Held { removed, live, buckets: vec![] };
    held.buckets = buckets(view, &held)?;
    // Live keys distinct.
    let keys: HashSet<Key> = held.inodes().map(|x| view.key(x)).collect();
    (keys.len() == held.inodes().count()).then_some(held)
}

/// "Each bucket holds exactly the live entries with that hash, once."
fn buckets(view: View, held: &Held) -> Option<Vec<Vec<u32>>> {
    let mut met = vec![false; held.live.len()];
    let mut lists = vec![];
    for bucket in 0..view.buckets() {
        let belongs = |x: u32| held.is_live(x) && view.bucket_of(&view.key(x)) == bucket;
        let first = view.first_in_bucket(bucket);
        lists.push(threaded(first, &mut met, belongs, |x| view.collision(x))?);
    }
    let all = held.inodes().all(|x| met[x as usize]);
    all.then_some(lists)
}
