//! What a call on the entry tables may change, known before it is made, with the bytes that stand there.

use crate::parts::Parts;
use crate::tables::{Kind, Name, DIR_WIDTH, FILE_WIDTH};

/// One of the four entry tables.
#[derive(Clone, Copy, Debug, PartialEq, Eq, Hash)]
pub enum Part {
    /// The directories' buckets.
    DirHash,
    /// The directories' entries.
    DirTable,
    /// The files' buckets.
    FileHash,
    /// The files' entries.
    FileTable,
}

/// A stretch of one of the four tables.
#[derive(Clone, Copy, Debug, PartialEq, Eq)]
pub struct Change {
    /// The table.
    pub part: Part,
    /// Its first byte there.
    pub at: usize,
    /// How many bytes.
    pub len: usize,
}

impl Part {
    fn of(self, parts: &Parts) -> &Vec<u8> {
        match self {
            Part::DirHash => &parts.dir_hash,
            Part::DirTable => &parts.dir_table,
            Part::FileHash => &parts.file_hash,
            Part::FileTable => &parts.file_table,
        }
    }

    fn of_mut(self, parts: &mut Parts) -> &mut Vec<u8> {
        match self {
            Part::DirHash => &mut parts.dir_hash,
            Part::DirTable => &mut parts.dir_table,
            Part::FileHash => &mut parts.file_hash,
            Part::FileTable => &mut parts.file_table,
        }
    }
}

/// Buckets, entries and an entry's width, and the place in a directory's entry of the first child, of each kind.
fn of_kind(kind: Kind) -> (Part, Part, usize, usize) {
    match kind {
        Kind::Dir => (Part::DirHash, Part::DirTable, DIR_WIDTH, 24),
        Kind::File => (Part::FileHash, Part::FileTable, FILE_WIDTH, 28),
    }
}

/// The stretches that the last call may have changed, with their bytes before it.
#[derive(Clone, Default)]
pub struct Watch {
    changes: Vec<Change>,
    /// The bytes before, of one stretch after the other.
    before: Vec<u8>,
}

impl Watch {
    pub fn clear(&mut self) {
        self.changes.clear();
        self.before.clear();
    }

    pub fn changes(&self) -> &[Change] {
        &self.changes
    }

    /// Watches a stretch. One that is not in its table is not: the call is refused there.
    pub fn stretch(&mut self, parts: &Parts, part: Part, at: usize, len: usize) {
        let change = Change { part, at, len };
        if self.changes.contains(&change) {
            return;
        }
        if let Some(bytes) = at.checked_add(len).and_then(|end| part.of(parts).get(at..end)) {
            self.before.extend_from_slice(bytes);
            self.changes.push(change);
        }
    }

    /// Watches what a new entry of that key changes: entry 0, the entry that it takes, its bucket, and its parent's list.
    pub fn new_entry(&mut self, parts: &Parts, kind: Kind, parent: u32, name: &Name) {
        let (_, table, width, _) = of_kind(kind);
        let entries = table.of(parts);
        self.stretch(parts, table, 0, 4);
        self.stretch(parts, table, width - 4, 4);
        let taken = match word(entries, width - 4) {
            0 => word(entries, 0),
            removed => removed,
        };
        self.stretch(parts, table, taken as usize * width, width);
        self.fronts(parts, kind, parent, name);
    }

    /// Watches the fronts of the two lists that a key is put to: its bucket, and its parent's children.
    pub fn fronts(&mut self, parts: &Parts, kind: Kind, parent: u32, name: &Name) {
        let (buckets, _, _, child) = of_kind(kind);
        let at = bucket(buckets.of(parts), parent, name);
        self.stretch(parts, buckets, at, 4);
        self.stretch(parts, Part::DirTable, parent as usize * DIR_WIDTH + child, 4);
    }

    /// Watches what names an entry in its bucket and in its parent's list. False for one that is in no bucket, and so is
    /// not live.
    pub fn names_of(&mut self, parts: &Parts, kind: Kind, inode: u32) -> bool {
        let (buckets, table, width, child) = of_kind(kind);
        let entries = table.of(parts);
        let at = inode as usize * width;
        let Some(key) = entries.get(at..at + 20) else { return false };
        let (parent, name) = (word(key, 0), key[4..].try_into().expect("16 bytes"));
        let front = (buckets, bucket(buckets.of(parts), parent, name));
        let Some((part, place)) = naming(parts, front, table, width, width - 4, inode) else { return false };
        self.stretch(parts, part, place, 4);
        // The root is in no directory's list.
        let front = (Part::DirTable, parent as usize * DIR_WIDTH + child);
        if parent != 0 {
            if let Some((part, place)) = naming(parts, front, table, width, 20, inode) {
                self.stretch(parts, part, place, 4);
            }
        }
        true
    }

    /// Watches a delete: what names the entry, the entry, and the first removed one.
    pub fn gone(&mut self, parts: &Parts, kind: Kind, inode: u32) {
        if self.names_of(parts, kind, inode) {
            let (_, table, width, _) = of_kind(kind);
            self.stretch(parts, table, inode as usize * width, width);
            self.stretch(parts, table, width - 4, 4);
        }
    }

    /// Watches a rename: what names the entry, its key and its two links, and the fronts that it is put to.
    pub fn moved(&mut self, parts: &Parts, kind: Kind, inode: u32, parent: u32, name: &Name) {
        if self.names_of(parts, kind, inode) {
            let (_, table, width, _) = of_kind(kind);
            let at = inode as usize * width;
            self.stretch(parts, table, at, 24);
            self.stretch(parts, table, at + width - 4, 4);
            self.fronts(parts, kind, parent, name);
        }
    }

    /// Keeps of what is watched what is different now.
    pub fn keep_changed(&mut self, parts: &Parts) {
        let (mut from, mut to) = (0, 0);
        let before = &mut self.before;
        self.changes.retain(|&Change { part, at, len }| {
            let changed = part.of(parts)[at..at + len] != before[from..from + len];
            if changed {
                before.copy_within(from..from + len, to);
                to += len;
            }
            from += len;
            changed
        });
        before.truncate(to);
    }

    /// Puts the bytes back that stood there before.
    pub fn put_back(&mut self, parts: &mut Parts) {
        let mut from = 0;
        for &Change { part, at, len } in &self.changes {
            part.of_mut(parts)[at..at + len].copy_from_slice(&self.before[from..from + len]);
            from += len;
        }
        self.clear();
    }
}

/// The place that names an inode in a list of live entries, from the list's front on; each entry's link is at `link`. The
/// list ends, since the tables are sound.
fn naming(
    parts: &Parts,
    front: (Part, usize),
    table: Part,
    width: usize,
    link: usize,
    inode: u32,
) -> Option<(Part, usize)> {
    let (mut part, mut place) = front;
    loop {
        match word(part.of(parts), place) {
            0 => return None,
            named if named == inode => return Some((part, place)),
            named => (part, place) = (table, named as usize * width + link),
        }
    }
}

fn word(bytes: &[u8], at: usize) -> u32 {
    u32::from_le_bytes(bytes[at..at + 4].try_into().expect("4 bytes"))
}

/// Where a key's bucket stands among the buckets (RULES 5.3).
fn bucket(buckets: &[u8], parent: u32, name: &Name) -> usize {
    let mut hash = 0x1234_5678u32.rotate_right(1) ^ parent;
    for at in [0, 4, 8, 12] {
        hash = hash.rotate_right(1) ^ word(name, at);
    }
    hash as usize % (buckets.len() / 4) * 4
}
