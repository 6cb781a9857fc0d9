//! Which entries are not as they were written, by the lists that they stand in.
//!
//! A key stands nowhere twice; but a bucket's list, and a directory's list of children, has each entry by its key, and an
//! entry's links lead to others with the same bucket or the same parent. So damage to an entry shows, unless it leaves
//! every list right. Nothing here says which entries are live: that is read from count and removed list alone.

use super::table::{word, Table};
use crate::tables::{DIR_WIDTH, FILE_WIDTH, ROOT};

/// Where the words of an entry stand: parent, next, and a directory's first child of each kind.
const PARENT: usize = 0;
const NEXT: usize = 20;
const SUB_DIR: usize = 24;
const SUB_FILE: usize = 28;

/// One entry table with its hash, and what is live in it.
pub(super) struct Half<'a> {
    pub table: Table<'a>,
    pub hash: &'a [u8],
    pub live: Vec<bool>,
}

/// For each entry whether some list has it, and whether a list has it that it belongs to.
struct Met {
    met: Vec<bool>,
    own: Vec<bool>,
}

impl Met {
    fn misplaced(&self, inode: usize) -> bool {
        self.met[inode] && !self.own[inode]
    }
}

/// The hash of a key (RULES 5.3).
fn hash(key: &[u8]) -> u32 {
    key.chunks_exact(4).fold(0x1234_5678, |h: u32, w| h.rotate_right(1) ^ word(w, 0))
}

impl<'a> Half<'a> {
    pub fn new(bytes: &'a [u8], width: usize, hash: &'a [u8]) -> Half<'a> {
        let table = Table { bytes, width };
        let live = table.live();
        Half { table, hash, live }
    }

    fn is_live(&self, inode: usize) -> bool {
        self.live.get(inode).copied().unwrap_or(false)
    }

    /// An entry of the maximum that the table is too short for.
    fn is_cut_off(&self, inode: usize) -> bool {
        inode >= self.table.room() && inode < word(self.table.bytes, 4) as usize
    }

    fn parent(&self, inode: usize) -> usize {
        self.table.word(inode, PARENT)
    }

    /// The bucket of an entry's key. The root's key is known, whatever stands in its entry.
    fn bucket(&self, inode: usize) -> usize {
        let root = self.table.width == DIR_WIDTH && inode == ROOT as usize;
        let key = if root { &[0; 20] } else { &self.table.entry(inode)[..20] };
        hash(key) as usize % (self.hash.len() / 4).max(1)
    }

    /// Follows lists through the live entries, each given by whose it is and its first entry. No entry is passed more than
    /// twice, whatever the links are.
    fn follow(
        &self,
        lists: impl Iterator<Item = (usize, usize)>,
        link: usize,
        belongs: impl Fn(usize, usize) -> bool,
    ) -> Met {
        let room = self.table.room();
        let (mut met, mut own) = (vec![false; room], vec![false; room]);
        for (whose, first) in lists {
            let mut at = first;
            while at != 0 && self.is_live(at) {
                let right = belongs(at, whose);
                if met[at] && (own[at] || !right) {
                    break;
                }
                met[at] = true;
                own[at] |= right;
                at = self.table.word(at, link);
            }
        }
        Met { met, own }
    }

    /// The entries that a bucket has which their key does not belong to, and their own has not: then the key is not the one
    /// that was entered, or a word of the hash is wrong. None, where the hash is what is damaged: where the root is not in
    /// its bucket, or more than two and more than half of those met are so.
    fn misplaced(&self) -> Option<Met> {
        let buckets = (0..self.hash.len() / 4).map(|b| (b, word(self.hash, 4 * b) as usize));
        let met = self.follow(buckets, self.table.width - 4, |inode, bucket| self.bucket(inode) == bucket);
        let seen = met.met.iter().filter(|&&m| m).count();
        let misplaced = (0..met.met.len()).filter(|&i| met.misplaced(i)).count();
        let rooted = self.table.width == FILE_WIDTH || met.own.get(ROOT as usize) == Some(&true);
        (rooted && (misplaced <= 2 || 2 * misplaced <= seen)).then_some(met)
    }

    /// Whether a name is one that make and rename refuse: it begins with a zero, or has a byte behind one (RULES 5.3).
    fn odd(&self, inode: usize) -> bool {
        let name = &self.table.entry(inode)[4..20];
        let end = name.iter().position(|&b| b == 0).unwrap_or(16);
        end == 0 || name[end..].iter().any(|&b| b != 0)
    }

    /// The entries with odd names, where these are few: no more than two, or than half.
    fn oddly_named(&self, from: usize) -> Vec<bool> {
        let room = self.table.room();
        let odd: Vec<bool> = (0..room).map(|i| i >= from && self.live[i] && self.odd(i)).collect();
        let (many, live) = (odd.iter().filter(|&&o| o).count(), self.live.iter().filter(|&&l| l).count());
        if many <= 2 || 2 * many <= live {
            odd
        } else {
            vec![false; room]
        }
    }
}

/// Whether an entry's key is not the one that it was entered under, by its bucket, its parent's list or its name; and whether
/// the buckets can be trusted. The directories' first children of the kind stand at `head`; entries below `from` have no key.
fn keys(half: &Half<'_>, dirs: &Half<'_>, head: usize, from: usize) -> (Vec<bool>, bool) {
    let buckets = half.misplaced();
    let owners = (1..dirs.table.room()).filter(|&p| dirs.live[p]).map(|p| (p, dirs.table.word(p, head)));
    let children = half.follow(owners, NEXT, |inode, parent| half.parent(inode) == parent);
    let mut shown = half.oddly_named(from);
    for (inode, shown) in shown.iter_mut().enumerate().skip(from) {
        *shown |= children.misplaced(inode) || buckets.as_ref().is_some_and(|b| b.misplaced(inode));
    }
    (shown, buckets.is_some())
}

/// For each directory whether a live entry with a key that shows nothing names it as parent.
fn with_children(half: &Half<'_>, keys: &[bool], dirs: usize, from: usize) -> Vec<bool> {
    let mut has = vec![false; dirs];
    for inode in (from..half.table.room()).filter(|&i| half.live[i] && !keys[i]) {
        if let Some(has) = has.get_mut(half.parent(inode)) {
            *has = true;
        }
    }
    has
}

/// For each entry of both tables whether it shows damage.
pub(super) struct Evidence {
    pub dirs: Vec<bool>,
    pub files: Vec<bool>,
}

impl Evidence {
    /// Looks at both tables. An entry shows damage where its key does. So does a directory's where one of its own links leads
    /// to an entry that it can't lead to, or to none where there must be one: what is damaged there may be damaged in the key.
    pub fn of(dirs: &Half<'_>, files: &Half<'_>) -> Evidence {
        let (dir_keys, buckets) = keys(dirs, dirs, SUB_DIR, 2);
        let (file_keys, _) = keys(files, dirs, SUB_FILE, 1);
        let room = dirs.table.room();
        let parents = with_children(dirs, &dir_keys, room, 2);
        let holders = with_children(files, &file_keys, room, 1);
        // a link may lead to an entry whose own key is what is wrong, and to one that the table was cut off before
        let leads = |half: &Half<'_>, keys: &[bool], to: usize, right: &dyn Fn(usize) -> bool| {
            to == 0 || half.is_cut_off(to) || (half.is_live(to) && (keys[to] || right(to)))
        };
        let astray = |inode: usize| {
            let at = |field: usize| dirs.table.word(inode, field);
            let (dir, file) = (at(SUB_DIR), at(SUB_FILE));
            (dir == 0 && parents[inode])
                || (file == 0 && holders[inode])
                || !leads(dirs, &dir_keys, dir, &|to| dirs.parent(to) == inode)
                || !leads(files, &file_keys, file, &|to| files.parent(to) == inode)
                || !leads(dirs, &dir_keys, at(NEXT), &|to| dirs.parent(to) == dirs.parent(inode))
                || (buckets
                    && !leads(dirs, &dir_keys, dirs.table.collision(inode), &|to| {
                        dirs.bucket(to) == dirs.bucket(inode)
                    }))
        };
        Evidence {
            dirs: (0..room).map(|i| i > 1 && dirs.live[i] && (dir_keys[i] || astray(i))).collect(),
            files: (0..files.table.room()).map(|i| files.live[i] && file_keys[i]).collect(),
        }
    }
}
