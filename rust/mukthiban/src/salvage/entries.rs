//! The entries of tables of any bytes: the live ones by count and removed list alone, and the way up by parents.

use super::evidence::{Evidence, Half};
use super::table::word;
use crate::tables::{Name, Tables, DIR_WIDTH, FILE_WIDTH, ROOT};
use std::collections::HashSet;

/// How far a way up by parents leads.
#[derive(Clone, Debug, PartialEq, Eq)]
pub enum Way {
    /// To the root: the directories' inodes from the top down, the root left out.
    Root(Vec<u32>),
    /// Not to the root: the directories that were passed, the lowest last, no more than 64; above them is no live directory,
    /// or a ring.
    Lost(Vec<u32>),
}

/// An entry of the file table that is live, or looks so.
#[derive(Clone, Copy, Debug, PartialEq, Eq)]
pub struct Found {
    /// Its inode.
    pub inode: u32,
    /// The inode that it names for its directory.
    pub parent: u32,
    /// Its name.
    pub name: Name,
    /// Its carried bytes.
    pub carried: [u8; 20],
    /// It is below the count.
    pub sure: bool,
    /// Its entry shows damage: by its bucket, its directory's list or its name.
    pub damaged: bool,
}

/// The live entries of a volume's two tables.
pub struct Entries {
    /// The files, by inode.
    pub files: Vec<Found>,
    /// For each directory's inode its parent and its name, where it is live.
    dirs: Vec<Option<(u32, Name)>>,
    /// The directories whose entries show damage.
    damaged: Vec<bool>,
    /// The directories whose way up leads to the root.
    rooted: Vec<bool>,
}

/// The most directories that are kept of a way that does not lead to the root.
const LOWEST: usize = 64;

/// Which directories lead up to the root, each looked at once. Of those that the proved call lists these are exactly the
/// ones whose way, by the call [`way`](super::way), leads there: theorems `way_below` and `way_above`.
fn rooted(dirs: &[Option<(u32, Name)>]) -> Vec<bool> {
    let mut leads: Vec<Option<bool>> = vec![None; dirs.len()];
    if let Some(root) = leads.get_mut(ROOT as usize) {
        *root = Some(true);
    }
    for start in 0..dirs.len() {
        let (mut way, mut at) = (Vec::new(), start);
        while let (Some(Some((parent, _))), Some(None)) = (dirs.get(at), leads.get(at)) {
            leads[at] = Some(false); // where the way comes back here it is a ring
            way.push(at);
            at = *parent as usize;
        }
        let to_root = leads.get(at).copied().flatten() == Some(true);
        way.into_iter().for_each(|dir| leads[dir] = Some(to_root));
    }
    leads.into_iter().map(|leads| leads == Some(true)).collect()
}

impl Entries {
    /// Reads both tables. Which entries are live, and where they lead, is read from these alone; buckets, lists of children
    /// and links only say which entries show damage.
    pub fn read(tables: Tables<'_>) -> Entries {
        let key = |e: &[u8]| (word(e, 0), e[4..20].try_into().expect("16 bytes"));
        let half = Half::new(tables.dir_table, DIR_WIDTH, tables.dir_hash);
        let below = Half::new(tables.file_table, FILE_WIDTH, tables.file_hash);
        let evidence = Evidence::of(&half, &below);
        // directories above the count are taken too: what is below them may be right
        let dirs: Vec<_> = (0..half.table.room()).map(|i| half.live[i].then(|| key(half.table.entry(i)))).collect();
        let table = &below.table;
        let found = |inode: usize| {
            let (parent, name) = key(table.entry(inode));
            let carried = table.entry(inode)[24..44].try_into().expect("20 bytes");
            let (sure, damaged) = (inode < table.count(), evidence.files[inode]);
            Found { inode: inode as u32, parent, name, carried, sure, damaged }
        };
        let files = (1..table.room()).filter(|&i| below.live[i]).map(found).collect();
        let rooted = rooted(&dirs);
        Entries { files, dirs, damaged: evidence.dirs, rooted }
    }

    /// The way up from a directory's inode, by the parents of all that look live, those above the count too.
    pub fn way(&self, dir: u32) -> Way {
        let (mut way, mut at) = (Vec::new(), dir);
        if dir == ROOT || self.rooted.get(dir as usize) == Some(&true) {
            while at != ROOT {
                way.push(at);
                at = self.dirs[at as usize].expect("a directory on the way").0;
            }
            way.reverse();
            return Way::Root(way);
        }
        let mut met = HashSet::new();
        while let Some((parent, _)) = self.dirs.get(at as usize).copied().flatten() {
            if way.len() == LOWEST || !met.insert(at) {
                break;
            }
            way.push(at);
            at = parent;
        }
        way.reverse();
        Way::Lost(way)
    }

    /// Whether a directory's entry shows damage: by its bucket, its parent's list, its name or its links.
    pub fn dir_damaged(&self, inode: u32) -> bool {
        inode != ROOT && self.damaged.get(inode as usize).copied().unwrap_or(false)
    }

    /// A directory's name.
    pub fn dir_name(&self, inode: u32) -> Name {
        self.dirs.get(inode as usize).copied().flatten().map_or([0; 16], |(_, name)| name)
    }

    /// The live directories but the root.
    pub fn dir_inodes(&self) -> impl Iterator<Item = u32> + '_ {
        (2..self.dirs.len() as u32).filter(|&i| self.dirs[i as usize].is_some())
    }
}
