//! The tree of a volume, entry by entry and by path.

use super::Volume;
use crate::name;
use crate::refusal::Refusal;
use crate::tables::{Kind, Name, ROOT};

/// A directory or a file of a volume.
#[derive(Clone, Copy, Debug, PartialEq, Eq)]
#[non_exhaustive]
pub struct Entry {
    /// Which of the two it is.
    pub kind: Kind,
    /// Its inode, in the table of its kind.
    pub inode: u32,
    /// The inode of the directory that it is in; 0 for the root.
    pub parent: u32,
    /// Its name; zeros for the root.
    pub name: Name,
    /// How many directories it is below the root; 0 for the root.
    pub depth: usize,
}

const ROOT_ENTRY: Entry = Entry { kind: Kind::Dir, inode: ROOT, parent: 0, name: [0; 16], depth: 0 };

impl Volume {
    /// Everything below the root, each directory before what is in it, directories before files, in list order.
    ///
    /// ```
    /// use mukthiban::{name, Shape, Volume, ROOT};
    /// let mut volume = Volume::new(Shape { blocks: 8, block_len: 512, dir_max: 4, file_max: 4, buckets: 3 })?;
    /// let quest = volume.make_dir(ROOT, &name::from_text("quest")?, &[0; 4])?;
    /// volume.make_file(quest, &name::from_text("slot1.sav")?, &[0; 20])?;
    /// let names: Vec<String> = volume.walk().map(|entry| name::shown(&entry.name).to_string()).collect();
    /// assert_eq!(names, ["quest", "slot1.sav"]);
    /// # Ok::<(), Box<dyn std::error::Error>>(())
    /// ```
    pub fn walk(&self) -> Walk<'_> {
        Walk { volume: self, waiting: self.inside(&ROOT_ENTRY) }
    }

    /// What is directly in a directory: directories first, each kind in list order. `NotFound` if the inode is none's.
    pub fn entries(&self, dir: u32) -> Result<Vec<Entry>, Refusal> {
        self.children(dir, 1)
    }

    /// The entry at a path: names with a slash between them. It is a file, or else a directory; with a slash at its end
    /// a directory. No name at all is the root.
    ///
    /// ```
    /// use mukthiban::{name, Kind, Refusal, Shape, Volume, ROOT};
    /// let mut volume = Volume::new(Shape { blocks: 8, block_len: 512, dir_max: 4, file_max: 4, buckets: 3 })?;
    /// let quest = volume.make_dir(ROOT, &name::from_text("quest")?, &[0; 4])?;
    /// let slot = volume.make_file(quest, &name::from_text("slot1.sav")?, &[0; 20])?;
    /// assert_eq!(volume.find("quest/slot1.sav")?.inode, slot);
    /// assert_eq!(volume.find("/quest/")?.kind, Kind::Dir);
    /// assert_eq!(volume.find("quest/slot1.sav/"), Err(Refusal::NotFound));
    /// assert_eq!(volume.find("")?.inode, ROOT);
    /// # Ok::<(), Box<dyn std::error::Error>>(())
    /// ```
    pub fn find(&self, path: impl AsRef<[u8]>) -> Result<Entry, Refusal> {
        let path = path.as_ref();
        let mut at = ROOT_ENTRY;
        let mut names = path.split(|&byte| byte == b'/').filter(|name| !name.is_empty()).peekable();
        while let Some(bytes) = names.next() {
            // What is no name is no entry's.
            let name = name::from_bytes(bytes).map_err(|_| Refusal::NotFound)?;
            let last = names.peek().is_none() && !path.ends_with(b"/");
            at = self.child(&at, &name, last)?;
        }
        Ok(at)
    }

    /// The entry with that name in a directory: a file if that may be, or else a directory.
    fn child(&self, dir: &Entry, name: &Name, may_be_file: bool) -> Result<Entry, Refusal> {
        let of = |kind, inode| Entry { kind, inode, parent: dir.inode, name: *name, depth: dir.depth + 1 };
        match self.lookup_file(dir.inode, name) {
            Ok(found) if may_be_file => Ok(of(Kind::File, found.inode)),
            _ => Ok(of(Kind::Dir, self.lookup_dir(dir.inode, name)?.inode)),
        }
    }

    fn children(&self, dir: u32, depth: usize) -> Result<Vec<Entry>, Refusal> {
        let mut entries = vec![];
        for (kind, inodes) in [(Kind::Dir, self.list_dirs(dir)?), (Kind::File, self.list_files(dir)?)] {
            for inode in inodes {
                entries.push(Entry { kind, inode, parent: dir, name: *self.name(kind, inode)?, depth });
            }
        }
        Ok(entries)
    }

    /// What is in a live directory, last first.
    fn inside(&self, dir: &Entry) -> Vec<Entry> {
        let mut entries = self.children(dir.inode, dir.depth + 1).expect("a sound tree lists its live directories");
        entries.reverse();
        entries
    }
}

/// The walk of [`Volume::walk`].
#[derive(Clone, Debug)]
pub struct Walk<'v> {
    volume: &'v Volume,
    /// What is still to come, the next one last.
    waiting: Vec<Entry>,
}

impl Iterator for Walk<'_> {
    type Item = Entry;

    fn next(&mut self) -> Option<Entry> {
        let entry = self.waiting.pop()?;
        if entry.kind == Kind::Dir {
            self.waiting.extend(self.volume.inside(&entry));
        }
        Some(entry)
    }
}
