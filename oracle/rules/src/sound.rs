//! "Entry tables": the four of them, and when they are sound.

use crate::entries::*;

pub(crate) const ROOT: u32 = 1;

/// The four tables, in the order in which every call takes them.
#[derive(Clone, Copy)]
pub struct Four<'a> {
    pub dir_hash: &'a [u8],
    pub dir_table: &'a [u8],
    pub file_hash: &'a [u8],
    pub file_table: &'a [u8],
}

/// The four tables, lent to be changed.
pub struct FourMut<'a> {
    pub dir_hash: &'a mut [u8],
    pub dir_table: &'a mut [u8],
    pub file_hash: &'a mut [u8],
    pub file_table: &'a mut [u8],
}

impl<'a> Four<'a> {
    pub fn view(&self, kind: Kind) -> View<'a> {
        let (hash, table) = match kind {
            Kind::Dir => (self.dir_hash, self.dir_table),
            Kind::File => (self.file_hash, self.file_table),
        };
        View { kind, hash, table }
    }
}

impl FourMut<'_> {
    pub fn four(&self) -> Four<'_> {
        Four {
            dir_hash: self.dir_hash,
            dir_table: self.dir_table,
            file_hash: self.file_hash,
            file_table: self.file_table,
        }
    }
    pub(crate) fn view_mut(&mut self, kind: Kind) -> ViewMut<'_> {
        let (hash, table) = match kind {
            Kind::Dir => (&mut *self.dir_hash, &mut *self.dir_table),
            Kind::File => (&mut *self.file_hash, &mut *self.file_table),
        };
        ViewMut { kind, hash, table }
    }
}

// Soundness.

/// What sound tables hold.
pub struct Tree {
    pub dirs: Held,
    pub files: Held,
    /// For each directory inode, its two lists of children.
    pub sub_dirs: Vec<Vec<u32>>,
    pub sub_files: Vec<Vec<u32>>,
}

impl Tree {
    pub fn held(&self, kind: Kind) -> &Held {
        match kind {
            Kind::Dir => &self.dirs,
            Kind::File => &self.files,
        }
    }
    pub fn children(&self, kind: Kind, dir: u32) -> &[u32] {
        match kind {
            Kind::Dir => &self.sub_dirs[dir as usize],
            Kind::File => &self.sub_files[dir as usize],
        }
    }
}

/// What the four tables hold, if they are sound; sizes have passed.
pub fn tree(four: Four) -> Option<Tree> {
    let (dirs, files) = (held(four.view(Kind::Dir))?, held(four.view(Kind::File))?);
    let sound = root_fits(four, &dirs)
        && parents_live(four, &dirs, &dirs, Kind::Dir)
        && parents_live(four, &dirs, &files, Kind::File)
        && all_reach_root(four, &dirs);
    if !sound {
        return None;
    }
    let sub_dirs = child_lists(four, &dirs, &dirs, Kind::Dir)?;
    let sub_files = child_lists(four, &dirs, &files, Kind::File)?;
    Some(Tree { dirs, files, sub_dirs, sub_files })
}

/// "Root is live with a zero key and next 0."
fn root_fits(four: Four, dirs: &Held) -> bool {
    let view = four.view(Kind::Dir);
    dirs.is_live(ROOT) && view.key(ROOT) == [0; 20] && view.next(ROOT) == 0
}

pub(crate) fn is_root(kind: Kind, inode: u32) -> bool {
    kind == Kind::Dir && inode == ROOT
}

/// "Every other live entry has a live parent directory."
fn parents_live(four: Four, dirs: &Held, these: &Held, kind: Kind) -> bool {
    let view = four.view(kind);
    these.inodes().all(|x| is_root(kind, x) || dirs.is_live(view.parent(x)))
}

/// "Every directory reaches inode 1 by parents." Parents are known to be live.
fn all_reach_root(four: Four, dirs: &Held) -> bool {
    let view = four.view(Kind::Dir);
    let mut reaches = vec![false; dirs.live.len()];
    reaches[ROOT as usize] = true;
    for x in dirs.inodes() {
        let mut way = vec![];
        let mut y = x;
        while !reaches[y as usize] {
            if way.len() > dirs.live.len() {
                return false;
            }
            way.push(y);
            y = view.parent(y);
        }
        for z in way {
            reaches[z as usize] = true;
        }
    }
    true
}

/// "Each directory's two lists end and hold exactly the live directories and files that name it as parent, once each": the lists of one kind.
fn child_lists(four: Four, dirs: &Held, these: &Held, kind: Kind) -> Option<Vec<Vec<u32>>> {
    let (parents, view) = (four.view(Kind::Dir), four.view(kind));
    let mut met = vec![false; these.live.len()];
    let mut lists = vec![vec![]; dirs.live.len()];
    for dir in dirs.inodes() {
        let belongs = |x: u32| these.is_live(x) && view.parent(x) == dir;
        let first = parents.first_child(dir, kind);
        lists[dir as usize] = threaded(first, &mut met, belongs, |x| view.next(x))?;
    }
    let all = these.inodes().all(|x| is_root(kind, x) || met[x as usize]);
    all.then_some(lists)
}
