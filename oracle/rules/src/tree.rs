//! "Entry tables": the calls, and the open records.

use crate::answer::Answer::{self, *};
use crate::answer::{refuse, Outcome};
use crate::entries::*;
use crate::opens::{self, Packed, Want};
use crate::sound::{is_root, ROOT};

pub use crate::sound::{tree, Four, FourMut, Tree};

// The rows that all tree calls share.

/// Rows 1 and 2 for the four tables.
pub(crate) fn sizes(four: Four) -> Outcome<()> {
    let each = [four.view(Kind::Dir), four.view(Kind::File)];
    for view in each {
        refuse(view.hash.is_empty() || view.hash.len() % 4 != 0, SizeMismatch)?;
        refuse(view.room() < 1, SizeMismatch)?;
    }
    for view in each {
        refuse(view.buckets() > MOST_BUCKETS || view.room() > MOST_ROOM, InvalidValue)?;
    }
    Ok(())
}

/// Sizes and the list of open records, work list, soundness. Once the first two have passed, the named work places are 0.
pub(crate) fn gate(four: Four, work: &mut [u32], opens: Option<&Packed>) -> Outcome<Tree> {
    sizes(four)?;
    refuse(opens.is_some_and(|opens| !opens.in_order()), InvalidValue)?;
    let rooms = four.view(Kind::Dir).room() + four.view(Kind::File).room();
    refuse(work.len() < rooms, WorkTooShort)?;
    work[..rooms].fill(0);
    tree(four).ok_or(BrokenTree)
}

fn live(tree: &Tree, kind: Kind, inode: u32) -> Outcome<()> {
    refuse(!tree.held(kind).is_live(inode), NotFound)
}

/// The live entry with that key.
fn with_key(four: Four, tree: &Tree, kind: Kind, key: &Key) -> Option<u32> {
    let view = four.view(kind);
    let bucket = &tree.held(kind).buckets[view.bucket_of(key)];
    bucket.iter().copied().find(|x| view.key(*x) == *key)
}

/// "A new name is legal when its first byte is not zero and no nonzero byte follows a zero one."
pub fn legal(name: &Name) -> bool {
    name[0] != 0 && name.windows(2).all(|pair| pair[0] != 0 || pair[1] == 0)
}

// The two halves of make, delete and rename.

/// Puts an entry under its key: "to the front of their bucket and of their parent's list".
fn link(four: &mut FourMut, kind: Kind, inode: u32, parent: u32, name: &Name) {
    let mut view = four.view_mut(kind);
    view.set_key(inode, &key(parent, name));
    view.into_bucket(inode);
    let first = four.four().view(Kind::Dir).first_child(parent, kind);
    four.view_mut(kind).set_next(inode, first);
    four.view_mut(Kind::Dir).set_first_child(parent, kind, inode);
}

/// "Unlinks from both lists."
fn unlink(four: &mut FourMut, tree: &Tree, kind: Kind, inode: u32) {
    let view = four.four().view(kind);
    let (parent, behind) = (view.parent(inode), view.next(inode));
    let bucket = &tree.held(kind).buckets[view.bucket_of(&view.key(inode))];
    four.view_mut(kind).out_of_bucket(inode, bucket);
    match before(inode, tree.children(kind, parent)) {
        None => four.view_mut(Kind::Dir).set_first_child(parent, kind, behind),
        Some(other) => four.view_mut(kind).set_next(other, behind),
    }
}

/// The step of rename alone, with nothing refused.
pub fn moved(four: &mut FourMut, tree: &Tree, kind: Kind, inode: u32, parent: u32, name: &Name) {
    unlink(four, tree, kind, inode);
    link(four, kind, inode, parent, name);
}

// The calls.

/// Writes both hash tables wholly, entry 0 of both tables, and the root.
pub fn format(four: &mut FourMut, dir_max: usize, file_max: usize) -> Outcome<()> {
    let maxima = [(Kind::Dir, dir_max), (Kind::File, file_max)];
    for (kind, maximum) in maxima {
        let view = four.four().view(kind);
        refuse(view.hash.is_empty() || view.hash.len() % 4 != 0, SizeMismatch)?;
        let short = (view.table.len() as u128) < maximum as u128 * kind.width() as u128;
        refuse(view.room() < 1 || short, SizeMismatch)?;
    }
    sizes(four.four())?;
    for (kind, maximum) in maxima {
        refuse(maximum < kind.least() || maximum > MOST_ROOM, InvalidValue)?;
    }
    four.view_mut(Kind::File).clear(1, file_max as u32);
    let mut dirs = four.view_mut(Kind::Dir);
    dirs.clear(2, dir_max as u32);
    dirs.table[Kind::Dir.width()..2 * Kind::Dir.width()].fill(0);
    dirs.into_bucket(ROOT);
    Ok(())
}

pub fn test(four: Four, work: &mut [u32]) -> Outcome<()> {
    gate(four, work, None).map(|_| ())
}

/// Lookup's fields; `compared` is kept with NotFound.
#[derive(Clone, Copy, PartialEq, Eq, Debug)]
pub struct Found {
    pub answer: Answer,
    pub inode: u32,
    pub compared: u32,
}

/// "The inode and the number of entries compared, which is the place of the match in its bucket from 1, or the bucket's length with NotFound."
pub fn lookup(four: Four, work: &mut [u32], kind: Kind, parent: u32, name: &Name) -> Found {
    let tree = match gate(four, work, None) {
        Ok(tree) => tree,
        Err(answer) => return Found { answer, inode: 0, compared: 0 },
    };
    let view = four.view(kind);
    let key = key(parent, name);
    let bucket = &tree.held(kind).buckets[view.bucket_of(&key)];
    match bucket.iter().position(|x| view.key(*x) == key) {
        Some(at) => Found { answer: Done, inode: bucket[at], compared: at as u32 + 1 },
        None => Found { answer: NotFound, inode: 0, compared: bucket.len() as u32 },
    }
}

/// Make answers the new inode; of the carried bytes the first 4 count for a directory, all 20 for a file.
pub fn make(
    four: &mut FourMut,
    work: &mut [u32],
    opens: &mut Packed,
    kind: Kind,
    parent: u32,
    name: &Name,
    carried: &[u8],
) -> Outcome<u32> {
    let tree = gate(four.four(), work, Some(opens))?;
    refuse(!legal(name), InvalidValue)?;
    live(&tree, Kind::Dir, parent)?;
    let other = with_key(four.four(), &tree, kind, &key(parent, name));
    refuse(other.is_some(), AlreadyExist)?;
    let inode = four.four().view(kind).unused().ok_or(NoSpace)?;
    refuse(opens.full_for(inode), TooManyOpens)?;
    four.view_mut(kind).take();
    four.view_mut(kind).set_carried(inode, carried);
    if kind == Kind::Dir {
        four.view_mut(Kind::Dir).set_first_child(inode, Kind::Dir, 0);
        four.view_mut(Kind::Dir).set_first_child(inode, Kind::File, 0);
    }
    link(four, kind, inode, parent, name);
    opens.put(inode, opens::WRITER);
    Ok(inode)
}

/// Whether `dir` is `other` or lies below it.
fn at_or_below(four: Four, dir: u32, other: u32) -> bool {
    let view = four.view(Kind::Dir);
    let mut y = dir;
    while y != other && y != ROOT {
        y = view.parent(y);
    }
    y == other
}

/// "Rename removes and adds again, keeping the inode, carried bytes, children and opens." It needs the writer's open. The entry given up is the one taken: there is always room, and entry 0 ends as it was.
pub fn rename(
    four: &mut FourMut,
    work: &mut [u32],
    opens: &Packed,
    kind: Kind,
    inode: u32,
    parent: u32,
    name: &Name,
) -> Outcome<()> {
    let tree = gate(four.four(), work, Some(opens))?;
    live(&tree, kind, inode)?;
    refuse(!opens::held(opens.record(inode)), NotOpen)?;
    refuse(is_root(kind, inode), DeletingRoot)?;
    refuse(!legal(name), InvalidValue)?;
    live(&tree, Kind::Dir, parent)?;
    refuse(kind == Kind::Dir && at_or_below(four.four(), parent, inode), IntoItself)?;
    let other = with_key(four.four(), &tree, kind, &key(parent, name));
    refuse(other.is_some_and(|x| x != inode), AlreadyExist)?;
    moved(four, &tree, kind, inode, parent, name);
    Ok(())
}

/// Delete needs the writer's open, and is Busy while readers remain.
pub fn delete(
    four: &mut FourMut,
    work: &mut [u32],
    opens: &mut Packed,
    kind: Kind,
    inode: u32,
) -> Outcome<()> {
    let tree = gate(four.four(), work, Some(opens))?;
    live(&tree, kind, inode)?;
    refuse(!opens::held(opens.record(inode)), NotOpen)?;
    refuse(opens::readers(opens.record(inode)) > 0, Busy)?;
    refuse(is_root(kind, inode), DeletingRoot)?;
    if kind == Kind::Dir {
        let empty = tree.children(Kind::Dir, inode).is_empty()
            && tree.children(Kind::File, inode).is_empty();
        refuse(!empty, NotEmpty)?;
    }
    unlink(four, &tree, kind, inode);
    four.view_mut(kind).give(inode);
    opens.put(inode, 0);
    Ok(())
}

/// A directory's children of one kind, in list order, and their count.
pub fn list(
    four: Four,
    work: &mut [u32],
    kind: Kind,
    inode: u32,
    list: &mut [u32],
) -> Outcome<usize> {
    let tree = gate(four, work, None)?;
    live(&tree, Kind::Dir, inode)?;
    let answer = tree.children(kind, inode);
    refuse(list.len() < answer.len(), ListTooShort)?;
    list[..answer.len()].copy_from_slice(answer);
    Ok(answer.len())
}

#[derive(Clone, Copy, PartialEq, Eq, Debug)]
pub struct Stat {
    pub dir_total: usize,
    pub dir_free: usize,
    pub file_total: usize,
    pub file_free: usize,
}

/// "Total = maximum - 1; free = maximum - count + removed."
pub fn stat(four: Four, work: &mut [u32]) -> Outcome<Stat> {
    let tree = gate(four, work, None)?;
    let of = |kind: Kind| {
        let (view, held) = (four.view(kind), tree.held(kind));
        let (maximum, count) = (view.maximum() as usize, view.count() as usize);
        (maximum - 1, maximum - count + held.removed.len())
    };
    let ((dir_total, dir_free), (file_total, file_free)) = (of(Kind::Dir), of(Kind::File));
    Ok(Stat { dir_total, dir_free, file_total, file_free })
}

/// Where the 16 name bytes of a live inode start in its table.
pub fn name(four: Four, work: &mut [u32], kind: Kind, inode: u32) -> Outcome<usize> {
    let tree = gate(four, work, None)?;
    live(&tree, kind, inode)?;
    Ok(inode as usize * kind.width() + NAME)
}

/// The carried bytes of a live inode: 4 or 20.
pub fn carried(four: Four, work: &mut [u32], kind: Kind, inode: u32) -> Outcome<Vec<u8>> {
    let tree = gate(four, work, None)?;
    live(&tree, kind, inode)?;
    Ok(four.view(kind).carried(inode).to_vec())
}

pub fn set_carried(
    four: &mut FourMut,
    work: &mut [u32],
    kind: Kind,
    inode: u32,
    bytes: &[u8],
) -> Outcome<()> {
    let tree = gate(four.four(), work, None)?;
    live(&tree, kind, inode)?;
    four.view_mut(kind).set_carried(inode, bytes);
    Ok(())
}

/// Open, for a reader or for the writer. At the interface the kind of open is a number; one that is neither answers InvalidValue with the sizes.
pub fn open(
    four: Four,
    work: &mut [u32],
    opens: &mut Packed,
    kind: Kind,
    inode: u32,
    want: u32,
) -> Outcome<()> {
    sizes(four)?;
    let want = Want::of(want).ok_or(InvalidValue)?;
    let tree = gate(four, work, Some(opens))?;
    live(&tree, kind, inode)?;
    refuse(opens.full_for(inode), TooManyOpens)?;
    opens.put(inode, opens::opened(opens.record(inode), want)?);
    Ok(())
}

pub fn close(
    four: Four,
    work: &mut [u32],
    opens: &mut Packed,
    kind: Kind,
    inode: u32,
    want: u32,
) -> Outcome<()> {
    sizes(four)?;
    let want = Want::of(want).ok_or(InvalidValue)?;
    let tree = gate(four, work, Some(opens))?;
    live(&tree, kind, inode)?;
    opens.put(inode, opens::closed(opens.record(inode), want)?);
    Ok(())
}

/// The name call's kind, at the interface where it is a number.
pub fn kind_of(number: u32) -> Option<Kind> {
    match number {
        0 => Some(Kind::Dir),
        1 => Some(Kind::File),
        _ => None,
    }
}

/// A kind that is neither answers InvalidValue after the sizes.
pub fn name_of_kind(four: Four, work: &mut [u32], kind: u32, inode: u32) -> Outcome<usize> {
    sizes(four)?;
    let kind = kind_of(kind).ok_or(InvalidValue)?;
    name(four, work, kind, inode)
}
