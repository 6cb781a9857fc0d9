//! Records of tree calls.

use super::bytes::{Reader, Writer};
use super::{Record, TreeRecord};
use port::{Answered, Kind, Tree, TreeCall};
use rules::opens::Packed;

/// Areas of a tree record.
const HASH: usize = 28;
const DIRS: usize = 204;
const FILES: usize = 244;
const TREE_WORK: usize = 14;
/// Places for three records, and their number.
const OPENS: usize = 7;
const CHILDREN: usize = 8;
pub const TREE_RECORD: usize =
    160 + 2 * (2 * HASH + DIRS + FILES + 4 * TREE_WORK + 8 * OPENS + 4 * CHILDREN);

pub fn tree_fits(lent: &Tree) -> bool {
    lent.dir_hash.len() <= HASH
        && lent.dir_table.len() <= DIRS
        && lent.file_hash.len() <= HASH
        && lent.file_table.len() <= FILES
        && lent.work.len() <= TREE_WORK
        && opens_fit(&lent.dir_opens)
        && opens_fit(&lent.file_opens)
        && lent.list.len() <= CHILDREN
}

/// A packed list is stored with the number of its records behind it.
fn opens_fit(opens: &Packed) -> bool {
    opens.list.len() < OPENS && u32::try_from(opens.opened).is_ok()
}

fn opens_words(opens: &Packed) -> Vec<u32> {
    [&opens.list[..], &[opens.opened as u32]].concat()
}

fn opens_of(mut list: Vec<u32>) -> Packed {
    let opened = list.pop().expect("the number of records") as usize;
    Packed { list, opened }
}

pub fn tree_number(call: &TreeCall) -> u32 {
    match call {
        TreeCall::Format { .. } => 0,
        TreeCall::Test => 1,
        TreeCall::Lookup { .. } => 2,
        TreeCall::Make { .. } => 3,
        TreeCall::Rename { .. } => 4,
        TreeCall::Delete { .. } => 5,
        TreeCall::List { .. } => 6,
        TreeCall::Stat => 7,
        TreeCall::Name { .. } => 8,
        TreeCall::NameAnswer { .. } => 9,
        TreeCall::Carried { .. } => 10,
        TreeCall::SetCarried { .. } => 11,
        TreeCall::Open { .. } => 12,
        TreeCall::Close { .. } => 13,
    }
}

/// Everything that tree calls are passed; what a call does not take is 0.
#[derive(Default)]
pub struct Passed {
    pub kind: u32,
    inode: u32,
    parent: u32,
    dir_max: usize,
    file_max: usize,
    name: [u8; 16],
    carried: [u8; 20],
}

pub fn passed(call: &TreeCall) -> Passed {
    let zero = Passed::default();
    match *call {
        TreeCall::Format { dir_max, file_max } => Passed { dir_max, file_max, ..zero },
        TreeCall::Test | TreeCall::Stat => zero,
        TreeCall::Lookup { kind, parent, name } => Passed { kind: kind as u32, parent, name, ..zero },
        TreeCall::Make { kind, parent, name, carried } => {
            Passed { kind: kind as u32, parent, name, carried, ..zero }
        }
        TreeCall::Rename { kind, inode, parent, name } => {
            Passed { kind: kind as u32, inode, parent, name, ..zero }
        }
        TreeCall::SetCarried { kind, inode, carried } => {
            Passed { kind: kind as u32, inode, carried, ..zero }
        }
        TreeCall::Name { kind, inode } | TreeCall::NameAnswer { kind, inode } => {
            Passed { kind, inode, ..zero }
        }
        TreeCall::Delete { kind, inode }
        | TreeCall::List { kind, inode }
        | TreeCall::Carried { kind, inode } => Passed { kind: kind as u32, inode, ..zero },
        // What is opened or given back stands in the parent's place.
        TreeCall::Open { kind, inode, want } | TreeCall::Close { kind, inode, want } => {
            Passed { kind: kind as u32, inode, parent: want, ..zero }
        }
    }
}

/// Whether each kind is one of its two: others are the C interface's own matter.
pub(super) fn kinds_fit(call: &TreeCall) -> bool {
    match *call {
        TreeCall::Open { want, .. } | TreeCall::Close { want, .. } => want <= 1,
        _ => passed(call).kind <= 1,
    }
}

fn tree_of(number: u32, p: Passed) -> TreeCall {
    let kind = if p.kind == 0 { Kind::Dir } else { Kind::File };
    let Passed { inode, parent, name, carried, .. } = p;
    match number {
        0 => TreeCall::Format { dir_max: p.dir_max, file_max: p.file_max },
        1 => TreeCall::Test,
        2 => TreeCall::Lookup { kind, parent, name },
        3 => TreeCall::Make { kind, parent, name, carried },
        4 => TreeCall::Rename { kind, inode, parent, name },
        5 => TreeCall::Delete { kind, inode },
        6 => TreeCall::List { kind, inode },
        7 => TreeCall::Stat,
        8 => TreeCall::Name { kind: p.kind, inode },
        9 => TreeCall::NameAnswer { kind: p.kind, inode },
        10 => TreeCall::Carried { kind, inode },
        11 => TreeCall::SetCarried { kind, inode, carried },
        12 => TreeCall::Open { kind, inode, want: parent },
        _ => TreeCall::Close { kind, inode, want: parent },
    }
}

pub fn tree_bytes(record: &TreeRecord) -> Vec<u8> {
    let mut w = Writer { bytes: vec![] };
    let p = passed(&record.call);
    let b = &record.before;
    w.word(tree_number(&record.call));
    w.word(record.original.into());
    w.word(p.kind);
    w.word(p.inode);
    w.word(p.parent);
    for len in [b.dir_hash.len(), b.dir_table.len(), b.file_hash.len(), b.file_table.len(), b.work.len(), b.dir_opens.list.len() + 1, b.file_opens.list.len() + 1, b.list.len()] {
        w.word(len as u32);
    }
    w.word(record.answered.number);
    w.number(p.dir_max as u64);
    w.number(p.file_max as u64);
    record.answered.fields.iter().for_each(|field| w.number(*field));
    w.area(&p.name, 16);
    w.area(&p.carried, 20);
    w.area(&record.answered.bytes, 20);
    for lent in [&record.before, &record.after] {
        w.area(&lent.dir_hash, HASH);
        w.area(&lent.dir_table, DIRS);
        w.area(&lent.file_hash, HASH);
        w.area(&lent.file_table, FILES);
        w.words(&lent.work, TREE_WORK);
        w.words(&opens_words(&lent.dir_opens), OPENS);
        w.words(&opens_words(&lent.file_opens), OPENS);
        w.words(&lent.list, CHILDREN);
    }
    assert_eq!(w.bytes.len(), TREE_RECORD);
    w.bytes
}

pub fn tree_record(bytes: &[u8]) -> TreeRecord {
    let mut r = Reader { bytes };
    let (number, original) = (r.word(), r.word() == 1);
    let mut p = Passed { kind: r.word(), inode: r.word(), parent: r.word(), ..Passed::default() };
    let [dir_hash, dir_table, file_hash, file_table, work, dir_opens, file_opens, list] =
        std::array::from_fn(|_| r.word() as usize);
    let mut answered = Answered::number(r.word());
    (p.dir_max, p.file_max) = (r.number() as usize, r.number() as usize);
    answered.fields = std::array::from_fn(|_| r.number());
    p.name = r.take(16).try_into().unwrap();
    p.carried = r.take(20).try_into().unwrap();
    answered.bytes = r.take(20).try_into().unwrap();
    let [before, after] = std::array::from_fn(|_| Tree {
        dir_hash: r.area(HASH, dir_hash),
        dir_table: r.area(DIRS, dir_table),
        file_hash: r.area(HASH, file_hash),
        file_table: r.area(FILES, file_table),
        work: r.words(TREE_WORK, work),
        dir_opens: opens_of(r.words(OPENS, dir_opens)),
        file_opens: opens_of(r.words(OPENS, file_opens)),
        list: r.words(CHILDREN, list),
    });
    Record { call: tree_of(number, p), before, after, answered, original }
}
