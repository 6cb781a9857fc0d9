//! Histories of tree calls on the rules, the library and the original.

use crate::chance::Chance;
use crate::check;
use crate::stored;
use crate::trees::{self, any_bytes_name, any_name};
use original::Tables;
use port::{Answered, Kind, Tree, TreeCall};
use rules::opens::{total, Packed, WRITER};
use rules::tree::{tree, Four};

pub struct Session {
    pub lent: Tree,
    original: Option<Tables>,
}

pub fn seen(lent: &Tree) -> Four<'_> {
    let [dir_hash, dir_table, file_hash, file_table] = lent.four();
    Four { dir_hash, dir_table, file_hash, file_table }
}

impl Session {
    /// The original opens as many handles as there are readers and writers, which must be few and of live inodes. It knows no kinds of open: a
    /// handle is either.
    pub fn new(lent: Tree) -> Session {
        let original = original::PRESENT.then(|| {
            let mut tables = Tables::open(lent.four()).expect("the original opens sound tables");
            for (x, record) in lent.dir_opens.records() {
                (0..total(record)).for_each(|_| tables.open_dir(x));
            }
            for (x, record) in lent.file_opens.records() {
                (0..total(record)).for_each(|_| tables.open_file(x));
            }
            tables
        });
        Session { lent, original }
    }

    /// Runs one call everywhere and compares.
    pub fn run(&mut self, call: &TreeCall) -> Answered {
        let answered = check::tree_call(call, &mut self.lent);
        if let Some(original) = &mut self.original {
            let followed = followed(call, answered.number);
            if followed {
                follow(original, call, &answered, &self.lent);
            }
            let same = original.holds(self.lent.four());
            assert!(same, "the original's bytes differ after {call:?}\nrules {}\noriginal {}", check::short(&self.lent), check::short(&original.four()));
            for x in 0..self.lent.room(Kind::Dir) as u32 {
                assert_eq!(original.dir_opens(x), total(self.lent.dir_opens.record(x)), "opens of directory {x} after {call:?}");
            }
            for x in 0..self.lent.room(Kind::File) as u32 {
                assert_eq!(original.file_opens(x), total(self.lent.file_opens.record(x)), "opens of file {x} after {call:?}");
            }
            if followed && has_counterpart(call) {
                stored::confirm_tree();
            }
        }
        answered
    }

    /// Every list with its names, every parent, and the stat.
    pub fn compare_all(&mut self) {
        let held = tree(seen(&self.lent)).expect("every step keeps the tables sound");
        let Some(original) = &self.original else { return };
        let four = seen(&self.lent);
        for kind in [Kind::Dir, Kind::File] {
            let view = four.view(kind);
            for dir in held.dirs.inodes() {
                let listed = match kind {
                    Kind::Dir => original.list_dirs(dir),
                    Kind::File => original.list_files(dir),
                };
                let wanted: Vec<([u8; 16], u32)> = held
                    .children(kind, dir)
                    .iter()
                    .map(|x| (view.key(*x)[4..].try_into().unwrap(), *x))
                    .collect();
                assert_eq!(listed, Ok(wanted), "children of {dir}");
            }
            for x in held.held(kind).inodes() {
                let parent = match kind {
                    Kind::Dir => original.dir_parent(x),
                    Kind::File => original.file_parent(x),
                };
                assert_eq!(parent, Ok(view.parent(x)), "parent of {x}");
            }
        }
    }
}

/// Whether the original may be asked to follow: on the other refusals it does something else, as docs/DIFFERENCES.md lists.
fn followed(call: &TreeCall, number: u32) -> bool {
    match call {
        // NoSpace and AlreadyExist; a dead parent is taken there, and any name.
        TreeCall::Make { .. } => matches!(number, 0 | 6 | 11),
        // A refused rename has removed the entry already, and any handle will do for one.
        TreeCall::Rename { .. } => number == 0,
        // Busy, DeletingRoot, NotEmpty; a dead or unopened inode has no handle, and a reader's would do.
        TreeCall::Delete { .. } => matches!(number, 0 | 12 | 13 | 14),
        // A second writer is let in, and a handle given back is one of either kind.
        TreeCall::Open { .. } | TreeCall::Close { .. } => number == 0,
        // A lookup's parent needs no handle of its own, so NotFound is common.
        TreeCall::Lookup { .. } => matches!(number, 0 | 10),
        _ => number == 0,
    }
}

/// Whether the original has such a call.
fn has_counterpart(call: &TreeCall) -> bool {
    !matches!(
        call,
        TreeCall::Test
            | TreeCall::Name { .. }
            | TreeCall::NameAnswer { .. }
            | TreeCall::Carried { kind: Kind::Dir, .. }
            | TreeCall::SetCarried { kind: Kind::Dir, .. }
    )
}

fn follow(original: &mut Tables, call: &TreeCall, answered: &Answered, lent: &Tree) {
    let rules = if answered.number == 0 { Ok(()) } else { Err(answered.number) };
    let field = answered.fields[0] as u32;
    match *call {
        TreeCall::Lookup { kind, parent, name } => {
            let found = match kind {
                Kind::Dir => original.lookup_dir(parent, name),
                Kind::File => original.lookup_file(parent, name),
            };
            assert_eq!(found, rules.map(|()| field), "{call:?}");
        }
        TreeCall::Make { kind, parent, name, carried } => {
            let made = match kind {
                Kind::Dir => original.make_dir(parent, name, carried[..4].try_into().unwrap()),
                Kind::File => original.make_file(parent, name, carried),
            };
            assert_eq!(made, rules.map(|()| field), "{call:?}");
        }
        TreeCall::Rename { kind, inode, parent, name } => {
            let renamed = match kind {
                Kind::Dir => original.rename_dir(inode, parent, name),
                Kind::File => original.rename_file(inode, parent, name),
            };
            assert_eq!(renamed, rules, "{call:?}");
        }
        TreeCall::Delete { kind, inode } => {
            let deleted = match kind {
                Kind::Dir => original.delete_dir(inode),
                Kind::File => original.delete_file(inode),
            };
            assert_eq!(deleted, rules, "{call:?}");
            // A refused delete drops its handle there: a listed difference.
            if rules.is_err() {
                match kind {
                    Kind::Dir => original.open_dir(inode),
                    Kind::File => original.open_file(inode),
                }
            }
        }
        TreeCall::List { kind, inode } => {
            let listed = match kind {
                Kind::Dir => original.list_dirs(inode),
                Kind::File => original.list_files(inode),
            };
            let inodes: Vec<u32> = listed.unwrap().iter().map(|(_, x)| *x).collect();
            assert_eq!(inodes, lent.list[..field as usize], "{call:?}");
        }
        TreeCall::Stat => {
            let stat = original.stat().unwrap().map(|s| s as u64);
            assert_eq!(stat, answered.fields, "{call:?}");
        }
        TreeCall::Carried { kind: Kind::File, inode } => {
            assert_eq!(original.carried_file(inode), Ok(answered.bytes), "{call:?}");
        }
        TreeCall::SetCarried { kind: Kind::File, inode, carried } => {
            assert_eq!(original.set_carried_file(inode, carried), Ok(()), "{call:?}");
        }
        TreeCall::SetCarried { kind: Kind::Dir, .. } => original.set(lent.four()),
        TreeCall::Open { kind: Kind::Dir, inode, .. } => original.open_dir(inode),
        TreeCall::Open { kind: Kind::File, inode, .. } => original.open_file(inode),
        TreeCall::Close { kind: Kind::Dir, inode, .. } => original.close_dir(inode),
        TreeCall::Close { kind: Kind::File, inode, .. } => original.close_file(inode),
        _ => {}
    }
}

/// An inode: mostly a live one, sometimes a removed one or any number.
fn any_inode(chance: &mut Chance, lent: &Tree, kind: Kind) -> u32 {
    let held = tree(seen(lent)).expect("every step keeps the tables sound");
    let live: Vec<u32> = held.held(kind).inodes().collect();
    let room = seen(lent).view(kind).room() as u32;
    if live.is_empty() || chance.one_in(10) {
        return chance.pick(&[0, 1, room - 1, room, u32::MAX, 1 << 31]);
    }
    if !held.held(kind).removed.is_empty() && chance.one_in(12) {
        return chance.pick(&held.held(kind).removed);
    }
    chance.pick(&live)
}

/// Any call but format, with the list that it needs.
pub fn any_call(chance: &mut Chance, lent: &mut Tree) -> TreeCall {
    let kind = chance.pick(&[Kind::Dir, Kind::File]);
    let parent = any_inode(chance, lent, Kind::Dir);
    let inode = any_inode(chance, lent, kind);
    // Mostly a name that a new entry may have: the original takes the others.
    let name = if chance.one_in(12) { any_bytes_name(chance) } else { any_name(chance) };
    let carried: [u8; 20] = chance.bytes(20).try_into().unwrap();
    let want = chance.below(2) as u32;
    let len = chance.pick(&[0, 1, 2, 8, 50, 50]);
    lent.list = chance.words(len);
    match chance.below(40) {
        0..=9 => TreeCall::Make { kind, parent, name, carried },
        10..=15 => TreeCall::Rename { kind, inode, parent, name },
        16..=20 => TreeCall::Delete { kind, inode },
        21..=23 => TreeCall::Lookup { kind, parent, name: any_bytes_name(chance) },
        24..=25 => TreeCall::List { kind, inode: parent },
        26 => TreeCall::Stat,
        27 => TreeCall::Test,
        28 => TreeCall::Name { kind: kind as u32, inode },
        29 => TreeCall::NameAnswer { kind: kind as u32, inode },
        30 => TreeCall::Carried { kind, inode },
        31..=32 => TreeCall::SetCarried { kind, inode, carried },
        33..=36 => TreeCall::Open { kind, inode, want },
        _ => TreeCall::Close { kind, inode, want },
    }
}

/// Format over any bytes, on the original too.
fn compare_format(chance: &mut Chance) {
    let (dir_max, file_max) = (chance.within(2, 5), chance.within(1, 5));
    let (dir_buckets, file_buckets) = (chance.within(1, 7), chance.within(1, 7));
    let mut lent = Tree {
        dir_hash: chance.bytes(4 * dir_buckets),
        dir_table: chance.bytes(40 * dir_max + spare(dir_max)),
        file_hash: chance.bytes(4 * file_buckets),
        file_table: chance.bytes(48 * file_max + spare(file_max)),
        ..Tree::default()
    };
    let before = lent.clone();
    let answered = check::tree_call(&TreeCall::Format { dir_max, file_max }, &mut lent);
    assert_eq!(answered.number, 0);
    if original::PRESENT {
        let (answer, four) = Tables::format(before.four(), dir_max, file_max);
        assert_eq!(answer, Ok(()));
        assert!(four.iter().zip(lent.four()).all(|(a, b)| a == b), "the original formats otherwise");
        stored::confirm_tree();
    }
}

/// A few bytes more than whole entries.
fn spare(maximum: usize) -> usize {
    maximum % 4
}

/// Few readers, or none; with a writer or without; none where the list is full.
fn some_record(chance: &mut Chance, opens: &mut Packed, inode: u32) {
    let record = chance.below(3) as u32 + chance.pick(&[0, WRITER]);
    if !opens.full_for(inode) {
        opens.put(inode, record);
    }
}

/// One random history.
pub fn run(chance: &mut Chance) {
    let mut start = if chance.one_in(2) { trees::formatted(chance) } else { trees::any_sound(chance) };
    let held = tree(seen(&start)).unwrap();
    for x in held.dirs.inodes() {
        some_record(chance, &mut start.dir_opens, x);
    }
    for x in held.files.inodes() {
        some_record(chance, &mut start.file_opens, x);
    }
    compare_format(chance);
    let mut session = Session::new(start);
    let steps = chance.within(1, 60);
    for _ in 0..steps {
        let call = any_call(chance, &mut session.lent);
        session.run(&call);
        if chance.one_in(8) {
            session.compare_all();
        }
    }
    session.compare_all();
}

/// A name that a new entry may have: a letter and a number.
fn numbered(letter: char, number: u32) -> [u8; 16] {
    let mut name = [0; 16];
    let text = format!("{letter}{number}");
    name[..text.len()].copy_from_slice(text.as_bytes());
    name
}

fn live_of(lent: &Tree, kind: Kind) -> Vec<u32> {
    tree(seen(lent)).expect("every step keeps the tables sound").held(kind).inodes().collect()
}

/// Makes entries in any directories until none is free: how many were made.
fn fill(chance: &mut Chance, session: &mut Session, kind: Kind) -> u32 {
    let mut made = 0;
    loop {
        let parent = chance.pick(&live_of(&session.lent, Kind::Dir));
        let carried = chance.bytes(20).try_into().unwrap();
        match session.run(&TreeCall::Make { kind, parent, name: numbered('m', made), carried }).number {
            0 => made += 1,
            number => {
                assert_eq!(number, 6, "make in a full table");
                return made;
            }
        }
    }
}

/// Rename in full tables: make is NoSpace before and after, and a rename of any entry to a key that is free is Done, of a directory with children too.
pub fn full(chance: &mut Chance) {
    let mut start = trees::formatted(chance);
    // A place for every entry, so that the tables fill and not the lists.
    start.dir_opens = Packed::none(2 * start.room(Kind::Dir));
    start.file_opens = Packed::none(2 * start.room(Kind::File));
    let mut session = Session::new(start);
    for kind in [Kind::Dir, Kind::File] {
        fill(chance, &mut session, kind);
    }
    for kind in [Kind::Dir, Kind::File] {
        let mut inodes = live_of(&session.lent, kind);
        inodes.retain(|x| kind == Kind::File || *x != 1);
        chance.shuffle(&mut inodes);
        for inode in inodes {
            let own = seen(&session.lent).view(kind).parent(inode);
            let parent = chance.pick(&[own, 1]);
            let renamed = session.run(&TreeCall::Rename { kind, inode, parent, name: numbered('r', inode) });
            assert_eq!(renamed.number, 0, "rename in a full table");
        }
        assert_eq!(fill(chance, &mut session, kind), 0, "a rename gave an entry back");
    }
    session.compare_all();
}
