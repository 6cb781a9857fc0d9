//! Histories of tree calls through `FsMeta`, `DirMeta` and `FileMeta`, beside the rules.

use super::subject::{self, Tables};
use compare::chance::Chance;
use compare::tree_history::{any_call, seen};
use compare::trees;
use port::{Answered, Kind, Port, Stated, Tree, TreeCall};
use rules::opens::{Packed, WRITER};
use rules::tree::tree;
use std::collections::HashMap;

/// How many handles of each inode are held.
pub type Held = HashMap<(bool, u32), u32>;

/// What the rules note of an inode with so many handles: one of them is the writer where one is needed.
fn record(handles: u32) -> u32 {
    match handles {
        0 => 0,
        handles => WRITER + handles - 1,
    }
}

fn is_file(kind: Kind) -> bool {
    kind == Kind::File
}

/// Notes the handles where the rules look for them.
pub fn note(lent: &mut Tree, held: &Held) {
    lent.dir_opens.opened = 0;
    lent.file_opens.opened = 0;
    for (&(file, inode), &handles) in held {
        let opens = if file { &mut lent.file_opens } else { &mut lent.dir_opens };
        opens.put(inode, record(handles));
    }
}

/// What the modules answer for a number of the rules: a directory that is moved into itself has no name there.
fn named(number: u32) -> Result<(), u32> {
    match number {
        0 => Ok(()),
        15 => Err(2),
        number => Err(number),
    }
}

/// Whether the modules may be asked: a call on an inode needs a handle of it, and on other refusals the original does something else, as docs/DIFFERENCES.md
/// lists.
fn asked(call: &TreeCall, number: u32) -> bool {
    let both = match call {
        TreeCall::Make { .. } => matches!(number, 0 | 6 | 11),
        TreeCall::Rename { .. } => number == 0,
        TreeCall::Delete { .. } => matches!(number, 0 | 12 | 13 | 14),
        TreeCall::Lookup { .. } => matches!(number, 0 | 10),
        _ => number == 0,
    };
    let ours = match call {
        TreeCall::Rename { inode, .. } if number == 10 => *inode != 0,
        TreeCall::Delete { .. } => number != 10 && number != 16,
        TreeCall::List { .. } => number != 8,
        _ => number != 16,
    };
    both || (subject::OUR_META && ours)
}

/// A changing call through the handles.
pub fn change(tables: &mut Tables, call: &TreeCall) -> Result<u32, u32> {
    match *call {
        TreeCall::Make { kind: Kind::Dir, parent, name, carried } => {
            tables.make_dir(parent, name, carried[..4].try_into().unwrap())
        }
        TreeCall::Make { kind: Kind::File, parent, name, carried } => tables.make_file(parent, name, carried),
        TreeCall::Rename { kind: Kind::Dir, inode, parent, name } => tables.rename_dir(inode, parent, name).map(|()| 0),
        TreeCall::Rename { kind: Kind::File, inode, parent, name } => tables.rename_file(inode, parent, name).map(|()| 0),
        TreeCall::Delete { kind: Kind::Dir, inode } => tables.delete_dir(inode).map(|()| 0),
        TreeCall::Delete { kind: Kind::File, inode } => tables.delete_file(inode).map(|()| 0),
        TreeCall::SetCarried { kind: Kind::File, inode, carried } => tables.set_carried_file(inode, carried).map(|()| 0),
        _ => unreachable!("no changing call"),
    }
}

/// A handle more of an inode.
pub fn open(tables: &mut Tables, held: &mut Held, kind: Kind, inode: u32) -> Result<(), u32> {
    match kind {
        Kind::Dir => tables.try_open_dir(inode)?,
        Kind::File => tables.try_open_file(inode)?,
    }
    *held.entry((is_file(kind), inode)).or_default() += 1;
    Ok(())
}

fn live(lent: &Tree, kind: Kind, inode: u32) -> bool {
    tree(seen(lent)).expect("every step keeps the tables sound").held(kind).inodes().any(|x| x == inode)
}

/// The directory of which a call needs a handle; the original gives a handle of any inode.
fn parent_of(call: &TreeCall) -> Option<u32> {
    match *call {
        TreeCall::Make { parent, .. } | TreeCall::Rename { parent, .. } => Some(parent),
        TreeCall::Lookup { parent, .. } if subject::OUR_META => Some(parent),
        _ => None,
    }
}

/// Runs one call on the rules and on the modules, and compares answer, bytes and handles.
pub fn step(tables: &mut Tables, held: &mut Held, call: &TreeCall, lent: &mut Tree) {
    note(lent, held);
    match *call {
        TreeCall::Open { kind, inode, .. } => {
            match (live(lent, kind, inode), subject::OUR_META) {
                (true, _) => assert_eq!(open(tables, held, kind, inode), Ok(())),
                (false, true) => assert_eq!(open(tables, held, kind, inode), Err(10)),
                (false, false) => (),
            }
        }
        TreeCall::Close { kind, inode, .. } => {
            if let Some(handles) = held.get_mut(&(is_file(kind), inode)).filter(|handles| **handles > 0) {
                *handles -= 1;
                match kind {
                    Kind::Dir => tables.close_dir(inode),
                    Kind::File => tables.close_file(inode),
                }
            }
        }
        _ => {
            // Where the rules refuse what the modules are not asked for nothing changes either.
            let parent = parent_of(call).is_none_or(|parent| live(lent, Kind::Dir, parent));
            let mut answered = Stated.tree_call(call, lent);
            if !parent {
                // There is no handle of such a parent: this is found before anything else.
                answered.number = 10;
            }
            if asked(call, answered.number) {
                compare(tables, held, call, &answered, lent);
            }
        }
    }
    assert!(tables.holds(lent.four()), "other bytes after {call:?}");
    for (&(file, inode), &handles) in held.iter() {
        let opens = if file { tables.file_opens(inode) } else { tables.dir_opens(inode) };
        assert_eq!(opens, handles, "handles of {inode} after {call:?}");
    }
}

fn compare(tables: &mut Tables, held: &mut Held, call: &TreeCall, answered: &Answered, lent: &Tree) {
    let (wanted, field) = (named(answered.number), answered.fields[0] as u32);
    let handle = |held: &Held, kind: Kind, inode: u32| held.get(&(is_file(kind), inode)).is_some_and(|h| *h > 0);
    match *call {
        TreeCall::Make { kind, .. } => {
            assert_eq!(change(tables, call), wanted.map(|()| field), "{call:?}");
            if wanted.is_ok() {
                held.insert((is_file(kind), field), 1);
            }
        }
        TreeCall::Rename { kind, inode, .. } if handle(held, kind, inode) => {
            assert_eq!(change(tables, call), wanted.map(|()| 0), "{call:?}")
        }
        TreeCall::Delete { kind, inode } if handle(held, kind, inode) => {
            assert_eq!(change(tables, call), wanted.map(|()| 0), "{call:?}");
            // The handle is used up, whatever the answer.
            *held.get_mut(&(is_file(kind), inode)).unwrap() -= 1;
        }
        TreeCall::SetCarried { kind: Kind::File, .. } => {
            assert_eq!(change(tables, call), wanted.map(|()| 0), "{call:?}")
        }
        // Not in the interface: what it leaves is given to the modules.
        TreeCall::SetCarried { kind: Kind::Dir, .. } if wanted.is_ok() => renew(tables, held, lent),
        _ => compare_asked(tables, call, answered, lent),
    }
}

/// The calls that change nothing.
fn compare_asked(tables: &Tables, call: &TreeCall, answered: &Answered, lent: &Tree) {
    let (wanted, field) = (named(answered.number), answered.fields[0] as u32);
    match *call {
        TreeCall::Lookup { kind, parent, name } => {
            let found = match kind {
                Kind::Dir => tables.lookup_dir(parent, name),
                Kind::File => tables.lookup_file(parent, name),
            };
            assert_eq!(found, wanted.map(|()| field), "{call:?}");
        }
        TreeCall::List { kind, inode } => {
            let listed = match kind {
                Kind::Dir => tables.list_dirs(inode),
                Kind::File => tables.list_files(inode),
            };
            let inodes = listed.map(|list| list.iter().map(|(_, x)| *x).collect::<Vec<u32>>());
            assert_eq!(inodes, wanted.map(|()| lent.list[..field as usize].to_vec()), "{call:?}");
        }
        TreeCall::Stat => assert_eq!(tables.stat().unwrap().map(|s| s as u64), answered.fields, "{call:?}"),
        TreeCall::Carried { kind: Kind::File, inode } => {
            assert_eq!(tables.carried_file(inode), wanted.map(|()| answered.bytes), "{call:?}");
        }
        _ => (),
    }
}

/// Puts the rules' bytes into the files and opens them anew, with as many handles.
fn renew(tables: &mut Tables, held: &Held, lent: &Tree) {
    tables.drop_handles();
    tables.set(lent.four());
    tables.reopen().unwrap();
    for (&(file, inode), &handles) in held {
        (0..handles).for_each(|_| if file { tables.open_file(inode) } else { tables.open_dir(inode) });
    }
}

/// Every list with its names, and every parent.
pub fn lists(tables: &Tables, lent: &Tree) {
    let (four, held) = (seen(lent), tree(seen(lent)).expect("every step keeps the tables sound"));
    for kind in [Kind::Dir, Kind::File] {
        let view = four.view(kind);
        for dir in held.dirs.inodes() {
            let listed = match kind {
                Kind::Dir => tables.list_dirs(dir),
                Kind::File => tables.list_files(dir),
            };
            let named = |x: &u32| (view.key(*x)[4..].try_into().unwrap(), *x);
            let wanted: Vec<([u8; 16], u32)> = held.children(kind, dir).iter().map(named).collect();
            assert_eq!(listed, Ok(wanted), "children of {dir}");
        }
        for x in held.held(kind).inodes() {
            let parent = match kind {
                Kind::Dir => tables.dir_parent(x),
                Kind::File => tables.file_parent(x),
            };
            assert_eq!(parent, Ok(view.parent(x)), "parent of {x}");
        }
    }
}

/// Tables with up to two handles of each inode.
pub fn begin(chance: &mut Chance) -> (Tree, Tables, Held) {
    let mut lent = if chance.one_in(2) { trees::formatted(chance) } else { trees::any_sound(chance) };
    // The modules' lists of open records grow, so the rules have a place for every entry's.
    lent.dir_opens = Packed::none(2 * (lent.dir_table.len() / 40));
    lent.file_opens = Packed::none(2 * (lent.file_table.len() / 48));
    let mut tables = Tables::open(lent.four()).expect("sound tables open");
    let mut held = Held::new();
    let there = tree(seen(&lent)).unwrap();
    for kind in [Kind::Dir, Kind::File] {
        for x in there.held(kind).inodes() {
            (0..chance.below(3)).for_each(|_| open(&mut tables, &mut held, kind, x).unwrap());
        }
    }
    (lent, tables, held)
}

/// Format over any bytes.
fn formats(chance: &mut Chance) {
    let (dir_max, file_max) = (chance.within(2, 5), chance.within(1, 5));
    let lens = [4 * chance.within(1, 7), 40 * dir_max + chance.below(4), 4 * chance.within(1, 7), 48 * file_max];
    let [dir_hash, dir_table, file_hash, file_table] = lens.map(|len| chance.bytes(len));
    let mut lent = Tree { dir_hash, dir_table, file_hash, file_table, ..Tree::default() };
    let (answer, four) = Tables::format(lent.four(), dir_max, file_max);
    assert_eq!(Stated.tree_call(&TreeCall::Format { dir_max, file_max }, &mut lent).number, 0);
    assert_eq!(answer, Ok(()));
    assert!(four.iter().zip(lent.four()).all(|(ours, rules)| ours == rules), "formatted otherwise");
}

pub fn run(chance: &mut Chance) {
    formats(chance);
    let (mut lent, mut tables, mut held) = begin(chance);
    for _ in 0..chance.within(1, 60) {
        let call = any_call(chance, &mut lent);
        step(&mut tables, &mut held, &call, &mut lent);
        if chance.one_in(8) {
            lists(&tables, &lent);
        }
    }
    lists(&tables, &lent);
}
