//! Each difference that docs/DIFFERENCES.md lists, by its smallest input: what the original does, and what the rules say.
//! Where the original's source is not at hand only the second half is run.

use original::{Tables, Volume};
use port::{Answered, BlockCall, Blocks, Kind, Library, Port, Stated, Tree, TreeCall};
use rules::opens::{total, Packed, WRITER};
use rules::{put_word, word};
use std::panic::{catch_unwind, AssertUnwindSafe};

const F: u32 = 0x8000_0000;

/// What the rules and the library answer on a copy.
fn block_answer(call: BlockCall, lent: &Blocks) -> Answered {
    let (mut one, mut other) = (lent.clone(), lent.clone());
    let answered: Answered = Stated.block_call(&call, &mut one);
    let library = Library.block_call(&call, &mut other);
    assert_eq!((library, other), (answered, one));
    answered
}

fn block_number(call: BlockCall, lent: &Blocks) -> u32 {
    block_answer(call, lent).number
}

/// The table is broken at that entry, by that rule, and so says the call.
fn broken_at(call: BlockCall, lent: &Blocks, entry: usize, rule: u32) {
    let answered = block_answer(call, lent);
    assert_eq!((answered.number, answered.fault), (4, (entry, rule)));
}

fn tree_number(call: TreeCall, lent: &Tree) -> u32 {
    let (mut one, mut other) = (lent.clone(), lent.clone());
    let answered = Stated.tree_call(&call, &mut one);
    let library = Library.tree_call(&call, &mut other);
    assert_eq!((library, other), (answered, one));
    answered.number
}

fn panics<T>(run: impl FnOnce() -> T) -> bool {
    let quiet = std::panic::take_hook();
    std::panic::set_hook(Box::new(|_| {}));
    let ended = catch_unwind(AssertUnwindSafe(run)).is_err();
    std::panic::set_hook(quiet);
    ended
}

/// A volume of 512-byte blocks whose entries are given from entry 0 on.
fn volume(entries: &[(u32, u32)]) -> Blocks {
    let mut table = vec![0; 8 * entries.len()];
    for (e, (u, v)) in entries.iter().enumerate() {
        put_word(&mut table, e * 8, *u);
        put_word(&mut table, e * 8 + 4, *v);
    }
    let n = entries.len() - 1;
    Blocks {
        table,
        data: vec![0; n * 512],
        block_len: 512,
        work: vec![0; n],
        list: vec![0; n],
        buf: vec![0],
    }
}

fn opened(lent: &Blocks) -> Volume {
    Volume::open(&lent.table, &lent.data, lent.block_len).unwrap()
}

/// Formatted tables, so many entries each, three buckets, with names a, b, c at hand.
fn tables(dirs: usize, files: usize) -> Tree {
    let mut lent = Tree {
        dir_hash: vec![0; 12],
        dir_table: vec![0; 40 * dirs],
        file_hash: vec![0; 12],
        file_table: vec![0; 48 * files],
        work: vec![0; dirs + files],
        dir_opens: Packed::none(2 * dirs),
        file_opens: Packed::none(2 * files),
        list: vec![0; 4],
    };
    let format = TreeCall::Format { dir_max: dirs, file_max: files };
    assert_eq!(Stated.tree_call(&format, &mut lent).number, 0);
    lent
}

fn name(letter: u8) -> [u8; 16] {
    let mut name = [0; 16];
    name[0] = letter;
    name
}

fn with_dir(mut lent: Tree, parent: u32, letter: u8) -> Tree {
    let call = TreeCall::Make { kind: Kind::Dir, parent, name: name(letter), carried: [0; 20] };
    assert_eq!(Stated.tree_call(&call, &mut lent).number, 0);
    lent
}

/// The original on the same bytes, with a handle for each reader and for the writer.
fn beside(lent: &Tree) -> Tables {
    let mut tables = Tables::open(lent.four()).unwrap();
    for (x, record) in lent.dir_opens.records() {
        (0..total(record)).for_each(|_| tables.open_dir(x));
    }
    tables
}

#[test]
fn free_front_opened_as_a_file() {
    let lent = volume(&[(0, 1), (F, 0)]);
    assert_eq!(block_number(BlockCall::OpenList { first: 0 }, &lent), 5);
    assert_eq!(block_number(BlockCall::Delete { first: 0 }, &lent), 5);
    if original::PRESENT {
        let mut original = opened(&lent);
        assert_eq!(original.list(0), Ok(vec![0]));
        assert_eq!(original.delete(0), Ok(()));
        let left = Blocks { table: original.table(), ..lent };
        assert_eq!(word(&left.table, 8), 1);
        assert_eq!(word(&left.table, 12), 1);
        assert_eq!(block_number(BlockCall::Test, &left), 4);
    }
}

#[test]
fn entry_never_read_opened_as_a_file() {
    let mut lent = volume(&[(0, 0), (0, 0), (0, 0), (F, 0), (0, 0)]);
    assert_eq!(Stated.block_call(&BlockCall::Format, &mut lent).number, 0);
    assert_eq!(block_number(BlockCall::Test, &lent), 0);
    assert_eq!(block_number(BlockCall::OpenList { first: 2 }, &lent), 5);
    if original::PRESENT {
        assert_eq!(opened(&lent).list(2), Ok(vec![2]));
    }
}

#[test]
fn position_that_wraps() {
    let lent = volume(&[(0, 0), (F, 0)]);
    let (first, pos) = (0, usize::MAX);
    assert_eq!(block_number(BlockCall::Read { first, pos }, &lent), 7);
    assert_eq!(block_number(BlockCall::Write { first, pos }, &lent), 7);
    if original::PRESENT {
        assert_eq!(opened(&lent).read(first, pos, &mut [0]), Ok(()));
        assert_eq!(opened(&lent).write(first, pos, &[0]), Ok(()));
    }
}

#[test]
fn node_length_that_wraps() {
    // Block 2 starts a long node whose end lies before it; blocks 0 and 1 are files.
    let lent = volume(&[(0, 0), (F, 0), (F | 3, 2), (F, F), (F | 3, 2)]);
    broken_at(BlockCall::Test, &lent, 2, 1);
    if original::PRESENT {
        assert_eq!(opened(&lent).list(2), Ok(vec![]));
    }
}

#[test]
fn not_end_to_end() {
    let lent = volume(&[(0, 0), (F, 0), (7, 7)]);
    broken_at(BlockCall::Test, &lent, 2, 7);
    broken_at(BlockCall::OpenList { first: 0 }, &lent, 2, 7);
    if original::PRESENT {
        assert_eq!(opened(&lent).list(0), Ok(vec![0]));
    }
}

#[test]
fn ring_unseen() {
    let lent = volume(&[(0, 0), (2, 2), (1, 1)]);
    broken_at(BlockCall::Test, &lent, 1, 7);
    broken_at(BlockCall::Create { count: 1 }, &lent, 1, 7);
    if original::PRESENT {
        assert_eq!(opened(&lent).free(), 0);
    }
}

#[test]
fn two_files_on_one_block() {
    // A chain that runs into another file's node: its previous does not answer.
    let shared = volume(&[(0, 0), (F, 3), (F, 3), (1, 0)]);
    broken_at(BlockCall::Test, &shared, 2, 7);
    broken_at(BlockCall::OpenList { first: 0 }, &shared, 2, 7);
    if original::PRESENT {
        assert_eq!(opened(&shared).list(0), Ok(vec![0, 2]));
        assert_eq!(opened(&shared).list(1), Err(4));
    }
}

#[test]
fn sizes_of_blocks() {
    // No blocks at all.
    let none = Blocks { table: vec![0; 8], block_len: 512, ..Blocks::default() };
    assert_eq!(block_number(BlockCall::Create { count: 1 }, &none), 2);
    assert_eq!(block_number(BlockCall::Format, &none), 2);
    // Block length 0.
    let flat = Blocks { block_len: 0, data: vec![], buf: vec![], ..volume(&[(0, 0), (F, 0)]) };
    assert_eq!(block_number(BlockCall::Read { first: 0, pos: 0 }, &flat), 2);
    // Odd lengths at format.
    let odd = Blocks { table: vec![0; 20], ..Blocks::default() };
    assert_eq!(block_number(BlockCall::Format, &odd), 1);
    if original::PRESENT {
        let mut table = vec![0; 8];
        assert_eq!(Volume::format(&mut table), Err(7));
        assert_ne!(table, [0; 8], "bytes changed although refused");
        assert_eq!(opened(&none).create(1), Err(6));
        assert!(panics(|| opened(&flat).read(0, 0, &mut [])));
        let mut table = vec![0; 20];
        assert_eq!(Volume::format(&mut table), Ok(()));
    }
}

#[test]
fn rename_that_meets_a_key() {
    let lent = with_dir(with_dir(tables(4, 2), 1, b'a'), 1, b'b');
    let call = TreeCall::Rename { kind: Kind::Dir, inode: 3, parent: 1, name: name(b'a') };
    assert_eq!(tree_number(call, &lent), 11);
    if original::PRESENT {
        let mut original = beside(&lent);
        assert_eq!(original.rename_dir(3, 1, name(b'a')), Err(11));
        assert_eq!(original.list_dirs(1), Ok(vec![(name(b'a'), 2)]));
        assert!(!original.holds(lent.four()));
    }
}

#[test]
fn names_that_no_new_entry_may_have() {
    let lent = with_dir(tables(4, 2), 1, b'a');
    let mut behind = name(b'a');
    behind[2] = b'x';
    let whole = [b'z'; 16];
    for (bad, wanted) in [([0; 16], 2), (behind, 2), (whole, 0)] {
        let make = TreeCall::Make { kind: Kind::Dir, parent: 1, name: bad, carried: [0; 20] };
        assert_eq!(tree_number(make, &lent), wanted);
        let rename = TreeCall::Rename { kind: Kind::Dir, inode: 2, parent: 1, name: bad };
        assert_eq!(tree_number(rename, &lent), wanted);
        // Before the parent is looked at, and after the subject is.
        let parent = TreeCall::Make { kind: Kind::Dir, parent: 9, name: bad, carried: [0; 20] };
        assert_eq!(tree_number(parent, &lent), if wanted == 2 { 2 } else { 10 });
        let dead = TreeCall::Rename { kind: Kind::Dir, inode: 3, parent: 9, name: bad };
        assert_eq!(tree_number(dead, &lent), 10);
        if original::PRESENT {
            assert_eq!(beside(&lent).make_dir(1, bad, [0; 4]), Ok(3));
            assert_eq!(beside(&lent).rename_dir(2, 1, bad), Ok(()));
        }
    }
}

#[test]
fn directory_into_itself() {
    let lent = with_dir(with_dir(tables(4, 2), 1, b'a'), 2, b'b');
    for parent in [2, 3] {
        let call = TreeCall::Rename { kind: Kind::Dir, inode: 2, parent, name: name(b'c') };
        assert_eq!(tree_number(call, &lent), 15);
        if original::PRESENT {
            let mut original = beside(&lent);
            assert_eq!(original.rename_dir(2, parent, name(b'c')), Ok(()));
            let [dir_hash, dir_table, file_hash, file_table] = original.four();
            let left = Tree { dir_hash, dir_table, file_hash, file_table, ..lent.clone() };
            assert_eq!(tree_number(TreeCall::Test, &left), 9);
        }
    }
}

#[test]
fn rename_of_the_root_or_of_the_dead() {
    let mut lent = with_dir(tables(4, 2), 1, b'a');
    lent.dir_opens.put(1, WRITER);
    lent.dir_opens.put(3, WRITER);
    for (inode, number) in [(1, 13), (3, 10)] {
        let call = TreeCall::Rename { kind: Kind::Dir, inode, parent: 1, name: name(b'c') };
        assert_eq!(tree_number(call, &lent), number);
        if original::PRESENT {
            let mut original = beside(&lent);
            assert!(panics(|| original.rename_dir(inode, 1, name(b'c'))));
        }
    }
}

#[test]
fn refused_delete_drops_its_handle() {
    let mut lent = with_dir(tables(4, 2), 1, b'a');
    lent.dir_opens.put(2, WRITER + 1);
    let call = TreeCall::Delete { kind: Kind::Dir, inode: 2 };
    assert_eq!(tree_number(call, &lent), 12);
    if original::PRESENT {
        let mut original = beside(&lent);
        assert_eq!(original.delete_dir(2), Err(12));
        assert_eq!(original.dir_opens(2), 1);
        assert_eq!(original.delete_dir(2), Ok(()));
    }
}

#[test]
fn dead_inodes() {
    let lent = tables(4, 2);
    let (kind, carried) = (Kind::Dir, [0; 20]);
    let make = TreeCall::Make { kind, parent: 3, name: name(b'a'), carried };
    assert_eq!(tree_number(make, &lent), 10);
    assert_eq!(tree_number(TreeCall::Open { kind, inode: 3, want: 0 }, &lent), 10);
    assert_eq!(tree_number(TreeCall::List { kind, inode: 3 }, &lent), 10);
    if original::PRESENT {
        let mut original = beside(&lent);
        original.open_dir(3);
        assert_eq!(original.dir_opens(3), 1);
        assert_eq!(original.list_dirs(3), Ok(vec![]));
        assert_eq!(original.make_dir(3, name(b'a'), [0; 4]), Ok(2));
        // Held while dead, then made: two opens.
        let mut original = beside(&lent);
        original.open_dir(2);
        assert_eq!(original.make_dir(1, name(b'a'), [0; 4]), Ok(2));
        assert_eq!(original.dir_opens(2), 2);
    }
    let mut held = lent.clone();
    held.dir_opens.put(2, 3);
    let make = TreeCall::Make { kind, parent: 1, name: name(b'a'), carried };
    assert_eq!(Stated.tree_call(&make, &mut held).number, 0);
    assert_eq!(held.dir_opens.record(2), WRITER);
}

#[test]
fn no_readers_and_no_writer() {
    let mut lent = with_dir(tables(4, 2), 1, b'a');
    let (kind, inode) = (Kind::Dir, 2);
    // A second writer.
    lent.dir_opens.put(2, WRITER);
    assert_eq!(tree_number(TreeCall::Open { kind, inode, want: 1 }, &lent), 12);
    // Delete and rename by a reader; a writer's close where a reader holds it.
    let mut read = lent.clone();
    read.dir_opens.put(2, 1);
    let rename = TreeCall::Rename { kind, inode, parent: 1, name: name(b'c') };
    assert_eq!(tree_number(TreeCall::Delete { kind, inode }, &read), 16);
    assert_eq!(tree_number(rename.clone(), &read), 16);
    assert_eq!(tree_number(TreeCall::Close { kind, inode, want: 1 }, &read), 16);
    // A rename while others read, which both allow.
    let mut shared = lent.clone();
    shared.dir_opens.put(2, WRITER + 2);
    assert_eq!(tree_number(rename, &shared), 0);
    if original::PRESENT {
        let mut original = beside(&lent);
        original.open_dir(2);
        assert_eq!(original.dir_opens(2), 2);
        let mut original = beside(&read);
        assert_eq!(original.rename_dir(2, 1, name(b'c')), Ok(()));
        assert_eq!(original.delete_dir(2), Ok(()));
        let mut original = beside(&shared);
        assert_eq!(original.rename_dir(2, 1, name(b'c')), Ok(()));
    }
}

#[test]
fn no_limit_of_opens() {
    let mut lent = tables(2, 1);
    lent.dir_opens.put(1, 65_535);
    for want in [0, 1] {
        assert_eq!(tree_number(TreeCall::Open { kind: Kind::Dir, inode: 1, want }, &lent), 17);
    }
    if original::PRESENT {
        let mut original = beside(&lent);
        original.open_dir(1);
        assert_eq!(original.dir_opens(1), 65_536);
    }
}

#[test]
fn no_list_of_opens_that_fills() {
    let mut lent = with_dir(tables(3, 1), 1, b'a');
    lent.dir_opens = Packed::none(3);
    lent.dir_opens.put(2, 1);
    assert_eq!(tree_number(TreeCall::Open { kind: Kind::Dir, inode: 1, want: 0 }, &lent), 17);
    assert_eq!(tree_number(TreeCall::Open { kind: Kind::Dir, inode: 2, want: 0 }, &lent), 0);
    if original::PRESENT {
        let mut original = beside(&lent);
        original.open_dir(1);
        assert_eq!((original.dir_opens(1), original.dir_opens(2)), (1, 1));
    }
}

#[test]
fn links_overwritten_by_carried_bytes() {
    let mut lent = tables(2, 3);
    for letter in [b'a', b'b'] {
        let call = TreeCall::Make { kind: Kind::File, parent: 1, name: name(letter), carried: [0; 20] };
        assert_eq!(Stated.tree_call(&call, &mut lent).number, 0);
    }
    let mut ours = lent.clone();
    let call = TreeCall::SetCarried { kind: Kind::File, inode: 2, carried: [5; 20] };
    assert_eq!(Stated.tree_call(&call, &mut ours).number, 0);
    assert_eq!(word(&ours.file_table, 2 * 48 + 20), 1);
    if original::PRESENT {
        let original = beside(&lent);
        assert_eq!(original.set_info_file(2, 0, [5; 20]), Ok(()));
        assert_eq!(original.list_files(1), Ok(vec![(name(b'b'), 2)]));
    }
}

#[test]
fn sizes_of_trees() {
    let lent = |hash: usize, dirs: usize| Tree {
        dir_hash: vec![0; hash],
        dir_table: vec![0; 40 * dirs],
        file_hash: vec![0; 4],
        file_table: vec![0; 48],
        ..Tree::default()
    };
    let format = |dir_max: usize| TreeCall::Format { dir_max, file_max: 1 };
    let original = |t: &Tree, dir_max: usize| Tables::format(t.four(), dir_max, 1);
    // No buckets.
    let none = lent(0, 2);
    assert_eq!(tree_number(format(2), &none), 1);
    // A hash of an odd length.
    let odd = lent(5, 2);
    assert_eq!(tree_number(format(2), &odd), 1);
    // A maximum without room for the root, and one that the table can't hold.
    let small = lent(4, 2);
    assert_eq!(tree_number(format(1), &small), 2);
    assert_eq!(tree_number(format(3), &small), 1);
    if original::PRESENT {
        assert!(panics(|| original(&none, 2)));
        let (answer, bytes) = original(&odd, 2);
        assert_eq!(answer, Err(1));
        assert_ne!(bytes[1], odd.dir_table, "bytes changed although refused");
        let (answer, bytes) = original(&small, 1);
        assert_eq!(answer, Err(6));
        assert_ne!(bytes[1], small.dir_table, "bytes changed although refused");
        assert_eq!(original(&small, 3).0, Ok(()));
    }
}

#[test]
fn block_lengths_that_are_not_in_use() {
    for block_len in [1, 511, 513, 4_095, 4_097, 65_536] {
        let lent = Blocks { data: vec![0; block_len], block_len, ..volume(&[(0, 1), (F, 0)]) };
        assert_eq!(block_number(BlockCall::Create { count: 1 }, &lent), 20);
        assert_eq!(block_number(BlockCall::Test, &lent), 0);
        if original::PRESENT {
            assert_eq!(opened(&lent).create(1), Ok(0));
        }
    }
}
