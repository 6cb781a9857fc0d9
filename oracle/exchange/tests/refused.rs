//! What the modules of `rust/save3ds` refuse, by the smallest inputs: where they differ from the original, as docs/SAVE3DS.md lists. Where its source is not at
//! hand they can't be compiled, and nothing is run.

use exchanged_all::{Tables, Volume, PRESENT};
use rules::put_word;

const F: u32 = 0x8000_0000;

/// A table whose entries are given from entry 0 on.
fn table(entries: &[(u32, u32)]) -> Vec<u8> {
    let mut table = vec![0; 8 * entries.len()];
    for (e, (u, v)) in entries.iter().enumerate() {
        put_word(&mut table, e * 8, *u);
        put_word(&mut table, e * 8 + 4, *v);
    }
    table
}

fn opened(entries: &[(u32, u32)]) -> Result<Volume, u32> {
    Volume::open(&table(entries), &vec![0; (entries.len() - 1) * 512], 512)
}

fn name(letter: u8) -> [u8; 16] {
    let mut name = [0; 16];
    name[0] = letter;
    name
}

/// Formatted tables of four entries each.
fn tables() -> Tables {
    let (answer, four) = Tables::format([&[0; 12], &[0; 160], &[0; 12], &[0; 192]], 4, 4);
    assert_eq!(answer, Ok(()));
    Tables::open(four.each_ref().map(|bytes| &bytes[..])).unwrap()
}

#[test]
fn broken_tables_when_opened() {
    if !PRESENT {
        return;
    }
    let broken: [&[(u32, u32)]; 4] = [
        &[(0, 0), (2, 2), (1, 1)],
        &[(0, 0), (F, 0), (7, 7)],
        &[(0, 0), (F, 3), (F, 3), (1, 0)],
        &[(0, 0), (F, 0), (F | 3, 2), (F, F), (F | 3, 2)],
    ];
    for entries in broken {
        assert_eq!(opened(entries).err(), Some(4));
    }
    assert_eq!(opened(&[(0, 0)]).err(), Some(2));
    assert_eq!(Volume::open(&[0; 7], &[], 512).err(), Some(1));
    assert_eq!(Volume::open(&table(&[(0, 0), (F, 0)]), &[0; 511], 512).err(), Some(1));
    assert_eq!(Volume::open(&table(&[(0, 0), (F, 0)]), &[], 0).err(), Some(2));
    assert_eq!(Volume::format(&mut [0; 20]), Err(1));
    assert_eq!(Volume::format(&mut [0; 8]), Err(2));

    for (hash, dir_max, number) in [(0, 2, 1), (5, 2, 1), (4, 1, 2), (4, 5, 1)] {
        let before = [vec![7; hash], vec![7; 160], vec![7; 4], vec![7; 48]];
        let (answer, four) = Tables::format(before.each_ref().map(|bytes| &bytes[..]), dir_max, 1);
        assert_eq!((answer, four), (Err(number), before));
    }
    let mut four = tables().four();
    four[0][0] = 9;
    assert_eq!(Tables::open(four.each_ref().map(|bytes| &bytes[..])).err(), Some(2));
    four[0].clear();
    assert_eq!(Tables::open(four.each_ref().map(|bytes| &bytes[..])).err(), Some(1));
}

#[test]
fn blocks_that_begin_no_file() {
    if !PRESENT {
        return;
    }
    let mut volume = opened(&[(0, 1), (F, 0)]).unwrap();
    assert_eq!(volume.list(0), Err(4));
    assert_eq!(volume.delete(0), Err(4));
    assert_eq!(volume.list(usize::MAX), Err(4));
    let mut volume = opened(&[(0, 0), (F, 0)]).unwrap();
    assert_eq!(volume.read(0, usize::MAX, &mut [0]), Err(7));
}

#[test]
fn a_second_handle() {
    if !PRESENT {
        return;
    }
    let mut volume = opened(&[(0, 1), (F, F), (F | 1, 6), (0, 0), (0, 0), (0, 0), (F | 1, 6)]).unwrap();
    let first = volume.create(1).unwrap();
    volume.create(1).unwrap();
    // The kept handle's list is old then; its next resize reads it anew.
    volume.resize_apart(first, 3).unwrap();
    assert_eq!(volume.list(first), Ok(vec![0]));
    volume.resize(first, 2).unwrap();
    assert_eq!(volume.list(first), Ok(vec![0, 2]));
    assert_eq!(volume.fresh_list(first), Ok(vec![0, 2]));
    assert_eq!(volume.free(), 3);
    // As many blocks as it knows of, and others: block 2 goes to another file in between.
    volume.resize_apart(first, 1).unwrap();
    volume.create(1).unwrap();
    volume.resize_apart(first, 2).unwrap();
    volume.resize(first, 3).unwrap();
    assert_eq!(volume.list(first), Ok(vec![0, 3, 4]));
}

#[test]
fn renames_that_change_nothing() {
    if !PRESENT {
        return;
    }
    let mut tables = tables();
    tables.open_dir(1);
    assert_eq!(tables.make_dir(1, name(b'a'), [0; 4]), Ok(2));
    assert_eq!(tables.make_dir(2, name(b'b'), [0; 4]), Ok(3));
    let before = tables.four();
    let mut behind = name(b'a');
    behind[2] = b'x';
    for (inode, parent, name, number) in [
        (3, 1, name(b'a'), 11),
        (2, 2, name(b'c'), 2),
        (2, 3, name(b'c'), 2),
        (1, 1, name(b'c'), 13),
        (3, 1, [0; 16], 2),
        (3, 1, behind, 2),
    ] {
        assert_eq!(tables.rename_dir(inode, parent, name), Err(number));
        assert!(tables.holds(before.each_ref().map(|bytes| &bytes[..])));
    }
    assert_eq!(tables.make_file(1, [0; 16], [0; 20]), Err(2));
    assert_eq!(tables.make_file(1, behind, [0; 20]), Err(2));
    assert_eq!(tables.make_file(1, [b'z'; 16], [0; 20]), Ok(1));
}

#[test]
fn dead_inodes() {
    if !PRESENT {
        return;
    }
    let mut tables = tables();
    for inode in [0, 2, 4, u32::MAX] {
        assert_eq!(tables.try_open_dir(inode), Err(10));
        assert_eq!(tables.try_open_file(inode), Err(10));
        assert_eq!(tables.list_dirs(inode), Err(10));
        assert_eq!(tables.make_dir(inode, name(b'a'), [0; 4]), Err(10));
    }
}

#[test]
fn more_opens_than_there_may_be() {
    if !PRESENT {
        return;
    }
    let mut tables = tables();
    (0..65_535).for_each(|_| tables.open_dir(1));
    assert_eq!(tables.try_open_dir(1), Err(12));
    tables.close_dir(1);
    assert_eq!(tables.try_open_dir(1), Ok(()));
    tables.drop_handles();
    assert_eq!(tables.dir_opens(1), 0);
}

#[test]
fn links_stay() {
    if !PRESENT {
        return;
    }
    let mut tables = tables();
    tables.make_file(1, name(b'a'), [0; 20]).unwrap();
    tables.make_file(1, name(b'b'), [0; 20]).unwrap();
    tables.set_info_file(2, 0, [5; 20]).unwrap();
    assert_eq!(tables.list_files(1), Ok(vec![(name(b'b'), 2), (name(b'a'), 1)]));
    assert_eq!(tables.carried_file(2), Ok([5; 20]));
}

#[test]
fn deletes_that_are_refused() {
    if !PRESENT {
        return;
    }
    let mut tables = tables();
    assert_eq!(tables.make_dir(1, name(b'a'), [0; 4]), Ok(2));
    tables.make_file(2, name(b'f'), [0; 20]).unwrap();
    tables.open_dir(2);
    assert_eq!(tables.delete_dir(2), Err(12));
    // Its handle is used up, as the original's is: one is left, and the directory is not empty.
    assert_eq!(tables.dir_opens(2), 1);
    assert_eq!(tables.delete_dir(2), Err(14));
    tables.open_dir(1);
    assert_eq!(tables.delete_dir(1), Err(13));
    assert_eq!((tables.dir_opens(1), tables.dir_opens(2)), (0, 0));
    assert_eq!(tables.delete_file(1), Ok(()));
    // Any handle renames, and the only one that is left deletes: here the second of two.
    tables.open_dir(2);
    tables.open_dir(2);
    assert_eq!(tables.rename_dir(2, 1, name(b'c')), Ok(()));
    tables.close_dir(2);
    assert_eq!(tables.rename_dir(2, 1, name(b'd')), Ok(()));
    assert_eq!(tables.delete_dir(2), Ok(()));
}
