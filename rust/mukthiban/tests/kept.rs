//! Tables whose files are written by what each call tells: a copy that is written so stays the same, and a call that is
//! taken back leaves nothing behind.

use mukthiban::{BlockTable, EntryTables, Kind, Part, Refusal, Shape, Volume, Want, ROOT};

/// Numbers that repeat.
struct Numbers(u64);

impl Numbers {
    fn below(&mut self, bound: usize) -> usize {
        self.0 = self.0.wrapping_mul(0x5851_F42D_4C95_7F2D).wrapping_add(0x1405_7B7E_F767_814F);
        (self.0 >> 33) as usize % bound
    }
}

fn volume(blocks: usize, entries: usize, buckets: usize) -> Volume {
    Volume::new(Shape { blocks, block_len: 512, dir_max: entries, file_max: entries, buckets }).unwrap()
}

/// A call on a block table; which one and on which file the numbers say.
fn any_block_call(table: &mut BlockTable, firsts: &mut Vec<usize>, numbers: &mut Numbers) -> Result<(), Refusal> {
    let (count, at) = (numbers.below(9), numbers.below(firsts.len().max(1)));
    match (numbers.below(3), firsts.get(at).copied()) {
        (1, Some(first)) => table.resize(first, count),
        (2, Some(first)) => {
            table.delete(first)?;
            firsts.retain(|&other| other != first);
            Ok(())
        }
        _ => {
            firsts.push(table.create(count)?);
            Ok(())
        }
    }
}

#[test]
fn blocks() {
    for seed in 0..300 {
        let mut numbers = Numbers(seed);
        let mut file = volume(1 + numbers.below(40), 2, 1).into_parts().fat;
        let mut table = BlockTable::open(file.clone(), 512).unwrap();
        let mut firsts = vec![];
        for _ in 0..60 {
            let (before, free) = (table.clone(), table.free());
            let had = firsts.clone();
            let answer = any_block_call(&mut table, &mut firsts, &mut numbers);
            assert!(answer.is_ok() || table.changed().is_empty());
            if numbers.below(4) == 0 {
                table.undo();
                firsts = had;
                assert_eq!((table.bytes(), table.free()), (before.bytes(), free));
                assert!(firsts.iter().all(|&first| table.block_count(first) == before.block_count(first)));
                table.undo();
            }
            for &entry in table.changed() {
                let stretch = entry * 8..entry * 8 + 8;
                assert_ne!(file[stretch.clone()], table.bytes()[stretch.clone()]);
                file[stretch.clone()].copy_from_slice(&table.bytes()[stretch]);
            }
            assert!(file == table.bytes());
        }
        for &first in &firsts {
            let list = table.open_list(first).unwrap();
            for known in 0..=list.len() {
                let mut again = list[..known].to_vec();
                table.complete(first, &mut again).unwrap();
                assert_eq!(again, list);
            }
        }
        let again = BlockTable::open(file, 512).unwrap();
        assert_eq!(again.free(), table.free());
    }
}

#[test]
fn blocks_refused() {
    assert_eq!(BlockTable::open(vec![0; 12], 512).unwrap_err(), Refusal::SizeMismatch);
    assert_eq!(BlockTable::open(vec![0; 8], 512).unwrap_err(), Refusal::InvalidValue);
    assert_eq!(BlockTable::open(vec![0; 16], 512).unwrap_err(), Refusal::BrokenFat);
    for block_len in [0, 65_537] {
        let opened = BlockTable::open(volume(4, 2, 1).into_parts().fat, block_len);
        assert_eq!(opened.unwrap_err(), Refusal::InvalidValue);
    }
    let mut table = BlockTable::open(volume(4, 2, 1).into_parts().fat, 512).unwrap();
    assert_eq!(table.create(5), Err(Refusal::NoSpace));
    let mut odd = BlockTable::open(table.bytes().to_vec(), 511).unwrap();
    assert_eq!(odd.create(1), Err(Refusal::ReadOnlyVolume));
    assert_eq!(table.resize(0, 1), Err(Refusal::NotAFile));
    assert_eq!(table.delete(0), Err(Refusal::NotAFile));
    assert_eq!(table.open_list(0), Err(Refusal::NotAFile));
    assert_eq!(table.complete(0, &mut vec![]), Err(Refusal::NotAFile));
}

fn any_tree_call(tables: &mut EntryTables, numbers: &mut Numbers) -> Result<(), Refusal> {
    let kind = [Kind::Dir, Kind::File][numbers.below(2)];
    let mut name = [0; 16];
    name[0] = b'a' + numbers.below(6) as u8;
    let (parent, inode) = (numbers.below(9) as u32, numbers.below(9) as u32);
    match (numbers.below(6), kind) {
        (0 | 1, Kind::Dir) => tables.make_dir(parent, &name, &[3; 4]).map(|_| ()),
        (0 | 1, Kind::File) => tables.make_file(parent, &name, &[5; 20]).map(|_| ()),
        (2 | 3, _) => tables.rename(kind, inode, parent, &name),
        (4, _) => tables.delete(kind, inode),
        (_, Kind::Dir) => tables.set_carried_dir(inode, &[numbers.below(256) as u8; 4]),
        (_, Kind::File) => tables.set_carried_file(inode, &[numbers.below(256) as u8; 20]),
    }
}

fn four(tables: &EntryTables) -> [Vec<u8>; 4] {
    let tables = tables.tables();
    [tables.dir_hash, tables.dir_table, tables.file_hash, tables.file_table].map(<[u8]>::to_vec)
}

fn opened([dir_hash, dir_table, file_hash, file_table]: [Vec<u8>; 4]) -> Result<EntryTables, Refusal> {
    EntryTables::open(dir_hash, dir_table, file_hash, file_table)
}

/// All opens there are, of eight inodes of each kind.
fn opens(tables: &EntryTables) -> Vec<usize> {
    [Kind::Dir, Kind::File].iter().flat_map(|&kind| (0..9).map(move |x| tables.opens(kind, x))).collect()
}

#[test]
fn entries() {
    for seed in 0..300 {
        let mut numbers = Numbers(seed);
        let parts = volume(1, 2 + numbers.below(8), 1 + numbers.below(4)).into_parts();
        let mut files = [parts.dir_hash, parts.dir_table, parts.file_hash, parts.file_table];
        let mut tables = opened(files.clone()).unwrap();
        tables.open_inode(Kind::Dir, ROOT, Want::Writer).unwrap();
        for _ in 0..80 {
            let (before, held) = (four(&tables), opens(&tables));
            let answer = any_tree_call(&mut tables, &mut numbers);
            assert!(answer.is_ok() || (tables.changed().is_empty() && opens(&tables) == held));
            if numbers.below(4) == 0 {
                tables.undo();
                assert!(four(&tables) == before && opens(&tables) == held);
            }
            for &change in tables.changed() {
                let file = [Part::DirHash, Part::DirTable, Part::FileHash, Part::FileTable];
                let file = &mut files[file.iter().position(|&part| part == change.part).unwrap()];
                assert_ne!(file[change.at..change.at + change.len], *tables.bytes(change));
                file[change.at..change.at + change.len].copy_from_slice(tables.bytes(change));
            }
            assert!(files == four(&tables));
        }
        assert!(opened(files).is_ok());
    }
}

#[test]
fn entries_refused() {
    let parts = volume(1, 4, 1).into_parts();
    let files = [parts.dir_hash, parts.dir_table, parts.file_hash, parts.file_table];
    let mut broken = files.clone();
    broken[0][0] = 9;
    assert_eq!(opened(broken).unwrap_err(), Refusal::BrokenTree);
    let mut short = files.clone();
    short[0].clear();
    assert_eq!(opened(short).unwrap_err(), Refusal::SizeMismatch);
    let mut tables = opened(files).unwrap();
    assert_eq!(tables.entry(Kind::Dir, 3).map(<[u8]>::len), Some(40));
    assert_eq!(tables.entry(Kind::File, 4), None);
    assert_eq!(tables.open_inode(Kind::File, u32::MAX, Want::Reader), Err(Refusal::NotFound));
    assert_eq!(tables.close_inode(Kind::Dir, ROOT, Want::Writer), Err(Refusal::NotOpen));
    tables.open_inode(Kind::Dir, ROOT, Want::Reader).unwrap();
    tables.open_inode(Kind::Dir, ROOT, Want::Writer).unwrap();
    assert_eq!(tables.open_inode(Kind::Dir, ROOT, Want::Writer), Err(Refusal::Busy));
    assert_eq!(tables.opens(Kind::Dir, ROOT), 2);
    assert_eq!(tables.delete(Kind::Dir, u32::MAX), Err(Refusal::NotFound));
    assert_eq!(tables.rename(Kind::File, 0, 1, b"a\0\0\0\0\0\0\0\0\0\0\0\0\0\0\0"), Err(Refusal::NotFound));
    assert_eq!(tables.opens(Kind::File, u32::MAX), 0);
}
