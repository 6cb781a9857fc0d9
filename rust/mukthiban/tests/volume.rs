//! A `Volume`, which tests once, beside the plain calls, which test each time: the same answers and the same bytes
//! over long random histories. And the checks of RULES 8.

use mukthiban::tree::TablesMut;
use mukthiban::{fat, tree, Kind, Name, Parts, Refusal, Shape, Volume, Want, ROOT};

/// A small generator, so that a failure comes again.
struct Dice(u64);

impl Dice {
    fn below(&mut self, n: usize) -> usize {
        self.0 = self.0.wrapping_mul(6_364_136_223_846_793_005).wrapping_add(1_442_695_040_888_963_407);
        ((self.0 >> 33) % n as u64) as usize
    }
}

/// The same volume, changed by the plain calls.
struct Plain {
    parts: Parts,
    work: Vec<u32>,
    dir_opens: Vec<u32>,
    dirs_opened: usize,
    file_opens: Vec<u32>,
    files_opened: usize,
}

macro_rules! tables_mut {
    ($plain:expr) => {
        &mut TablesMut {
            dir_hash: &mut $plain.parts.dir_hash,
            dir_table: &mut $plain.parts.dir_table,
            file_hash: &mut $plain.parts.file_hash,
            file_table: &mut $plain.parts.file_table,
        }
    };
}

fn both(shape: Shape) -> (Volume, Plain) {
    let volume = Volume::new(shape).unwrap();
    let plain = Plain {
        parts: volume.parts().clone(),
        work: vec![0; shape.blocks.max(shape.dir_max + shape.file_max)],
        dir_opens: vec![0; 2 * shape.dir_max],
        dirs_opened: 0,
        file_opens: vec![0; 2 * shape.file_max],
        files_opened: 0,
    };
    (volume, plain)
}

/// A position near a block's border, and a length up to three blocks.
fn span(dice: &mut Dice, n: usize, block_len: usize) -> (usize, usize) {
    let pos = (dice.below(n + 1) * block_len + dice.below(5)).saturating_sub(2);
    (pos, [dice.below(6), dice.below(3) * block_len + dice.below(3)][dice.below(2)])
}

#[test]
fn block_calls_agree() {
    for seed in 0..60 {
        let mut dice = Dice(seed);
        let n = 1 + dice.below(24);
        let block_len = [512, 4_096][dice.below(2)];
        let (mut volume, mut plain) = both(Shape { blocks: n, block_len, dir_max: 2, file_max: 1, buckets: 1 });
        for _ in 0..120 {
            let block = dice.below(n + 2);
            let count = dice.below(n + 2);
            let p = &mut plain.parts;
            let (w, len) = (&mut plain.work[..], p.block_len);
            match dice.below(7) {
                0 => assert_eq!(volume.create(count), fat::create(&mut p.fat, &p.data, len, w, count)),
                1 => assert_eq!(volume.resize(block, count), fat::resize(&mut p.fat, &p.data, len, w, block, count)),
                2 => assert_eq!(volume.delete(block), fat::delete(&mut p.fat, &p.data, len, w, block)),
                3 => {
                    let mut list = vec![9; n];
                    let count = fat::open_list(&p.fat, &p.data, len, w, block, &mut list);
                    assert_eq!(volume.open_list(block), count.map(|c| list[..c].to_vec()));
                }
                4 => {
                    let (pos, count) = span(&mut dice, n, block_len);
                    let (mut a, mut b) = (vec![1; count], vec![1; count]);
                    assert_eq!(volume.read(block, pos, &mut a), fat::read(&p.fat, &p.data, len, w, block, pos, &mut b));
                    assert_eq!(a, b);
                }
                5 => {
                    assert_eq!(volume.merge(), Ok(()));
                    assert_eq!(fat::merge(&mut p.fat, len, w), Ok(()));
                    let nodes = volume.free_nodes();
                    assert!(nodes.windows(2).all(|two| two[0].0 + two[0].1 < two[1].0), "{nodes:?}");
                }
                _ => {
                    let (pos, count) = span(&mut dice, n, block_len);
                    let bytes: Vec<u8> = (0..count).map(|_| dice.below(256) as u8).collect();
                    assert_eq!(
                        volume.write(block, pos, &bytes),
                        fat::write(&p.fat, &mut p.data, len, w, block, pos, &bytes)
                    );
                }
            }
            assert_eq!(volume.parts(), &plain.parts);
            let tested = fat::test(&plain.parts.fat, &mut plain.work).unwrap();
            assert_eq!((volume.free(), volume.files()), (tested.free, tested.files));
            assert!(plain.work[..n].iter().all(|&w| w == 0));
        }
        let again = Volume::open(volume.parts().clone()).unwrap();
        assert!(again.first_blocks().eq(volume.first_blocks()));
        for b in again.first_blocks() {
            assert_eq!(again.block_count(b), volume.block_count(b));
        }
    }
}

/// One letter, or sixteen of which the last differs.
fn name(dice: &mut Dice) -> Name {
    let (mut name, place) = [([0; 16], 0), ([b'z'; 16], 15)][dice.below(2)];
    name[place] = b'a' + dice.below(3) as u8;
    name
}

#[test]
fn tree_calls_agree() {
    for seed in 0..60 {
        let mut dice = Dice(seed + 1000);
        let (dir_max, file_max, buckets) = (2 + dice.below(5), 1 + dice.below(5), 1 + dice.below(4));
        let (mut v, mut p) = both(Shape { blocks: 1, block_len: 512, dir_max, file_max, buckets });
        for _ in 0..200 {
            let inode = dice.below(dir_max + 2) as u32;
            let parent = dice.below(dir_max + 1) as u32;
            let n = name(&mut dice);
            let want = [Want::Reader, Want::Writer][dice.below(2)];
            let (c4, c20) = ([dice.below(256) as u8; 4], [dice.below(256) as u8; 20]);
            let mut list = [7; 16];
            match dice.below(20) {
                0 => assert_eq!(v.lookup_dir(parent, &n), tree::lookup_dir(p.parts.tables(), &mut p.work, parent, &n)),
                1 => {
                    assert_eq!(v.lookup_file(parent, &n), tree::lookup_file(p.parts.tables(), &mut p.work, parent, &n))
                }
                2 | 3 => assert_eq!(
                    v.make_dir(parent, &n, &c4),
                    tree::make_dir(tables_mut!(p), &mut p.work, &mut p.dir_opens, &mut p.dirs_opened, parent, &n, &c4)
                ),
                4 | 5 => assert_eq!(
                    v.make_file(parent, &n, &c20),
                    tree::make_file(
                        tables_mut!(p),
                        &mut p.work,
                        &mut p.file_opens,
                        &mut p.files_opened,
                        parent,
                        &n,
                        &c20
                    )
                ),
                6 => assert_eq!(
                    v.rename_dir(inode, parent, &n),
                    tree::rename_dir(tables_mut!(p), &mut p.work, &p.dir_opens, p.dirs_opened, inode, parent, &n)
                ),
                7 => assert_eq!(
                    v.rename_file(inode, parent, &n),
                    tree::rename_file(tables_mut!(p), &mut p.work, &p.file_opens, p.files_opened, inode, parent, &n)
                ),
                8 => assert_eq!(
                    v.delete_dir(inode),
                    tree::delete_dir(tables_mut!(p), &mut p.work, &mut p.dir_opens, &mut p.dirs_opened, inode)
                ),
                9 => assert_eq!(
                    v.delete_file(inode),
                    tree::delete_file(tables_mut!(p), &mut p.work, &mut p.file_opens, &mut p.files_opened, inode)
                ),
                10 => {
                    let count = tree::list_dirs(p.parts.tables(), &mut p.work, inode, &mut list);
                    assert_eq!(v.list_dirs(inode), count.map(|c| list[..c].to_vec()));
                }
                11 => {
                    let count = tree::list_files(p.parts.tables(), &mut p.work, inode, &mut list);
                    assert_eq!(v.list_files(inode), count.map(|c| list[..c].to_vec()));
                }
                12 => assert_eq!(v.stat(), tree::stat(p.parts.tables(), &mut p.work)),
                13 => {
                    for kind in [Kind::Dir, Kind::File] {
                        assert_eq!(v.name(kind, inode), tree::name(p.parts.tables(), &mut p.work, kind, inode));
                    }
                }
                14 => {
                    assert_eq!(v.carried_dir(inode), tree::carried_dir(p.parts.tables(), &mut p.work, inode));
                    assert_eq!(v.carried_file(inode), tree::carried_file(p.parts.tables(), &mut p.work, inode));
                }
                15 => {
                    assert_eq!(
                        v.set_carried_dir(inode, &c4),
                        tree::set_carried_dir(tables_mut!(p), &mut p.work, inode, &c4)
                    );
                    assert_eq!(
                        v.set_carried_file(inode, &c20),
                        tree::set_carried_file(tables_mut!(p), &mut p.work, inode, &c20)
                    );
                }
                16 => assert_eq!(
                    v.open_dir(inode, want),
                    tree::open_dir(p.parts.tables(), &mut p.work, &mut p.dir_opens, &mut p.dirs_opened, inode, want)
                ),
                17 => assert_eq!(
                    v.open_file(inode, want),
                    tree::open_file(p.parts.tables(), &mut p.work, &mut p.file_opens, &mut p.files_opened, inode, want)
                ),
                18 => assert_eq!(
                    v.close_dir(inode, want),
                    tree::close_dir(p.parts.tables(), &mut p.work, &mut p.dir_opens, &mut p.dirs_opened, inode, want)
                ),
                _ => assert_eq!(
                    v.close_file(inode, want),
                    tree::close_file(
                        p.parts.tables(),
                        &mut p.work,
                        &mut p.file_opens,
                        &mut p.files_opened,
                        inode,
                        want
                    )
                ),
            }
            assert_eq!(v.parts(), &p.parts);
            assert_eq!(tree::test(p.parts.tables(), &mut p.work), Ok(()));
        }
    }
}

#[test]
fn long_listings() {
    let shape = Shape { blocks: 1, block_len: 512, dir_max: 2, file_max: 400, buckets: 7 };
    let mut volume = Volume::new(shape).unwrap();
    for i in 0..300u32 {
        let mut name = [0; 16];
        name[..4].copy_from_slice(format!("{i:04}").as_bytes());
        volume.make_file(ROOT, &name, &[0; 20]).unwrap();
    }
    let list = volume.list_files(ROOT).unwrap();
    assert!(list.iter().copied().eq((1..=300).rev()), "new entries come to the front");
    let stat = volume.stat().unwrap();
    assert_eq!((stat.files.total, stat.files.free), (399, 99));
}

fn entries(table: &[u8]) -> Vec<(u32, u32)> {
    let word = |b: &[u8]| u32::from_le_bytes(b.try_into().unwrap());
    table.chunks(8).map(|e| (word(&e[..4]), word(&e[4..]))).collect()
}

#[test]
fn checks_of_the_rules() {
    const F: u32 = 0x8000_0000;
    let shape = Shape { blocks: 4, block_len: 512, dir_max: 4, file_max: 1, buckets: 5 };
    let mut v = Volume::new(shape).unwrap();
    assert_eq!(entries(&v.parts().fat), [(0, 1), (F, F), (F + 1, 4), (0, 0), (F + 1, 4)]);
    assert_eq!(v.create(1), Ok(0));
    assert_eq!(entries(&v.parts().fat), [(0, 2), (F, 0), (F, F), (F + 2, 4), (F + 2, 4)]);
    assert_eq!(v.create(2), Ok(1));
    assert_eq!(entries(&v.parts().fat), [(0, 4), (F, 0), (F, F), (F + 2, 3), (F, 0)]);
    assert_eq!(v.delete(0), Ok(()));
    let now = entries(&v.parts().fat);
    assert_eq!((now[0], now[1], now[4], v.free()), ((0, 1), (F, 4), (1, 0), 2));
    assert_eq!(v.create(2), Ok(0));
    assert_eq!(v.open_list(0).unwrap(), [0, 3]);
    assert_eq!(entries(&v.parts().fat)[0], (0, 0));
    assert_eq!(v.resize(1, 1), Ok(()));
    assert_eq!(entries(&v.parts().fat), [(0, 3), (F, 4), (F, 0), (F, 0), (1, 0)]);
    assert_eq!(v.resize(1, 3), Err(Refusal::NoSpace));
    assert_eq!(v.read(1, 512, &mut []), Ok(()));
    assert_eq!(v.read(1, 512, &mut [0]), Err(Refusal::OutOfBound));
    assert_eq!(v.read(1, 513, &mut []), Err(Refusal::OutOfBound));

    let word = |t: &[u8], at: usize| u32::from_le_bytes(t[at..at + 4].try_into().unwrap());
    let hash: Vec<u32> = (0..5).map(|i| word(&v.parts().dir_hash, i * 4)).collect();
    assert_eq!(hash, [0, 0, 0, 1, 0]);
    assert_eq!((word(&v.parts().dir_table, 0), word(&v.parts().dir_table, 4)), (2, 4));
    let a = b"a\0\0\0\0\0\0\0\0\0\0\0\0\0\0\0";
    assert_eq!(v.make_dir(ROOT, a, &[0; 4]), Ok(2));
    assert_eq!(word(&v.parts().dir_hash, 12), 2);
    assert_eq!(word(&v.parts().dir_table, 2 * 40 + 36), 1, "its collision");
    assert_eq!(word(&v.parts().dir_table, 40 + 24), 2, "the root's sub_dir");
    assert_eq!(v.lookup_dir(ROOT, a).unwrap().compared, 1);
    assert_eq!(v.lookup_dir(0, &[0; 16]).unwrap(), tree::Found { inode: 1, compared: 2 });
    assert_eq!(v.lookup_dir(ROOT, &[9; 16]).unwrap_err().refusal, Refusal::NotFound);
    assert_eq!(v.make_file(ROOT, a, &[0; 20]), Err(Refusal::NoSpace));

    for (len, answer) in [(0, Refusal::SizeMismatch), (7, Refusal::SizeMismatch), (8, Refusal::InvalidValue)] {
        assert_eq!(fat::format(&mut vec![0; len]), Err(answer));
        assert_eq!(fat::test(&vec![0; len], &mut []), Err(answer));
    }
}

/// With a block length that is not in use every call that would change something is refused first of all, by slices and by
/// the volume, and the rest is as it was.
#[test]
fn read_only_volumes() {
    let shape = Shape { blocks: 6, block_len: 512, dir_max: 4, file_max: 4, buckets: 3 };
    let mut volume = Volume::new(shape).unwrap();
    assert!(!volume.is_read_only());
    assert_eq!([2, 3].map(|count| volume.create(count).unwrap()), [0, 2]);
    let good = volume.into_parts();
    let no = Err(Refusal::ReadOnlyVolume);
    for block_len in [1, 511, 513, 4_095, 4_097, 65_536] {
        assert_eq!(Volume::new(Shape { block_len, ..shape }).unwrap_err(), Refusal::ReadOnlyVolume);
        let parts = Parts { block_len, data: vec![7; 6 * block_len], ..good.clone() };
        let mut volume = Volume::open(parts.clone()).unwrap();
        assert!(volume.is_read_only());
        assert_eq!(volume.create(0), Err(Refusal::ReadOnlyVolume));
        assert_eq!((volume.create(9), volume.resize(0, 2)), (Err(Refusal::ReadOnlyVolume), no));
        assert_eq!((volume.resize(1, 0), volume.delete(1), volume.delete(0)), (no, no, no));
        assert_eq!((volume.write(1, 9, &[1]), volume.write(0, 0, &[]), volume.merge()), (no, no, no));
        let file = volume.make_file(ROOT, b"tree calls know.", &[0; 20]).unwrap();
        assert_eq!(volume.file_mut(file).unwrap_err(), Refusal::ReadOnlyVolume);
        assert_eq!((volume.open_list(2), volume.read(2, 0, &mut [0; 3])), (Ok(vec![2, 3, 4]), Ok(())));
        let (mut p, mut work) = (parts.clone(), [5; 6]);
        assert_eq!(fat::create(&mut p.fat, &p.data, block_len, &mut work, 0), Err(Refusal::ReadOnlyVolume));
        assert_eq!(work, [0; 6]);
        assert_eq!(fat::resize(&mut p.fat, &p.data, block_len, &mut work, 1, 0), no);
        assert_eq!(fat::delete(&mut p.fat, &p.data, block_len, &mut work, 1), no);
        assert_eq!(fat::write(&p.fat, &mut p.data, block_len, &mut work, 1, 9, &[]), no);
        assert_eq!(fat::write_blocks(&mut p.data, block_len, &[9], usize::MAX, &[1]), no);
        assert_eq!(fat::merge(&mut p.fat, block_len, &mut work), no);
        assert_eq!(fat::merge(&mut p.fat, block_len, &mut work[..5]), Err(Refusal::WorkTooShort));
        assert!(p == parts && volume.parts().fat == parts.fat && volume.parts().data == parts.data);
        p.fat[0] = 1;
        assert_eq!(fat::create(&mut p.fat, &p.data, block_len, &mut work, 0), Err(Refusal::BrokenFat));
        assert_eq!(fat::merge(&mut p.fat, block_len, &mut work), Err(Refusal::BrokenFat));
    }
    for block_len in [0, 65_537] {
        assert_eq!(fat::merge(&mut good.fat.clone(), block_len, &mut []), Err(Refusal::InvalidValue));
    }
}

#[test]
fn what_is_not_sound_is_not_opened() {
    let shape = Shape { blocks: 4, block_len: 512, dir_max: 4, file_max: 4, buckets: 3 };
    let good = Volume::new(shape).unwrap().into_parts();
    let refusal = |change: &dyn Fn(&mut Parts)| {
        let mut parts = good.clone();
        change(&mut parts);
        let no = Volume::open(parts.clone()).unwrap_err();
        assert_eq!(*no.parts, parts, "the parts come back as they were");
        no.refusal
    };
    assert_eq!(refusal(&|p| p.fat[0] = 1), Refusal::BrokenFat);
    assert_eq!(refusal(&|p| p.dir_table[0] = 9), Refusal::BrokenTree);
    assert_eq!(refusal(&|p| p.block_len = 513), Refusal::SizeMismatch);
    assert_eq!(refusal(&|p| p.data.truncate(2_047)), Refusal::SizeMismatch);
    assert_eq!(refusal(&|p| p.file_hash.clear()), Refusal::SizeMismatch);
    // The block table is judged first.
    assert_eq!(refusal(&|p| (p.fat[0], p.dir_table[0]) = (1, 9)), Refusal::BrokenFat);
}

#[test]
fn the_map_is_the_tables() {
    let shape = Shape { blocks: 40, block_len: 512, dir_max: 4, file_max: 4, buckets: 3 };
    let mut volume = Volume::new(shape).unwrap();
    let built = |volume: &Volume| Volume::open(volume.parts().clone()).unwrap().map().to_vec();
    let files: Vec<usize> = (0..5).map(|_| volume.create(3).unwrap()).collect();
    volume.delete(files[1]).unwrap();
    volume.delete(files[3]).unwrap();
    volume.resize(files[0], 7).unwrap();
    assert_eq!(volume.map(), built(&volume));
    let plan = volume.plan(files[0]).unwrap();
    let first = volume.make_whole(files[0], &plan).unwrap();
    assert_eq!(volume.map(), built(&volume));
    volume.merge().unwrap();
    assert_eq!(volume.map(), built(&volume));
    volume.resize(first, 9).unwrap();
    volume.delete(first).unwrap();
    assert_eq!(volume.map(), built(&volume));
}
