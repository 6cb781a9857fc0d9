//! The salvage of damaged volumes: small here, large by `make salvage`.

mod corpus;

use corpus::{run, Tally, DAMAGE};
use mukthiban::salvage::{chain, chains, shared, Ends, Followed, Salvage, Way};
use mukthiban::{fat, Refusal};

/// No file is called whole that is wrong, unless its own record, its data or a directory above it was damaged; and as many
/// are right as a script gets right.
#[test]
fn a_small_corpus() {
    let mut all = Tally::default();
    for sort in 0..DAMAGE.len() {
        for seed in 0..30 {
            let tally = run(seed * 7 + sort as u64 + 1, sort);
            assert_eq!(tally.wrong, 0, "{} seed {seed}: {tally:?}", DAMAGE[sort]);
            all.add(&tally);
        }
    }
    assert!(all.files > 2_000, "{all:?}");
    assert!((all.right + all.right_marked) * 100 >= all.files * 89, "{all:?}");
    assert!(all.right + all.right_marked >= all.naive, "{all:?}");
}

/// A sound volume's files are all whole, and nothing is lost.
#[test]
fn sound_volumes_are_whole() {
    for seed in 1..20 {
        let (parts, files) = corpus::volume(&mut corpus::Rng::new(seed));
        let salvage = Salvage::of(&parts);
        assert_eq!((salvage.files.len(), salvage.whole(), salvage.lost.len()), (files.len(), files.len(), 0));
        for file in &salvage.files {
            assert_eq!(file.bytes(&parts.data, parts.block_len), files[&file.inode].bytes);
            assert_eq!(file.blocks, files[&file.inode].blocks);
        }
    }
}

/// One place damaged in a directory's key is told of every file below it, wherever anything in the four tables can tell: a file
/// is called whole at another path only where the tables are sound as they are now.
#[test]
fn one_place_in_a_directory() {
    let (mut told, mut silent) = (0, 0);
    for seed in 1..6 {
        let (sound, files) = corpus::volume(&mut corpus::Rng::new(seed));
        let dirs = u32::from_le_bytes(sound.dir_table[..4].try_into().unwrap()) as usize;
        let places = (2..dirs).flat_map(|d| (0..20).map(move |at| 40 * d + at));
        for (at, bit) in places.flat_map(|at| [0, 2, 5, 7].map(|bit| (at, bit))) {
            let mut broken = sound.clone();
            broken.dir_table[at] ^= 1 << bit;
            let salvage = Salvage::of(&broken);
            for file in &salvage.files {
                let Way::Root(way) = &file.way else { continue };
                let mut path: Vec<_> = way.iter().map(|&d| salvage.entries.dir_name(d)).collect();
                path.push(file.name);
                match (path == files[&file.inode].path, file.doubt) {
                    (true, _) => (),
                    (false, Some(_)) => told += 1,
                    (false, None) => {
                        silent += 1;
                        assert!(corpus::tree_sound(&broken), "seed {seed}, byte {at}, bit {bit}: {}", file.inode);
                    }
                }
            }
        }
    }
    assert!(told > 1_000 && silent > 0, "{told} told, {silent} not");
}

/// Every refusal of the two calls, in the order of their rows; a refusal leaves the lists alone.
#[test]
fn refusals_in_their_order() {
    let mut table = [0u8; 8 * 5];
    fat::format(&mut table).unwrap();
    let (mut work, mut list) = ([7u32; 5], [9u32; 5]);
    let (short, none) = ([0u8; 7], [0u8; 8]);
    assert_eq!(chain(&short, &mut [], 9, &mut []), Err(Refusal::SizeMismatch));
    assert_eq!(chain(&none, &mut [], 9, &mut []), Err(Refusal::InvalidValue));
    assert_eq!(chain(&table, &mut work[..3], 9, &mut []), Err(Refusal::WorkTooShort));
    assert_eq!(work, [7; 5]);
    assert_eq!(chain(&table, &mut work, 4, &mut []), Err(Refusal::NotAFile));
    assert_eq!(work, [0, 0, 0, 0, 7]);
    assert_eq!(chain(&table, &mut work, 1, &mut []), Err(Refusal::NotAFile));
    assert_eq!(chain(&table, &mut work, 0, &mut list[..3]), Err(Refusal::ListTooShort));
    assert_eq!(list, [9; 5]);
    assert_eq!(chain(&table, &mut work, 0, &mut list).map(|f| (f.count, f.ends)), Ok((4, Ends::Whole)));
    assert_eq!(list, [0, 1, 2, 3, 9]);
    let many = vec![0u32; 1_000_001];
    assert_eq!(shared(&short, &mut [], &many, &mut []), Err(Refusal::SizeMismatch));
    assert_eq!(shared(&none, &mut [], &[], &mut []), Err(Refusal::InvalidValue));
    assert_eq!(shared(&table, &mut [], &many, &mut []), Err(Refusal::InvalidValue));
    assert_eq!(shared(&table, &mut work[..3], &[0], &mut []), Err(Refusal::WorkTooShort));
    assert_eq!(shared(&table, &mut work, &[0], &mut []), Err(Refusal::ListTooShort));
    assert_eq!(shared(&table, &mut work, &[0, 1, u32::MAX], &mut list), Ok(()));
    assert_eq!((list, work), ([0, 1, 1, 3, 9], [0, 0, 0, 0, 7]));
}

/// Some chains in one call are what they are one by one, on damaged tables; and its refusals, in their order.
#[test]
fn chains_in_one_call() {
    for seed in 1..40 {
        let mut rng = corpus::Rng::new(seed);
        let (mut parts, _) = corpus::volume(&mut rng);
        corpus::damage(&mut rng, &mut parts, seed as usize % 4);
        let n = parts.blocks();
        let firsts: Vec<u32> = (0..n as u32 + 2).collect();
        let (mut work, mut one, mut list) = (vec![7; n], vec![0; n], vec![0; 5 * n]);
        let mut told = vec![[0; 3]; firsts.len()];
        let count = chains(&parts.fat, &mut work, &firsts, &mut told, &mut list).unwrap();
        let mut at = 0;
        for (&first, told) in firsts.iter().zip(&told) {
            let Some(followed) = Followed::of(told) else { panic!("not followed") };
            match chain(&parts.fat, &mut work, first as usize, &mut one) {
                Ok(single) => assert_eq!((followed, &list[at..at + told[0]]), (single, &one[..single.count])),
                Err(refusal) => assert_eq!((refusal, told[0]), (Refusal::NotAFile, 0)),
            }
            at += told[0];
        }
        assert_eq!(at, count);
        let short = &mut told[..n];
        assert_eq!(chains(&parts.fat[1..], &mut [], &firsts, short, &mut []), Err(Refusal::SizeMismatch));
        assert_eq!(chains(&parts.fat[..8], &mut [], &firsts, short, &mut []), Err(Refusal::InvalidValue));
        assert_eq!(chains(&parts.fat, &mut work[1..], &firsts, short, &mut []), Err(Refusal::WorkTooShort));
        assert_eq!(chains(&parts.fat, &mut work, &firsts, short, &mut list), Err(Refusal::ListTooShort));
        assert_eq!(
            chains(&parts.fat, &mut work, &firsts, &mut told, &mut list[..count - 1]),
            Err(Refusal::ListTooShort)
        );
        // the same blocks over and over: from over 4n on nothing is followed
        let (again, mut told) = (firsts.repeat(20), vec![[0; 3]; 20 * firsts.len()]);
        let count = chains(&parts.fat, &mut work, &again, &mut told, &mut list).unwrap();
        assert!(count <= 5 * n && told.last() == Some(&[0, 0, 9]), "{count} of {n}");
    }
}

/// Why a chain ends: each rule that can stop one, on a table of twelve blocks with a file of three and two.
#[test]
fn every_end() {
    let top = 1u32 << 31;
    let mut table = [0u8; 8 * 13];
    let put = |table: &mut [u8], e: usize, u: u32, v: u32| {
        table[8 * e..8 * e + 4].copy_from_slice(&u.to_le_bytes());
        table[8 * e + 4..8 * e + 8].copy_from_slice(&v.to_le_bytes());
    };
    for (e, u, v) in [(1, top, top + 7), (2, top + 1, 3), (3, top + 1, 3), (7, 1, top), (8, top + 7, 8)] {
        put(&mut table, e, u, v);
    }
    let ask = |table: &[u8], first: usize| {
        let (mut work, mut list) = ([0; 12], [99; 12]);
        chain(table, &mut work, first, &mut list).map(|f| (f.count, f.ends))
    };
    let broken = |entry: usize, rule: u32| Ends::Broken(fat::Fault { entry, rule });
    assert_eq!(ask(&table, 0), Ok((5, Ends::Whole)));
    assert_eq!(ask(&table, 6), Ok((0, Ends::HasPrevious)));
    assert_eq!(ask(&table, 3), Err(Refusal::NotAFile));
    let with = |e: usize, u: u32, v: u32| {
        let mut t = table;
        put(&mut t, e, u, v);
        ask(&t, 0)
    };
    assert_eq!(with(7, 4, top), Ok((3, broken(1, 7)))); // the second node names another back
    assert_eq!(with(7, 0, top), Ok((3, broken(7, 1)))); // it is none
    assert_eq!(with(8, 0, 8), Ok((3, broken(8, 3))));
    assert_eq!(with(8, top + 7, 13), Ok((3, broken(8, 4))));
    assert_eq!(with(8, top + 7, 9), Ok((3, broken(9, 5))));
    assert_eq!(with(1, top, top + 13), Ok((3, broken(1, 7)))); // a next past the blocks
    assert_eq!(with(1, top, top + 1), Ok((3, broken(1, 7)))); // a ring
    let mut inside = table;
    put(&mut inside, 1, top, top + 4);
    put(&mut inside, 2, top + 1, 8);
    put(&mut inside, 8, top + 1, 8);
    put(&mut inside, 4, 1, 0);
    assert_eq!(ask(&inside, 0), Ok((8, broken(1, 7)))); // a node inside the one before it
    put(&mut inside, 4, top, 0);
    put(&mut inside, 1, top, top);
    let (mut work, mut list) = ([0; 12], [99; 3]);
    shared(&inside, &mut work, &[0, 3, 5], &mut list).unwrap();
    assert_eq!(list, [2, 2, 1]); // a whole chain inside another, and no node
}
