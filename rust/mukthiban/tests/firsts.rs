//! Whether a block begins a file: what a volume sees by its map of first blocks is what one that is opened anew sees, after
//! every kind of call that changes the table.

use mukthiban::{BlockTable, Refusal, Shape, Volume};

/// Numbers that repeat.
struct Numbers(u64);

impl Numbers {
    fn below(&mut self, bound: usize) -> usize {
        self.0 = self.0.wrapping_mul(0x5851_F42D_4C95_7F2D).wrapping_add(0x1405_7B7E_F767_814F);
        (self.0 >> 33) as usize % bound
    }
}

/// Every block, and one past the last, is asked for its list, its bytes and a resize to what it has.
fn same_as_opened_anew(volume: &mut Volume) {
    let anew = Volume::open(volume.parts().clone()).expect("a sound volume");
    let table = BlockTable::open(volume.parts().fat.clone(), 512).expect("a sound table");
    assert!(volume.map() == anew.map(), "the free map");
    for block in 0..=volume.blocks() {
        let list = anew.open_list(block);
        assert_eq!(volume.open_list(block), list);
        assert_eq!(table.open_list(block), list);
        assert_eq!(volume.block_count(block).ok(), list.as_ref().ok().map(Vec::len));
        let none = list.as_ref().err().copied();
        assert_eq!(none, list.is_err().then_some(Refusal::NotAFile));
        assert_eq!(volume.read(block, 0, &mut [0; 3]).err(), none);
        assert_eq!(volume.write(block, 0, &[]).err(), none);
        let before = volume.parts().fat.clone();
        assert_eq!(volume.resize(block, list.map_or(1, |list| list.len())).err(), none);
        assert_eq!(volume.parts().fat, before);
    }
}

#[test]
fn a_map_that_is_kept_tells_what_one_built_anew_does() {
    let mut numbers = Numbers(14);
    for _ in 0..20 {
        let blocks = 1 + numbers.below(70);
        let mut volume = Volume::new(Shape { blocks, block_len: 512, dir_max: 2, file_max: 2, buckets: 1 }).unwrap();
        for _ in 0..40 {
            let (block, count) = (numbers.below(blocks), 1 + numbers.below(5));
            let file = volume.first_blocks().nth(numbers.below(volume.files().max(1))).unwrap_or(block);
            match numbers.below(8) {
                0..=2 => drop(volume.create(count)),
                3 | 4 => drop(volume.resize(file, count)),
                5 => drop(volume.delete(file)),
                6 => volume.merge().unwrap(),
                _ => drop(volume.plan(file).and_then(|plan| volume.make_whole(file, &plan))),
            }
            same_as_opened_anew(&mut volume);
        }
    }
}
