//! The audit over slices and of a volume: every kind of finding, and the refusals in their order.

use mukthiban::volume::{audit, Finding};
use mukthiban::{Parts, Record, Refusal, Shape, Volume, ROOT};

const SHAPE: Shape = Shape { blocks: 12, block_len: 512, dir_max: 3, file_max: 8, buckets: 3 };
const PLACES: usize = 12 + 3 + 8;

fn carried(first_block: u32, size: u64) -> [u8; 20] {
    let mut carried = [0xEE; 20];
    Record { first_block, size }.put(&mut carried);
    carried
}

/// Chains of 2, 1 and 3 blocks from 0, 2 and 3 on, and files of these records.
fn volume(records: &[(u32, u64)]) -> Volume {
    let mut volume = Volume::new(SHAPE).unwrap();
    assert_eq!([2, 1, 3].map(|count| volume.create(count).unwrap()), [0, 2, 3]);
    for (name, (first_block, size)) in (1..).zip(records) {
        volume.make_file(ROOT, &[name; 16], &carried(*first_block, *size)).unwrap();
    }
    volume
}

/// What is refused, or how many findings there are; a refusal leaves the list alone.
fn asked(p: &Parts, block_len: usize, places: usize, list: &mut [u32]) -> Result<usize, Refusal> {
    let before = list.to_vec();
    let count = audit(&p.fat, &p.data, block_len, p.tables(), &mut vec![7; places], list);
    assert!(count.is_ok() || list == before);
    count
}

#[test]
fn each_kind() {
    let (inode, first_block) = (1, 0);
    assert_eq!(volume(&[(0, 1024), (2, 512), (3, 1)]).audit(), []);
    assert_eq!(volume(&[(0, 1024), (2, 0), (3, 1)]).audit(), [Finding::Lost { first_block: 2 }]);
    let over = [Finding::Over { inode }];
    assert_eq!(volume(&[(0, 1025), (2, 1), (3, 1)]).audit(), over);
    assert_eq!(volume(&[(0, u64::MAX), (2, 1), (3, 1)]).audit(), over);
    assert_eq!(volume(&[(0, 1 << 32), (2, 1), (3, 1)]).audit(), over);
    // No first block: within a chain, the free chain's, past the end.
    for block in [1, 6, 12, u32::MAX] {
        let expected = [Finding::Astray { inode }, Finding::Lost { first_block }];
        assert_eq!(volume(&[(block, 1), (2, 1), (3, 1)]).audit(), expected);
    }
    let both = [Finding::Shared { inode: 4 }, Finding::Over { inode: 4 }, Finding::Shared { inode: 5 }];
    assert_eq!(volume(&[(0, 1), (2, 1), (3, 1), (2, 513), (0, 1)]).audit(), both);
    // What is deleted says nothing.
    let mut gone = volume(&[(0, 1), (2, 1), (3, 1), (9, 1)]);
    gone.delete_file(4).unwrap();
    assert_eq!(gone.audit(), []);
    for finding in both {
        assert_eq!(Finding::of(finding.kind(), finding.inode().unwrap()), Some(finding));
    }
    assert_eq!([Finding::of(0, 1), Finding::of(5, 1)], [None, None]);
}

#[test]
fn refusals_in_their_order() {
    let sound = volume(&[(0, 1), (0, 1025)]).into_parts();
    let mut list = [9; 8];
    assert_eq!(asked(&sound, 512, PLACES, &mut list), Ok(4));
    assert_eq!(list, [2, 2, 3, 2, 4, 2, 4, 3]);
    assert_eq!(asked(&sound, 512, PLACES, &mut list[..7]), Err(Refusal::ListTooShort));
    let mut broken = sound.clone();
    broken.file_table[0] = 200;
    assert_eq!(asked(&broken, 512, PLACES, &mut []), Err(Refusal::BrokenTree));
    broken.fat[0] = 1;
    assert_eq!(asked(&broken, 512, PLACES, &mut []), Err(Refusal::BrokenFat));
    assert_eq!(asked(&broken, 512, PLACES - 1, &mut []), Err(Refusal::WorkTooShort));
    broken.dir_hash = vec![0; 4 * 65_537];
    assert_eq!(asked(&broken, 512, 0, &mut []), Err(Refusal::InvalidValue));
    assert_eq!(asked(&broken, 511, 0, &mut []), Err(Refusal::SizeMismatch));
}
