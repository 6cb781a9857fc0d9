//! Files of a volume by their handles, beside plain vectors; walks and paths; and arguments that nobody should pass.

use mukthiban::{name, Kind, Record, Refusal, Shape, Volume, ROOT};
use std::error::Error;
use std::io::{ErrorKind, Read, Seek, SeekFrom, Write};

const BLOCKS: usize = 24;

fn volume() -> Volume {
    Volume::new(Shape { blocks: BLOCKS, block_len: 512, dir_max: 6, file_max: 8, buckets: 3 }).unwrap()
}

fn made(volume: &mut Volume, parent: u32, text: &str) -> u32 {
    volume.make_file(parent, &name::from_text(text).unwrap(), &[0; 20]).unwrap()
}

/// A small generator, so that a failure comes again.
struct Dice(u64);

impl Dice {
    fn below(&mut self, n: usize) -> usize {
        self.0 = self.0.wrapping_mul(6_364_136_223_846_793_005).wrapping_add(1_442_695_040_888_963_407);
        ((self.0 >> 33) % n as u64) as usize
    }
}

fn whole(volume: &Volume, inode: u32) -> Vec<u8> {
    let mut bytes = vec![];
    volume.file(inode).unwrap().read_to_end(&mut bytes).unwrap();
    bytes
}

/// What a file's last block has behind its end.
fn behind(volume: &Volume, inode: u32) -> Vec<u8> {
    let record = volume.record(inode).unwrap();
    let mut bytes = vec![7; (record.blocks(512) * 512 - record.size) as usize];
    if record.size > 0 {
        volume.read(record.first_block as usize, record.size as usize, &mut bytes).unwrap();
    }
    bytes
}

/// The model's write: zeros up to the position, then the bytes.
fn write(model: &mut Vec<u8>, pos: usize, bytes: &[u8]) {
    if model.len() < pos + bytes.len() {
        model.resize(pos + bytes.len(), 0);
    }
    model[pos..pos + bytes.len()].copy_from_slice(bytes);
}

fn blocks_of(len: usize) -> usize {
    len.div_ceil(512)
}

#[test]
fn handles_as_vectors() {
    for seed in 0..40 {
        let mut dice = Dice(seed);
        let mut volume = volume();
        let inodes = [made(&mut volume, ROOT, "one"), made(&mut volume, ROOT, "two")];
        let mut models = [vec![], vec![]];
        for _ in 0..60 {
            let which = dice.below(2);
            let used: usize = models.iter().map(|m: &Vec<u8>| blocks_of(m.len())).sum();
            let room = BLOCKS - used + blocks_of(models[which].len());
            let model = &mut models[which];
            let mut file = volume.file_mut(inodes[which]).unwrap();
            let pos = dice.below(model.len() + 700);
            assert_eq!(file.seek(SeekFrom::Start(pos as u64)).unwrap(), pos as u64);
            if dice.below(5) == 0 {
                let size = dice.below(8) * 512 + dice.below(3);
                match file.set_len(size as u64) {
                    Ok(()) => model.resize(size, 0),
                    Err(refusal) => assert!(refusal == Refusal::NoSpace && blocks_of(size) > room),
                }
            } else {
                let len = [dice.below(9), dice.below(2_000)][dice.below(2)];
                let bytes: Vec<u8> = (0..len).map(|_| dice.below(255) as u8 + 1).collect();
                match file.write(&bytes) {
                    Ok(count) => {
                        assert_eq!(count, len);
                        if len > 0 {
                            write(model, pos, &bytes);
                        }
                        assert_eq!(file.stream_position().unwrap(), (pos + len) as u64);
                    }
                    Err(e) => assert!(e.kind() == ErrorKind::StorageFull && blocks_of(pos + len) > room),
                }
            }
            for (inode, model) in inodes.iter().zip(&models) {
                assert_eq!(&whole(&volume, *inode), model);
                assert_eq!(volume.record(*inode).unwrap().size, model.len() as u64);
            }
            let used: usize = models.iter().map(|m| blocks_of(m.len())).sum();
            assert_eq!(volume.free(), BLOCKS - used, "no block is lost");
            for inode in inodes {
                assert!(behind(&volume, inode).iter().all(|byte| *byte == 0));
            }
        }
        Volume::open(volume.into_parts()).unwrap();
    }
}

#[test]
fn reads_at_any_place() {
    let mut volume = volume();
    let (a, b) = (made(&mut volume, ROOT, "a"), made(&mut volume, ROOT, "b"));
    let bytes: Vec<u8> = (0..2_000).map(|i| (i % 251) as u8).collect();
    // In turns, so that neither file is one piece.
    for part in bytes.chunks(400) {
        for inode in [a, b] {
            let mut file = volume.file_mut(inode).unwrap();
            file.seek(SeekFrom::End(0)).unwrap();
            file.write_all(part).unwrap();
        }
    }
    let first = volume.record(a).unwrap().first_block as usize;
    assert_ne!(volume.open_list(first).unwrap(), [0, 1, 2, 3]);
    let mut file = volume.file(a).unwrap();
    assert_eq!(file.size(), 2_000);
    for (pos, len) in [(0, 2_000), (511, 2), (512, 512), (1_999, 5), (2_000, 1), (5_000, 3)] {
        let mut buf = vec![];
        file.seek(SeekFrom::Start(pos)).unwrap();
        (&mut file).take(len).read_to_end(&mut buf).unwrap();
        let at = |x: u64| (x as usize).min(bytes.len());
        assert_eq!(buf, bytes[at(pos)..at(pos + len)]);
    }
    assert_eq!(file.seek(SeekFrom::Start(u64::MAX)).unwrap(), u64::MAX);
    assert_eq!(file.read(&mut [0; 4]).unwrap(), 0);
    assert_eq!(file.seek(SeekFrom::Current(1)).unwrap_err().kind(), ErrorKind::InvalidInput);
    assert_eq!(file.seek(SeekFrom::End(-2_001)).unwrap_err().kind(), ErrorKind::InvalidInput);
    assert_eq!(file.stream_position().unwrap(), u64::MAX, "a refused seek moves nothing");
    let mut file = volume.file_mut(b).unwrap();
    file.seek(SeekFrom::Start(u64::MAX)).unwrap();
    assert_eq!(file.write(&[1]).unwrap_err().kind(), ErrorKind::StorageFull);
    assert_eq!(file.set_len(u64::MAX), Err(Refusal::NoSpace));
    assert_eq!(whole(&volume, b), bytes);
}

#[test]
fn records_that_lie() {
    let mut volume = volume();
    let inode = made(&mut volume, ROOT, "a");
    let first = volume.create(2).unwrap() as u32;
    let mut refused = |record: Record| {
        let mut carried = [0; 20];
        record.put(&mut carried);
        volume.set_carried_file(inode, &carried).unwrap();
        volume.file(inode).err()
    };
    assert_eq!(refused(Record { first_block: first, size: 1_024 }), None);
    assert_eq!(refused(Record { first_block: first, size: 1_025 }), Some(Refusal::OutOfBound));
    assert_eq!(refused(Record { first_block: first, size: u64::MAX }), Some(Refusal::OutOfBound));
    assert_eq!(refused(Record { first_block: first + 1, size: 1 }), Some(Refusal::NotAFile));
    assert_eq!(refused(Record { first_block: u32::MAX, size: 1 }), Some(Refusal::NotAFile));
    assert_eq!(refused(Record { first_block: u32::MAX, size: 0 }), None);
    assert_eq!(volume.file(7).err(), Some(Refusal::NotFound));
}

#[test]
fn walk_and_paths() {
    let mut volume = volume();
    let text = |t: &str| name::from_text(t).unwrap();
    let quest = volume.make_dir(ROOT, &text("quest"), &[0; 4]).unwrap();
    let deep = volume.make_dir(quest, &text("deep"), &[0; 4]).unwrap();
    let both = volume.make_dir(ROOT, &text("both"), &[0; 4]).unwrap();
    let file = made(&mut volume, ROOT, "both");
    let slot = made(&mut volume, deep, "slot");
    let seen: Vec<(String, usize)> = volume.walk().map(|e| (name::shown(&e.name).to_string(), e.depth)).collect();
    let wanted = [("both", 1), ("quest", 1), ("deep", 2), ("slot", 3), ("both", 1)];
    assert_eq!(seen, wanted.map(|(text, depth)| (text.to_string(), depth)));
    assert_eq!(volume.walk().count(), 5);
    for entry in volume.walk() {
        assert_eq!(
            volume
                .entries(entry.parent)
                .unwrap()
                .iter()
                .filter(|e| e.inode == entry.inode && e.kind == entry.kind)
                .count(),
            1
        );
    }
    let found = |path: &str| volume.find(path).map(|e| (e.kind, e.inode));
    assert_eq!(found("quest/deep/slot"), Ok((Kind::File, slot)));
    assert_eq!(found("//quest//deep/"), Ok((Kind::Dir, deep)));
    assert_eq!(found("both"), Ok((Kind::File, file)));
    assert_eq!(found("both/"), Ok((Kind::Dir, both)));
    assert_eq!(found("/"), Ok((Kind::Dir, ROOT)));
    for path in ["quest/slot", "both/slot", "a name that is far too long", "quest\0", "."] {
        assert_eq!(found(path), Err(Refusal::NotFound), "{path}");
    }
    assert_eq!(volume.entries(9).unwrap_err(), Refusal::NotFound);
}

#[test]
fn hostile_arguments() {
    let all = [0, 1, 2, 65_536, 65_537, 1_000_000, 1_000_001, usize::MAX / 2, usize::MAX];
    for big in all {
        for place in 0..5 {
            let mut of = [3, 512, 4, 4, 3];
            of[place] = big;
            // No 65 GB where a machine has them.
            if of[0].saturating_mul(of[1]) > 1 << 30 && of[0] <= 1_000_000 && of[1] <= 65_536 {
                continue;
            }
            let [blocks, block_len, dir_max, file_max, buckets] = of;
            let _ = Volume::new(Shape { blocks, block_len, dir_max, file_max, buckets });
        }
    }
    let mut volume = volume();
    for number in all {
        for refused in [volume.create(number).is_err(), volume.resize(number, number).is_err()] {
            assert!(refused || number <= BLOCKS);
        }
        let _ = (volume.delete(number), volume.open_list(number), volume.block_count(number));
        let _ = (volume.read(number, number, &mut [0]), volume.write(number, number, &[0]));
        let _ =
            (volume.list_dirs(number as u32), volume.carried_file(number as u32), volume.file(number as u32).is_ok());
        assert_ne!(Record { first_block: 0, size: u64::MAX }.blocks(number), 0);
    }
    Volume::open(volume.into_parts()).unwrap();
}

#[test]
fn errors_have_sources_and_debug_is_short() {
    let volume = volume();
    assert!(format!("{volume:?}").len() < 400);
    assert!(format!("{:#?}", volume.parts()).len() < 600);
    let missed = volume.lookup_file(ROOT, &[1; 16]).unwrap_err();
    assert_eq!(missed.source().unwrap().to_string(), Refusal::NotFound.to_string());
    let mut parts = volume.into_parts();
    parts.fat[0] = 1;
    let no = Volume::open(parts).unwrap_err();
    assert!(format!("{no:?}").len() < 400);
    assert_eq!(no.source().unwrap().to_string(), Refusal::BrokenFat.to_string());
    assert_eq!(Refusal::from(no), Refusal::BrokenFat);
    let error = std::io::Error::from(Refusal::BrokenTree);
    assert_eq!(error.get_ref().unwrap().to_string(), Refusal::BrokenTree.to_string());
}
