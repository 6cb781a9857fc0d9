//! Volumes in folders: what is saved is loaded again, and what does not fit is refused.

use mukthiban::folder::{self, Access, Data, Folder, FolderError, Written};
use mukthiban::{Shape, Volume, ROOT};
use std::fs;
use std::path::PathBuf;
use std::time::Duration;

const SHAPE: Shape = Shape { blocks: 40, block_len: 512, dir_max: 8, file_max: 8, buckets: 5 };

/// A place for a folder, cleared away in the end.
struct Place(PathBuf);

impl Place {
    fn new(name: &str) -> Place {
        let place = std::env::temp_dir().join(format!("mukthiban-folder-{}-{name}", std::process::id()));
        fs::create_dir(&place).unwrap();
        Place(place)
    }

    fn card(&self) -> PathBuf {
        self.0.join("card")
    }
}

impl Drop for Place {
    fn drop(&mut self) {
        let _ = fs::remove_dir_all(&self.0);
    }
}

#[test]
fn what_is_saved_is_loaded() {
    let place = Place::new("saved");
    let mut volume = Volume::new(SHAPE).unwrap();
    folder::create(&place.card(), volume.parts()).unwrap();
    assert_eq!(Volume::load(&place.card()).unwrap().parts(), volume.parts());
    assert!(matches!(folder::create(&place.card(), volume.parts()), Err(FolderError::Exists(_))));

    let first = volume.create(7).unwrap();
    volume.write(first, 700, b"a saved game").unwrap();
    volume.make_dir(ROOT, b"saves\0\0\0\0\0\0\0\0\0\0\0", &[1, 2, 3, 4]).unwrap();
    volume.save(&place.card()).unwrap();
    assert_eq!(Volume::load(&place.card()).unwrap().parts(), volume.parts());
    assert_eq!(fs::read_dir(place.card()).unwrap().count(), 7);
}

#[test]
fn blocks_that_are_named_are_written_and_no_others() {
    let place = Place::new("blocks");
    let volume = Volume::new(SHAPE).unwrap();
    folder::create(&place.card(), volume.parts()).unwrap();
    let open = Folder::open(&place.card(), Access::Change, Duration::ZERO).unwrap();
    open.save(volume.parts(), Written::These(&[(3, vec![7; 512]), (9, vec![8; 1024])])).unwrap();
    let data = fs::read(place.card().join("data.bin")).unwrap();
    let expected = |b: usize| [0, 7, 8][usize::from(b == 3) + 2 * usize::from(b == 9 || b == 10)];
    for (b, block) in data.chunks(512).enumerate() {
        assert!(block.iter().all(|&x| x == expected(b)), "block {b}");
    }
    // Past the last block there is nothing to write to.
    for past in [(40, vec![1]), (39, vec![1; 513])] {
        assert!(matches!(open.save(volume.parts(), Written::These(&[past])), Err(FolderError::OtherSize(_))));
    }
    assert_eq!(fs::read(place.card().join("data.bin")).unwrap(), data);
    // Some are read by themselves.
    let some = open.bytes(&[(9, 1), (3, 1), (30, 2)]).unwrap();
    assert_eq!((some.len(), &some[..11 * 512]), (data.len(), &data[..11 * 512]));
    assert_eq!(open.bytes(&[]).unwrap(), vec![0; 40 * 512]);
    assert!(matches!(open.bytes(&[(39, 2)]), Err(FolderError::OtherSize(_))));
    // The lengths are known without the bytes.
    assert_eq!(open.load(Data::Length).unwrap().data, vec![0; 40 * 512]);
    assert_eq!(open.sizes().unwrap().files[1], 40 * 512);
}

#[test]
fn what_does_not_fit_is_refused() {
    let place = Place::new("refused");
    assert!(matches!(Volume::load(&place.card()), Err(FolderError::Missing(_))));
    folder::create(&place.card(), Volume::new(SHAPE).unwrap().parts()).unwrap();
    let other = Volume::new(Shape { file_max: 9, ..SHAPE }).unwrap();
    assert!(matches!(other.save(&place.card()), Err(FolderError::OtherSize(_))));
    let other = Volume::new(Shape { block_len: 4_096, blocks: 5, ..SHAPE }).unwrap();
    assert!(matches!(other.save(&place.card()), Err(FolderError::OtherSize(_))));

    // A table of a terabyte is not read.
    let table = fs::OpenOptions::new().write(true).open(place.card().join("fat.bin")).unwrap();
    table.set_len(1 << 40).unwrap();
    assert!(matches!(Volume::load(&place.card()), Err(FolderError::TooLong(path)) if path.ends_with("fat.bin")));
    table.set_len(8).unwrap();
    assert!(matches!(Volume::load(&place.card()), Err(FolderError::NotSound(_))));
    fs::write(place.card().join("block_len"), [0xff]).unwrap();
    assert!(matches!(Volume::load(&place.card()), Err(FolderError::BlockLen(_))));
    fs::remove_file(place.card().join("block_len")).unwrap();
    assert!(matches!(Volume::load(&place.card()), Err(FolderError::Host(..))));
}

#[test]
fn a_folder_that_is_held_is_refused() {
    let place = Place::new("held");
    folder::create(&place.card(), Volume::new(SHAPE).unwrap().parts()).unwrap();
    let open = |access| Folder::open(&place.card(), access, Duration::ZERO);
    let reader = open(Access::Read).unwrap();
    assert!(open(Access::Read).is_ok());
    assert!(matches!(open(Access::Change), Err(FolderError::Locked(_))));
    drop(reader);
    let writer = open(Access::Change).unwrap();
    assert!(matches!(open(Access::Read), Err(FolderError::Locked(_))));
    drop(writer);
    assert!(open(Access::Change).is_ok());
}
