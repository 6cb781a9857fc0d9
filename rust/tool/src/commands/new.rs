//! `new`: an empty volume.

use crate::args::{Call, Command};
use crate::fail::{Fail, Outcome, SOUND};
use crate::show::taken::tell_change;
use crate::words::{count, directories};
use mukthiban::fat::BLOCK_LENS;
use mukthiban::folder::{self, FolderError};
use mukthiban::{kiosk, Shape, Volume};

pub const COMMAND: Command = Command {
    name: "new",
    takes: "VOLUME",
    least: 1,
    most: 1,
    options: &[
        ("--blocks", "N", "blocks, 1 to 1,000,000"),
        ("--block-len", "N", "bytes in a block, 512 or 4,096 (usually 512)"),
        ("--dirs", "N", "room for so many directories beside the root, 0 to 65,534 (usually 64)"),
        ("--files", "N", "room for so many files, 0 to 65,535 (usually 256)"),
        ("--kiosk", "", "fit for a demo kiosk: 8,191 blocks at most; usually room for no directory and 64 files"),
        ("--buckets", "N", "hash buckets of each table, 1 to 65,536 (usually as many as suit the room for entries)"),
    ],
    short: "make an empty volume",
    long: "VOLUME must not exist.",
    run,
};

fn run(call: &Call) -> Outcome<u8> {
    let path = call.volume(0);
    // entry 0 and the root are counted by the tables, not by people
    let kiosk = call.has("--kiosk");
    let (usual_dirs, usual_files) = if kiosk { (0, kiosk::MAX_FILES) } else { (64, 256) };
    let dirs = call.bounded("--dirs", Some(usual_dirs), 0, 65_534)?;
    let files = call.bounded("--files", Some(usual_files), 0, 65_535)?;
    let shape = Shape {
        blocks: call.bounded("--blocks", None, 1, if kiosk { kiosk::MAX_BLOCKS } else { 1_000_000 })?,
        block_len: block_len(call)?,
        dir_max: dirs + 2,
        file_max: files + 1,
        buckets: call.bounded("--buckets", Some(buckets(dirs.max(files))), 1, 65_536)?,
    };
    let bytes = shape.blocks * shape.block_len;
    if Vec::<u8>::new().try_reserve_exact(bytes).is_err() {
        return Err(Fail::failed(format!("{}: no memory for {} of data", path.display(), count(bytes as u64, "byte"))));
    }
    let volume = Volume::new(shape).map_err(|r| Fail::refused(&path.display().to_string(), r))?;
    folder::create(path, volume.parts()).map_err(|e| match e {
        FolderError::Exists(there) if there == path => {
            Fail::failed(format!("{}: it exists already; a new volume needs a new name", path.display()))
        }
        FolderError::Exists(part) => {
            Fail::failed(format!("{}: left by a `new` that was interrupted; remove it first", part.display()))
        }
        _ => Fail::folder(&e),
    })?;
    let line = format!(
        "made {}: {} of {}, room for {} and {} beside the root, {}\n",
        path.display(),
        count(shape.blocks as u64, "block"),
        count(shape.block_len as u64, "byte"),
        count(files as u64, "file"),
        directories(dirs as u64),
        count(shape.buckets as u64, "bucket"),
    );
    tell_change(call, "new", "made", &path.to_string_lossy(), &line)?;
    Ok(SOUND)
}

/// One of the block lengths in use: in a volume with another nothing could be put.
fn block_len(call: &Call) -> Outcome<usize> {
    match call.number("--block-len", Some(512))? {
        n if BLOCK_LENS.contains(&n) => Ok(n),
        n => Err(Fail::usage(format!("--block-len {n}: 512 or 4,096 is possible"))),
    }
}

/// Buckets for so many entries, as consoles choose them: no fewer than entries, as far as there may be so many, and
/// divided by no small prime, so that names alike spread.
fn buckets(entries: usize) -> usize {
    let spreads = |n: &usize| [2, 3, 5, 7, 11, 13, 17].iter().all(|p| !n.is_multiple_of(*p));
    match entries {
        0..3 => 3,
        3..19 => entries | 1,
        _ => (entries..=65_536).find(spreads).or_else(|| (1..=65_536).rev().find(spreads)).expect("65,531 does"),
    }
}
