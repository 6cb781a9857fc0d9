//! `build FOLDER FILE..`: makes a volume with those files in its root directory, and writes its parts to a new folder.
//!
//!     cargo run --example build -- card notes.txt picture.pix

use mukthiban::{name, Parts, Shape, Volume, Want, ROOT};
use std::error::Error;
use std::fs;
use std::io::Write;
use std::path::Path;

const BLOCK_LEN: usize = 512;

fn main() -> Result<(), Box<dyn Error>> {
    let mut words = std::env::args().skip(1);
    let folder = words.next().ok_or("build FOLDER FILE..")?;
    let files: Vec<(String, Vec<u8>)> =
        words.map(|path| Ok((path.clone(), fs::read(path)?))).collect::<Result<_, std::io::Error>>()?;
    let blocks: usize = files.iter().map(|(_, bytes)| bytes.len().div_ceil(BLOCK_LEN)).sum();
    // Entry 0 of a table holds its counts, and the root is directory 1.
    let mut volume = Volume::new(Shape {
        blocks: blocks.max(1),
        block_len: BLOCK_LEN,
        dir_max: 2,
        file_max: files.len() + 1,
        buckets: files.len() / 2 + 1,
    })?;
    for (path, bytes) in &files {
        add(&mut volume, Path::new(path), bytes)?;
    }
    let free = volume.free();
    write(Path::new(&folder), volume.parts())?;
    println!("{folder}: {} files in {blocks} blocks, {free} free", files.len());
    Ok(())
}

/// A file in the root directory, under its own name.
fn add(volume: &mut Volume, path: &Path, bytes: &[u8]) -> Result<(), Box<dyn Error>> {
    let own = path.file_name().ok_or("a file has a name")?;
    let inode = volume.make_file(ROOT, &name::from_bytes(own.as_encoded_bytes())?, &[0; 20])?;
    let mut file = volume.file_mut(inode)?;
    file.set_len(bytes.len() as u64)?;
    file.write_all(bytes)?;
    // Make gave the writer's open.
    Ok(volume.close_file(inode, Want::Writer)?)
}

/// The parts as files of a folder that is not there yet.
fn write(folder: &Path, parts: &Parts) -> std::io::Result<()> {
    fs::create_dir(folder)?;
    fs::write(folder.join("block_len"), parts.block_len.to_string())?;
    for (name, bytes) in [
        ("fat.bin", &parts.fat),
        ("data.bin", &parts.data),
        ("dir_hash.bin", &parts.dir_hash),
        ("dir_table.bin", &parts.dir_table),
        ("file_hash.bin", &parts.file_hash),
        ("file_table.bin", &parts.file_table),
    ] {
        fs::write(folder.join(name), bytes)?;
    }
    Ok(())
}
