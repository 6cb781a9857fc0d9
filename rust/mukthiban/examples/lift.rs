//! `lift FOLDER OUT`: tests the volume whose parts stand in a folder, and copies every file of it into a new folder.
//!
//!     cargo run --example lift -- card lifted

use mukthiban::{name, Kind, Parts, Volume};
use std::error::Error;
use std::fs;
use std::io;
use std::path::{Path, PathBuf};

fn main() -> Result<(), Box<dyn Error>> {
    let mut words = std::env::args().skip(1);
    let (folder, out) = words.next().zip(words.next()).ok_or("lift FOLDER OUT")?;
    // Refused here, with a number and its meaning, if anything about the tables is wrong.
    let volume = Volume::open(read(Path::new(&folder))?)?;
    let out = PathBuf::from(out);
    fs::create_dir(&out)?;
    // The folder of each directory that the walk is in, the root's first.
    let mut folders = vec![out];
    let mut files = 0;
    for entry in volume.walk() {
        folders.truncate(entry.depth);
        let to = folders[entry.depth - 1].join(name::shown(&entry.name).to_string());
        match entry.kind {
            Kind::Dir => {
                fs::create_dir(&to)?;
                folders.push(to);
            }
            Kind::File => {
                io::copy(&mut volume.file(entry.inode)?, &mut fs::File::create_new(&to)?)?;
                files += 1;
            }
        }
    }
    println!("lifted {files} files");
    Ok(())
}

fn read(folder: &Path) -> Result<Parts, Box<dyn Error>> {
    let part = |name: &str| fs::read(folder.join(name));
    Ok(Parts {
        block_len: fs::read_to_string(folder.join("block_len"))?.trim().parse()?,
        fat: part("fat.bin")?,
        data: part("data.bin")?,
        dir_hash: part("dir_hash.bin")?,
        dir_table: part("dir_table.bin")?,
        file_hash: part("file_hash.bin")?,
        file_table: part("file_table.bin")?,
    })
}
