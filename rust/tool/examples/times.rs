//! The times of docs/BENCHMARKS.md's table of the tool: three volumes of 1,000,000 blocks are made in a folder, and the
//! commands are run on them. `cargo build --release`, then `cargo run --release --example times -- FOLDER`.

use mukthiban::{folder, Record, Shape, Volume, Want, ROOT};
use std::path::{Path, PathBuf};
use std::process::{Command, Stdio};
use std::time::Instant;

const BLOCKS: usize = 1_000_000;

fn name(i: usize) -> [u8; 16] {
    let mut name = [0; 16];
    let text = format!("save{i}.dat");
    name[..text.len()].copy_from_slice(text.as_bytes());
    name
}

fn add(volume: &mut Volume, i: usize, first_block: usize, blocks: usize) {
    let mut carried = [0; 20];
    Record { first_block: first_block as u32, size: blocks as u64 * 512 - 5 }.put(&mut carried);
    let inode = volume.make_file(ROOT, &name(i), &carried).expect("room");
    volume.close_file(inode, Want::Writer).expect("held");
}

/// So many files of so many blocks, one after another.
fn fresh(files: usize, blocks: usize) -> Volume {
    let shape = Shape { blocks: BLOCKS, block_len: 512, dir_max: 66, file_max: files + 1, buckets: 65_521 };
    let mut volume = Volume::new(shape).expect("a shape");
    for i in 0..files {
        let first = volume.create(blocks).expect("room");
        add(&mut volume, i, first, blocks);
    }
    volume
}

/// Eight files of 100,000 single blocks in any order, and as many free ones as are left.
fn worn() -> Volume {
    let mut order: Vec<u32> = (0..BLOCKS as u32).collect();
    let mut seed = 1u64;
    for i in (1..order.len()).rev() {
        seed = seed.wrapping_mul(6_364_136_223_846_793_005).wrapping_add(1_442_695_040_888_963_407);
        order.swap(i, (seed >> 33) as usize % (i + 1));
    }
    let shape = Shape { blocks: BLOCKS, block_len: 512, dir_max: 66, file_max: 257, buckets: 257 };
    let mut parts = Volume::new(shape).expect("a shape").into_parts();
    let chains: Vec<&[u32]> = order[..800_000].chunks(100_000).chain([&order[800_000..]]).collect();
    for chain in &chains {
        for (i, &b) in chain.iter().enumerate() {
            let before = if i == 0 { 0x8000_0000 } else { chain[i - 1] + 1 };
            let after = chain.get(i + 1).map_or(0, |n| n + 1);
            let at = (b as usize + 1) * 8;
            parts.fat[at..at + 4].copy_from_slice(&before.to_le_bytes());
            parts.fat[at + 4..at + 8].copy_from_slice(&after.to_le_bytes());
        }
    }
    parts.fat[..4].fill(0);
    parts.fat[4..8].copy_from_slice(&(order[800_000] + 1).to_le_bytes());
    let mut volume = Volume::open(parts).expect("a sound table");
    for (i, chain) in chains[..8].iter().enumerate() {
        add(&mut volume, i, chain[0] as usize, 100_000);
    }
    volume
}

/// The best of so many runs, in seconds.
fn time(tool: &Path, place: &Path, words: &[&str], runs: usize) -> f64 {
    let mut best = f64::MAX;
    for _ in 0..runs {
        let _ = std::fs::remove_dir_all(place.join("out"));
        let begin = Instant::now();
        let status = Command::new(tool).args(words).current_dir(place).stdout(Stdio::null()).status();
        assert!(status.expect("the tool starts").success(), "{words:?}");
        best = best.min(begin.elapsed().as_secs_f64());
    }
    best
}

fn main() {
    let place = PathBuf::from(std::env::args_os().nth(1).expect("a folder to work in"));
    let here = std::env::current_exe().expect("a path");
    let tool = here.parent().and_then(Path::parent).expect("examples/").join("mukthiban");
    std::fs::write(place.join("small"), [7; 1000]).expect("it can be written");
    println!("| volume | check | ls --all | map | lift | put |\n|---|---|---|---|---|---|");
    type Made = (&'static str, fn() -> Volume);
    let volumes: [Made; 3] =
        [("3 files", || fresh(3, 1000)), ("800,000 fragments", worn), ("65,535 files", || fresh(65_535, 15))];
    for (title, make) in volumes {
        folder::create(&place.join("v"), make().parts()).expect("a new volume");
        let best_of = |runs, words: &[&str]| format!("{:.2}", time(&tool, &place, words, runs));
        let times = [
            best_of(5, &["check", "v"]),
            best_of(5, &["ls", "--all", "v"]),
            best_of(5, &["map", "v"]),
            best_of(1, &["lift", "v", "out"]),
            best_of(5, &["put", "--replace", "v", "small", "save1.dat"]),
        ];
        println!("| {title} | {} |", times.join(" | "));
        std::fs::remove_dir_all(place.join("v")).expect("ours");
    }
    let _ = std::fs::remove_dir_all(place.join("out"));
}
