//! `status`: free blocks of the volume or of a stretch, counted in the free map, and the largest free stretch.

use crate::args::{Call, Command};
use crate::fail::{Fail, Outcome, SOUND};
use crate::session::Session;
use crate::show::json;
use crate::show::term::{columns, ink, say, Ink};
use crate::words::{count, number};
use mukthiban::Volume;

pub const COMMAND: Command = Command {
    name: "status",
    takes: "VOLUME [A B]",
    least: 1,
    most: 3,
    options: &[],
    short: "say how many blocks are free, of all or from A to B",
    long: "The free blocks from block A up to and without block B, or of the whole volume; the largest stretch of\n\
           free blocks among all; and a line of pictures: a cell is · where all its blocks are free, █ where none is.",
    run,
};

fn run(call: &Call) -> Outcome<u8> {
    let (a, b) = match call.words.len() {
        1 => (None, None),
        3 => (Some(block(call, 1)?), Some(block(call, 2)?)),
        _ => return Err(Fail::usage("status VOLUME A B: both ends of the stretch are needed")),
    };
    let session = Session::read(call.volume(0), call.wait()?)?;
    let volume = &session.volume;
    let (a, b) = (a.unwrap_or(0), b.unwrap_or(volume.blocks()));
    let free = volume.free_in(a, b).map_err(|_| {
        Fail::usage(format!(
            "from {a} to {b}: a stretch of this volume ends at {} or before",
            number(volume.blocks() as u64)
        ))
    })?;
    let path = call.volume(0).to_string_lossy();
    say(&match call.json {
        true => as_json(&path, volume, (a, b), free),
        false => as_text(&path, volume, (a, b), free),
    })?;
    Ok(SOUND)
}

/// A word as a block number, by its place.
fn block(call: &Call, place: usize) -> Outcome<usize> {
    let word = call.words[place].to_str();
    let number = word.and_then(|word| word.parse().ok());
    number.ok_or_else(|| Fail::usage(format!("{}: this is no number", call.words[place].to_string_lossy())))
}

fn as_text(path: &str, volume: &Volume, (a, b): (usize, usize), free: usize) -> String {
    let all = count((b - a) as u64, "block");
    let of = match (a, b) == (0, volume.blocks()) {
        true => String::new(),
        false => format!(" from {} to {}", number(a as u64), number(b as u64)),
    };
    let largest = match volume.largest_free() {
        Some((first, len)) => {
            format!("the largest free stretch is {} from block {}", count(len as u64, "block"), number(first as u64))
        }
        None => "no block is free".into(),
    };
    format!("{}: {} of {all}{of} free; {largest}\n{}\n", ink(Ink::Bold, path), number(free as u64), line(volume, a, b))
}

/// The stretch as one line of cells.
fn line(volume: &Volume, a: usize, b: usize) -> String {
    let wide = columns().saturating_sub(2).clamp(8, 64);
    let per = (b - a).div_ceil(wide).max(1);
    let mut cells = String::new();
    for from in (a..b).step_by(per) {
        let to = b.min(from + per);
        let free = volume.free_in(from, to).expect("a part of a stretch");
        cells.push(match free {
            0 => '█',
            _ if free == to - from => '·',
            _ => '▒',
        });
    }
    cells
}

fn as_json(path: &str, volume: &Volume, (a, b): (usize, usize), free: usize) -> String {
    let largest = volume.largest_free().map_or("null".into(), |(first, len)| format!("[{first}, {len}]"));
    let fields = [
        ("volume", json::text(path)),
        ("blocks", volume.blocks().to_string()),
        ("from", a.to_string()),
        ("to", b.to_string()),
        ("free", free.to_string()),
        ("free_in_all", volume.free().to_string()),
        ("largest_free", largest),
    ];
    json::answer("status", &fields)
}
