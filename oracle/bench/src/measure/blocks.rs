//! The block table's calls, in long tables.

use super::sides::{OnBlocks, OnOriginal};
use super::{pattern, race, ratio, shown, LINE};
use crate::report::Report;
use crate::shapes::blocks::{volume, Shape, SHAPES};
use port::{BlockCall, Blocks};
use std::cell::RefCell;

/// A line: the call with its test, its test alone, and its work behind the test, beside the original's own work with opening the file.
fn line(report: &mut Report, name: &str, on: &OnBlocks, theirs: Option<&OnOriginal>, call: &BlockCall) {
    let buf = RefCell::new(vec![]);
    let mut sides = vec![];
    if let Some(theirs) = theirs {
        sides.push(theirs.side("original", call, false, &buf));
    }
    sides.extend(on.peers(call));
    sides.extend([on.library(call), on.inner(call)]);
    let times = race(name, sides, LINE);
    let [walks, ends, port, own] = [4, 3, 2, 1].map(|back| times[times.len() - back]);
    let (peer, port, own) = (Some(walks.min(ends)), Some(port), Some(own));
    let original = theirs.map(|_| times[0]);
    report.row(&[name.into(), shown(original), shown(own), ratio(own, original), shown(peer), shown(port), ratio(port, peer)]);
}

/// A line of read or write: the original with its handle open, which knows the blocks, and with opening it.
fn copy_line(report: &mut Report, name: &str, on: &OnBlocks, theirs: Option<&OnOriginal>, call: &BlockCall) {
    let buf = RefCell::new(on.state.borrow().buf.clone());
    let mut sides = vec![];
    if let Some(theirs) = theirs {
        sides.push(theirs.side("original, handle open", call, true, &buf));
        sides.push(theirs.side("original with opening", call, false, &buf));
    }
    sides.extend([on.library(call), on.inner(call)]);
    let times = race(name, sides, LINE);
    let [port, own] = [2, 1].map(|back| Some(times[times.len() - back]));
    let (open, opening) = (theirs.map(|_| times[0]), theirs.map(|_| times[1]));
    report.row(&[name.into(), shown(open), shown(opening), shown(port), shown(own), ratio(own, open), ratio(own, opening)]);
}

fn tests(report: &mut Report, sizes: &[usize]) {
    report.table("Block table: the test", "", &["n", "shape", "careful", "several walks", "by ends", "library", "library / best"]);
    for n in sizes {
        for shape in SHAPES {
            let on = OnBlocks::new(volume(shape, *n, 1).lent);
            let times = race("block test", on.tests(), LINE);
            let best = times[0].min(times[1]).min(times[2]);
            let [careful, walks, ends, port] = [0, 1, 2, 3].map(|side| Some(times[side]));
            report.row(&[n.to_string(), shape.said().into(), shown(careful), shown(walks), shown(ends), shown(port), ratio(port, Some(best))]);
        }
    }
}

fn calls(report: &mut Report, n: usize, shape: Shape) {
    let volume = volume(shape, n, 512);
    let (large, small) = (volume.large, volume.small);
    let table = volume.lent.table.clone();
    let theirs = OnOriginal::new(&table, &volume.lent.data, 512);
    let on = OnBlocks::new(volume.lent);
    let each = [
        ("create 1", BlockCall::Create { count: 1 }),
        ("create n / 4", BlockCall::Create { count: n / 4 }),
        ("grow by n / 4", BlockCall::Resize { first: small, count: volume.small_blocks + n / 4 }),
        ("shrink to half", BlockCall::Resize { first: large, count: volume.large_blocks / 2 }),
        ("delete", BlockCall::Delete { first: large }),
        ("open list", BlockCall::OpenList { first: large }),
    ];
    for (name, call) in &each {
        line(report, &format!("{n}, {}: {name}", shape.said()), &on, theirs.as_ref(), call);
    }
}

fn copies(report: &mut Report, n: usize, shape: Shape, block_len: usize) {
    let volume = volume(shape, n, block_len);
    let (mut lent, first): (Blocks, usize) = (volume.lent, volume.large);
    for (i, word) in lent.data.as_chunks_mut::<8>().0.iter_mut().enumerate() {
        *word = (i as u64).wrapping_mul(0x9E37_79B9_7F4A_7C15).to_le_bytes();
    }
    lent.buf = pattern(volume.large_blocks * block_len);
    let table = lent.table.clone();
    let theirs = OnOriginal::new(&table, &lent.data, block_len);
    let on = OnBlocks::new(lent);
    for (name, call) in [("read", BlockCall::Read { first, pos: 0 }), ("write", BlockCall::Write { first, pos: 0 })] {
        let name = format!("{n}, {}: {name} {} x {block_len}", shape.said(), volume.large_blocks);
        copy_line(report, &name, &on, theirs.as_ref(), &call);
    }
}

pub fn run(report: &mut Report, quick: bool) {
    let sizes: &[usize] = if quick { &[1_024, 8_191] } else { &[1_024, 8_191, 65_536, 1_000_000] };
    tests(report, sizes);
    let about = "`own` is the library's work behind its test, the time of its inner call; the original tests no table, and opens the file within its time. \
                 Plain Rust does the whole call: the better of its tests, then one walk along the chain.";
    let columns = ["n, shape: call", "original", "own", "own / original", "plain Rust", "library", "library / plain Rust"];
    report.table("Block table: the calls", about, &columns);
    for n in sizes.iter().filter(|n| quick || **n >= 65_536) {
        for shape in SHAPES {
            calls(report, *n, shape);
        }
    }
    let columns = ["n, shape: call", "original, handle open", "original with opening", "library", "own", "own / handle open", "own / with opening"];
    report.table("Block table: read and write of one file of an eighth of the volume", "", &columns);
    for n in sizes.iter().filter(|n| quick || (8_191..=65_536).contains(*n)) {
        for shape in SHAPES {
            for block_len in [512, 4_096] {
                copies(report, *n, shape, block_len);
            }
        }
    }
}
