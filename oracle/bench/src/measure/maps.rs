//! The free map: the stretch query beside a plain loop over count_ones, and a create with a map beside one without.

use super::jobs::job;
use super::{commas, digest, Side};
use crate::report::Report;
use crate::shapes::blocks::{volume, Shape};
use mukthiban_ffi::tested::mukthiban_tested_map_create;
use port::{count_library, BlockCall, Blocks, Inner, Library, MapCall, Mapped, Port};
use std::cell::RefCell;

/// The set bits of the blocks from a up to and without b, of whole words but for the first and the last.
fn plain(words: &[u32], a: usize, b: usize) -> u64 {
    let below = |bits: usize| (1u64 << bits) as u32 - 1;
    let (i, j) = (a / 32, b / 32);
    if i == j {
        return ((words[i] & below(b % 32)) >> (a % 32)).count_ones().into();
    }
    let middle: u32 = words[i + 1..j].iter().map(|word| word.count_ones()).sum();
    let last = if b % 32 == 0 { 0 } else { (words[j] & below(b % 32)).count_ones() };
    ((words[i] >> (a % 32)).count_ones() + middle + last).into()
}

/// A side that changes nothing.
fn query<'a>(name: &'static str, run: impl Fn() -> u64 + 'a) -> Side<'a> {
    Side {
        name,
        spoil: Box::new(|| {}),
        ready: Box::new(|| {}),
        run: Box::new(move || [run(), 0, 0]),
        left: Box::new(|| 0),
        times: 64,
        apart: false,
    }
}

fn queries(report: &mut Report, n: usize) {
    let mut lent = mapped(on_zeros(Shape::Mixed, n));
    lent.library(&MapCall::Build);
    for (a, b) in [(0, n), (n / 3, n - n / 3)] {
        let what = format!("free blocks from {} to {} of {}, by the map", commas(a), commas(b), commas(n));
        let words = &lent.map;
        let sides = vec![
            query("a loop over count_ones", move || plain(words, a, b)),
            query("library", move || count_library(words, n, a, b).fields[0]),
        ];
        job(report, &what, sides);
    }
}

/// A volume of that shape whose blocks of 512 bytes are zeros that nobody touches.
fn on_zeros(shape: Shape, n: usize) -> Blocks {
    let lent = volume(shape, n, 512).lent;
    Blocks { data: vec![0; 512 * n], block_len: 512, ..lent }
}

fn mapped(lent: Blocks) -> Mapped {
    let words = (lent.table.len() / 8 - 1).div_ceil(32);
    Mapped { table: lent.table, data: lent.data, block_len: lent.block_len, work: lent.work, map: vec![0; words] }
}

/// The inner call alone, which is lent no work list.
fn inner_create(lent: &mut Mapped, count: usize) -> u32 {
    let (table, map) = (&mut lent.table, &mut lent.map);
    let n = table.len() / 8 - 1;
    // SAFETY: the table is sound, the map is the table's, and pointers and lengths are those of vectors.
    unsafe { mukthiban_tested_map_create(table.as_mut_ptr(), table.len(), n, lent.block_len, map.as_mut_ptr(), map.len(), count).answer }
}

/// A create of n / 4 blocks: without a map, then with one; by the calls that test, and by the inner ones.
fn creates(report: &mut Report, n: usize) {
    for (shape, inner) in [(Shape::Fresh, false), (Shape::Mixed, false), (Shape::Fresh, true), (Shape::Mixed, true)] {
        let lent = on_zeros(shape, n);
        let table = lent.table.clone();
        let with = RefCell::new(mapped(on_zeros(shape, n)));
        let without = RefCell::new(lent);
        with.borrow_mut().library(&MapCall::Build);
        let (map, table) = (with.borrow().map.clone(), &table);
        let count = free(&map).min(n / 4);
        let (without, with, map) = (&without, &with, &map);
        let sides = vec![
            Side {
                ready: Box::new(move || without.borrow_mut().table.copy_from_slice(table)),
                run: Box::new(move || {
                    let (call, lent) = (BlockCall::Create { count }, &mut *without.borrow_mut());
                    let told = if inner { Inner.block_call(&call, lent).expect("an inner call") } else { Library.block_call(&call, lent) };
                    [told.number.into(), 0, 0]
                }),
                left: Box::new(move || digest(&without.borrow().table)),
                times: 1,
                ..query("create without a map", || 0)
            },
            Side {
                ready: Box::new(move || {
                    let mut lent = with.borrow_mut();
                    lent.table.copy_from_slice(table);
                    lent.map.copy_from_slice(map);
                }),
                run: Box::new(move || {
                    let lent = &mut *with.borrow_mut();
                    let number = if inner { inner_create(lent, count) } else { lent.library(&MapCall::Create { count }).number };
                    [number.into(), 0, 0]
                }),
                left: Box::new(move || digest(&with.borrow().table)),
                times: 1,
                ..query("library", || 0)
            },
        ];
        let which = if inner { "create without the test" } else { "create" };
        job(report, &format!("{which} of {} blocks with a map, {} blocks, {}", commas(count), commas(n), shape.said()), sides);
    }
}

fn free(map: &[u32]) -> usize {
    map.iter().map(|word| word.count_ones() as usize).sum()
}

pub fn run(report: &mut Report, n: usize) {
    queries(report, n);
    creates(report, n);
}
