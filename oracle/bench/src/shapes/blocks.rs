//! Block tables of a size and a shape.

use compare::chance::Chance;
use port::Blocks;
use rules::blocks::{lay_out, set_node, Chain, Layout, Run};

#[derive(Clone, Copy, PartialEq, Eq, Debug)]
pub enum Shape {
    /// Few long nodes.
    Fresh,
    /// Single blocks, in any order.
    WornRandom,
    /// Single blocks, rising.
    WornRising,
    /// Runs of 1 to 16 blocks, in any order.
    Mixed,
}

impl Shape {
    /// The shape in words.
    pub fn said(self) -> &'static str {
        match self {
            Shape::Fresh => "fresh",
            Shape::WornRandom => "single blocks in any order",
            Shape::WornRising => "single blocks, rising",
            Shape::Mixed => "runs of 1 to 16 in any order",
        }
    }
}

pub const SHAPES: [Shape; 4] = [Shape::Fresh, Shape::WornRandom, Shape::WornRising, Shape::Mixed];

/// Half of the volume is free; the rest is one file of an eighth and files of 64 blocks or so.
fn layout(shape: Shape, n: usize, chance: &mut Chance) -> Layout {
    let mut runs = vec![];
    let mut start = 0;
    while start < n {
        let size = match shape {
            Shape::Fresh => 64,
            Shape::WornRandom | Shape::WornRising => 1,
            Shape::Mixed => chance.within(1, 16),
        };
        let size = size.min(n - start);
        runs.push(Run { start, size });
        start += size;
    }
    if shape == Shape::Fresh {
        let half = n / 2 / 64 * 64;
        let eighth = n / 8 / 64 * 64;
        let large = Run { start: 0, size: eighth };
        let mut files: Vec<Chain> = vec![vec![large]];
        files.extend(runs.iter().filter(|r| r.start >= eighth && r.start < half).map(|r| vec![*r]));
        let free = vec![Run { start: half, size: n - half }];
        return Layout { free, files };
    }
    if shape != Shape::WornRising {
        chance.shuffle(&mut runs);
    }
    // Dealt in turn, so that rising chains interleave.
    let (mut free, mut large, mut small): (Chain, Chain, Vec<Chain>) = (vec![], vec![], vec![]);
    let mut room = 0;
    for (i, run) in runs.into_iter().enumerate() {
        match i % 8 {
            0..=3 => free.push(run),
            4 => large.push(run),
            _ => {
                if room == 0 || room + run.size > 64 {
                    small.push(vec![]);
                    room = 0;
                }
                room += run.size;
                small.last_mut().unwrap().push(run);
            }
        }
    }
    let mut files = vec![large];
    files.extend(small);
    Layout { free, files }
}

pub struct Volume {
    pub lent: Blocks,
    /// The first block of the file of about an eighth, its blocks, and the first block of a small file.
    pub large: usize,
    pub large_blocks: usize,
    pub small: usize,
    pub small_blocks: usize,
}

/// What is lent to calls on that table. The data are zeros that nothing has touched yet.
fn lent(table: Vec<u8>, block_len: usize) -> Blocks {
    let n = table.len() / 8 - 1;
    Blocks { table, data: vec![0; n * block_len], block_len, work: vec![0; n], list: vec![0; n], buf: vec![] }
}

pub fn volume(shape: Shape, n: usize, block_len: usize) -> Volume {
    let mut chance = Chance::new(n as u64);
    let layout = layout(shape, n, &mut chance);
    let mut table = vec![0; 8 * (n + 1)];
    lay_out(&mut table, &layout);
    let small = &layout.files[layout.files.len() / 2];
    let large = &layout.files[0];
    Volume {
        large: large[0].start,
        large_blocks: rules::blocks::blocks(large),
        small: small[0].start,
        small_blocks: rules::blocks::blocks(small),
        lent: lent(table, block_len),
    }
}

/// How the single blocks of one chain follow each other.
#[derive(Clone, Copy, PartialEq, Eq)]
pub enum Order {
    Rising,
    Falling,
    Any,
}

/// Single blocks in that order, all of a volume.
fn singles(n: usize, order: Order) -> Chain {
    let mut runs: Chain = (0..n).map(|start| Run { start, size: 1 }).collect();
    match order {
        Order::Rising => {}
        Order::Falling => runs.reverse(),
        Order::Any => Chance::new(n as u64).shuffle(&mut runs),
    }
    runs
}

/// A file of the first `count` of n single blocks in that order, the rest free: the volume, and the file's first block.
pub fn singly(n: usize, count: usize, order: Order, block_len: usize) -> (Blocks, usize) {
    let mut file = singles(n, order);
    let free = file.split_off(count);
    let first = file.first().map_or(0, |run| run.start);
    let files = if count == 0 { vec![] } else { vec![file] };
    let mut table = vec![0; 8 * (n + 1)];
    lay_out(&mut table, &Layout { free, files });
    (lent(table, block_len), first)
}

/// A file of an eighth of n blocks, single and in any order among the first half, the others of which are files of a block each; the second half is free,
/// single blocks in any order: the volume, and the file's first block.
pub fn scattered(n: usize, block_len: usize) -> (Blocks, usize) {
    let mut file = singles(n / 2, Order::Any);
    let others = file.split_off(n / 8);
    let first = file[0].start;
    let files = others.into_iter().map(|run| vec![run]).chain([file]).collect();
    let free = singles(n - n / 2, Order::Any).into_iter().map(|run| Run { start: n / 2 + run.start, size: 1 }).collect();
    let mut table = vec![0; 8 * (n + 1)];
    lay_out(&mut table, &Layout { free, files });
    (lent(table, block_len), first)
}

/// Single blocks in that order: a ring of all but the last `beside`, which are a file each. Nothing is free.
pub fn ring(n: usize, beside: usize, order: Order) -> Blocks {
    let mut runs = singles(n, order);
    let files = runs.split_off(n - beside).into_iter().map(|run| vec![run]).collect();
    let mut table = vec![0; 8 * (n + 1)];
    lay_out(&mut table, &Layout { free: vec![], files });
    let size = runs.len();
    for (i, run) in runs.iter().enumerate() {
        set_node(&mut table, *run, Some(runs[(i + size - 1) % size].start), Some(runs[(i + 1) % size].start));
    }
    lent(table, 1)
}

/// So many files of equal parts of three quarters of the volume, in runs of 1 to 16 blocks in any order, and the rest free: the table, and each file's first
/// block and number of blocks.
pub fn many(n: usize, files: usize) -> (Vec<u8>, Vec<(usize, usize)>) {
    let mut chance = Chance::new(n as u64);
    let (mut runs, mut start) = (vec![], 0);
    while start < n {
        let size = chance.within(1, 16).min(n - start);
        runs.push(Run { start, size });
        start += size;
    }
    chance.shuffle(&mut runs);
    let each = runs.len() * 3 / 4 / files;
    assert!(each > 0, "more files than runs");
    let free = runs.split_off(each * files);
    let files: Vec<Chain> = runs.chunks(each).map(<[Run]>::to_vec).collect();
    let chains = files.iter().map(|chain| (chain[0].start, rules::blocks::blocks(chain))).collect();
    let mut table = vec![0; 8 * (n + 1)];
    lay_out(&mut table, &Layout { free, files });
    (table, chains)
}
