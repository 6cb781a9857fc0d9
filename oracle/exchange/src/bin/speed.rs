//! `speed`: the calls of the original's interface, with the original's modules and with those of `rust/save3ds`, in nanoseconds a call. The two take turns, and
//! a time is the best of its rounds.

use exchanged_all::speed as ours;
use original::speed as theirs;
use std::time::{Duration, Instant};

/// For how long each shape is run.
const SPAN: Duration = Duration::from_millis(1500);

/// A line of the table: a shape and its numbers.
macro_rules! race {
    ($title:expr, $calls:expr, $kind:ident, $shape:ident { $($field:ident: $value:expr),* }) => {{
        let theirs = theirs::$kind::new(theirs::$shape { $($field: $value),* });
        let ours = ours::$kind::new(ours::$shape { $($field: $value),* });
        let (mut best, start) = ([[f64::MAX; $calls.len()]; 2], Instant::now());
        while start.elapsed() < SPAN {
            for (side, round) in [theirs.round(), ours.round()].into_iter().enumerate() {
                for (best, time) in best[side].iter_mut().zip(round) {
                    *best = best.min(time);
                }
            }
        }
        for (i, call) in $calls.iter().enumerate() {
            let (them, us) = (best[0][i], best[1][i]);
            let met = if us <= them { "met" } else { "**not met**" };
            println!("| {} | {call} | {them:.0} | {us:.0} | {:.2} | {met} |", $title, us / them);
        }
    }};
}

fn main() {
    if !original::PRESENT {
        println!("the original's source is not here: SAVE3DS_SRC names its folder");
        return;
    }
    println!("| volume | call | original, ns | ours, ns | ratio | at most 1.0 |\n|---|---|---|---|---|---|");
    race!("2,048 blocks of 512, 24 files", theirs::BLOCK_CALLS, Blocks, BlockShape {
        blocks: 2_048, block_len: 512, there: 24, there_blocks: 16, worn: false, files: 16, file_blocks: 32
    });
    race!("the same of 4,096", theirs::BLOCK_CALLS, Blocks, BlockShape {
        blocks: 2_048, block_len: 4_096, there: 24, there_blocks: 16, worn: false, files: 16, file_blocks: 32
    });
    race!("2,048 blocks of 512, worn: 100 files and 100 holes of 4", theirs::BLOCK_CALLS, Blocks, BlockShape {
        blocks: 2_048, block_len: 512, there: 200, there_blocks: 4, worn: true, files: 16, file_blocks: 32
    });
    race!("65,536 blocks of 512, 1,000 files", theirs::BLOCK_CALLS, Blocks, BlockShape {
        blocks: 65_536, block_len: 512, there: 1_000, there_blocks: 8, worn: false, files: 64, file_blocks: 64
    });
    race!("65,536 blocks of 512, 7,000 files", theirs::BLOCK_CALLS, Blocks, BlockShape {
        blocks: 65_536, block_len: 512, there: 7_000, there_blocks: 8, worn: false, files: 16, file_blocks: 64
    });
    race!("8 directories, 100 files, 64 buckets", theirs::TREE_CALLS, Tree, TreeShape {
        dirs: 8, there: 100, buckets: 64, files: 32
    });
    race!("100 directories, 10,000 files, 4,096 buckets", theirs::TREE_CALLS, Tree, TreeShape {
        dirs: 100, there: 10_000, buckets: 4_096, files: 64
    });
}
