//! Merge of free neighbours.

use crate::answer::Answer::*;
use crate::answer::{refuse, Outcome};
use crate::blocks::{in_use, sizes, test, MOST_BLOCK_LEN};
use crate::layout::{block_count, lay_free, layout, Chain, Run};

/// "The longest stretches of free blocks, in rising order."
pub fn stretches(free: &[bool]) -> Chain {
    let mut runs: Chain = vec![];
    for (block, _) in free.iter().enumerate().filter(|(_, free)| **free) {
        match runs.last_mut() {
            Some(run) if run.start + run.size == block => run.size += 1,
            _ => runs.push(Run { start: block, size: 1 }),
        }
    }
    runs
}

/// The rows of the test, the block length among the sizes and last; then the free chain laid as its longest stretches, and the head.
pub fn merge(table: &mut [u8], block_len: usize, work: &mut [u32]) -> Outcome<()> {
    sizes(table, None)?;
    refuse(!(1..=MOST_BLOCK_LEN).contains(&block_len), InvalidValue)?;
    test(table, work)?;
    in_use(block_len)?;
    let held = layout(table).expect("the test found the table sound");
    let mut free = vec![false; block_count(table)];
    for run in &held.free {
        free[run.start..run.start + run.size].fill(true);
    }
    lay_free(table, &stretches(&free));
    Ok(())
}
