//! The two maps that a volume keeps.

use super::Volume;
use crate::parts::Parts;
use crate::refusal::{judge, Refusal};
use crate::{inner, map};

/// One bit a block each, the lowest block in the lowest bit of the first word.
#[derive(Clone)]
pub struct Maps {
    /// Set where the block is free.
    pub free: Vec<u32>,
    /// Set where the block is a file's first.
    pub firsts: Vec<u32>,
}

impl Maps {
    /// Those of a table.
    ///
    /// # Safety
    ///
    /// The table is sound.
    pub unsafe fn of(parts: &Parts) -> Maps {
        let words = map::words(parts.blocks());
        let mut maps = Maps { free: vec![0; words], firsts: vec![0; words] };
        for built in [inner::build(parts, &mut maps.free), inner::build_firsts(parts, &mut maps.firsts)] {
            judge(built.answer).expect("the inner builds refuse nothing");
        }
        maps
    }
}

impl Volume {
    /// Builds the maps anew, where the table was changed by something else than the calls that keep them.
    pub(super) fn redraw(&mut self) {
        // SAFETY: the table is sound.
        self.maps = unsafe { Maps::of(&self.parts) };
    }

    /// The free map: one bit a block, the lowest block in the lowest bit, set where the block is free.
    pub fn map(&self) -> &[u32] {
        &self.maps.free
    }

    /// Free blocks from block `a` up to and without block `b`, counted in the map. `InvalidValue` where `a` is over `b`,
    /// or `b` over the blocks.
    ///
    /// ```
    /// # use mukthiban::{Refusal, Shape, Volume};
    /// let shape = Shape { blocks: 100, block_len: 512, dir_max: 4, file_max: 4, buckets: 3 };
    /// let mut volume = Volume::new(shape)?;
    /// let file = volume.create(40)?;
    /// assert_eq!((volume.free_in(0, 40)?, volume.free_in(30, 50)?), (0, 10));
    /// assert_eq!(volume.free_in(0, 100)?, volume.free());
    /// assert_eq!(volume.free_in(0, 101), Err(Refusal::InvalidValue));
    /// # Ok::<(), Refusal>(())
    /// ```
    pub fn free_in(&self, a: usize, b: usize) -> Result<usize, Refusal> {
        map::count(&self.maps.free, self.blocks(), a, b)
    }

    /// The longest stretch of free blocks, the lowest of several: its first block and its length; None where none is
    /// free. Neighbouring nodes of the free chain are one stretch.
    ///
    /// ```
    /// # use mukthiban::{Shape, Volume};
    /// let shape = Shape { blocks: 8, block_len: 512, dir_max: 4, file_max: 4, buckets: 3 };
    /// let mut volume = Volume::new(shape)?;
    /// let (one, two) = (volume.create(3)?, volume.create(2)?);
    /// assert_eq!(volume.largest_free(), Some((5, 3)));
    /// volume.delete(one)?;
    /// assert_eq!(volume.largest_free(), Some((0, 3)));
    /// volume.delete(two)?;
    /// assert_eq!(volume.largest_free(), Some((0, 8)));
    /// # Ok::<(), mukthiban::Refusal>(())
    /// ```
    pub fn largest_free(&self) -> Option<(usize, usize)> {
        let (mut best, mut from): (Option<(usize, usize)>, Option<usize>) = (None, None);
        for block in 0..=self.blocks() {
            let free = block < self.blocks() && self.maps.free[block / 32] >> (block % 32) & 1 == 1;
            match (free, from) {
                (true, None) => from = Some(block),
                (false, Some(start)) => {
                    let len = block - start;
                    if best.is_none_or(|(_, most)| most < len) {
                        best = Some((start, len));
                    }
                    from = None;
                }
                _ => (),
            }
        }
        best
    }
}
