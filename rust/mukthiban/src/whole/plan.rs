use super::Volume;
use crate::inner;
use crate::refusal::{judge, Refusal};

/// Safety, for each call of the library here: the table is sound, the data fit, and the work list is n places of 0.
impl Volume {
    /// A plan that makes a file whole, as [`plan::find`](crate::plan::find) finds it: a source and a target for each of
    /// its blocks. NoSpace where nowhere so many blocks are free in a row.
    ///
    /// ```
    /// # use mukthiban::{Refusal, Shape, Volume};
    /// let shape = Shape { blocks: 8, block_len: 512, dir_max: 4, file_max: 4, buckets: 3 };
    /// let mut volume = Volume::new(shape)?;
    /// let [one, two, _three] = [1, 1, 1].map(|count| volume.create(count).unwrap());
    /// volume.delete(one)?;
    /// volume.resize(two, 3)?; // blocks 1, 0 and 3
    /// volume.write(two, 0, b"saved game")?;
    ///
    /// let plan = volume.plan(two)?;
    /// assert_eq!(plan, [1, 4, 0, 5, 3, 6]);
    /// let two = volume.make_whole(two, &plan)?;
    /// assert_eq!(volume.chain(two)?, [4, 5, 6]);
    /// let mut back = [0; 10];
    /// volume.read(two, 0, &mut back)?;
    /// assert_eq!(&back, b"saved game");
    /// # Ok::<(), Refusal>(())
    /// ```
    pub fn plan(&self, first_block: usize) -> Result<Vec<u32>, Refusal> {
        let mut work = vec![0; self.parts.blocks()];
        let mut list = vec![0; 2 * self.block_count(first_block)?];
        let r = unsafe { inner::plan_find(&self.parts, &mut work, first_block, &mut list) };
        judge(r.answer)?;
        list.truncate(2 * r.count);
        Ok(list)
    }

    /// Whether a plan, whoever made it, is accepted for a file; InvalidValue where it is not.
    pub fn check_plan(&self, first_block: usize, plan: &[u32]) -> Result<(), Refusal> {
        let mut work = vec![0; self.parts.blocks()];
        judge(unsafe { inner::plan_check(&self.parts, &mut work, first_block, plan) }.answer)
    }

    /// Makes a file one node by a plan, and answers its new first block. It reads as before, and every other file stays.
    /// The file's record is the caller's to change.
    pub fn make_whole(&mut self, first_block: usize, plan: &[u32]) -> Result<usize, Refusal> {
        let mut work = vec![0; self.parts.blocks()];
        let r = unsafe { inner::plan_apply(&mut self.parts, &mut work, first_block, plan) };
        judge(r.answer)?;
        self.redraw();
        self.counts[r.first_block] = std::mem::take(&mut self.counts[first_block]);
        Ok(r.first_block)
    }
}
