use super::Volume;
use crate::inner;
use crate::volume::Finding;

impl Volume {
    /// Where the files' records and the chains disagree: the whole list, by the proved call. Nothing is found exactly where every file with bytes has a chain of its own that is long
    /// enough, and every chain has its file.
    ///
    /// ```
    /// # use mukthiban::{volume::Finding, Record, Shape, Volume, ROOT};
    /// let shape = Shape { blocks: 8, block_len: 512, dir_max: 4, file_max: 4, buckets: 3 };
    /// let mut volume = Volume::new(shape)?;
    /// let first_block = volume.create(2)? as u32;
    /// assert_eq!(volume.audit(), [Finding::Lost { first_block }]);
    ///
    /// let mut carried = [0; 20];
    /// Record { first_block, size: 1000 }.put(&mut carried);
    /// volume.make_file(ROOT, b"slot1\0\0\0\0\0\0\0\0\0\0\0", &carried)?;
    /// assert_eq!(volume.audit(), []);
    /// let inode = volume.make_file(ROOT, b"slot2\0\0\0\0\0\0\0\0\0\0\0", &carried)?;
    /// assert_eq!(volume.audit(), [Finding::Shared { inode }]);
    /// # Ok::<(), mukthiban::Refusal>(())
    /// ```
    pub fn audit(&self) -> Vec<Finding> {
        let p = &self.parts;
        let (_, files) = p.rooms();
        let mut work = vec![0; p.blocks() + files];
        // A file has two findings at most, a chain one, and a finding two places.
        let mut list = vec![0; 2 * (2 * files + self.files())];
        // SAFETY: both layers are sound, and the work list has its places, all 0.
        let audited = unsafe { inner::audit(p, &mut work, &mut list) };
        assert_eq!(audited.answer, 0, "the list has room for all");
        let count = audited.count;
        let finding = |two: &[u32]| Finding::of(two[0], two[1]).expect("the kinds are 1 to 4");
        list[..2 * count].chunks_exact(2).map(finding).collect()
    }
}
