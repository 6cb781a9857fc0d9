use super::Volume;
use crate::inner;
use crate::kiosk::Rule;
use crate::refusal::{judge, Refusal};

impl Volume {
    /// The first rule of the demo kiosk's profile that the volume breaks, by the proved call; none where it is in it.
    ///
    /// ```
    /// # use mukthiban::{kiosk::Rule, Record, Shape, Volume, ROOT};
    /// let shape = Shape { blocks: 8, block_len: 512, dir_max: 4, file_max: 4, buckets: 3 };
    /// let mut volume = Volume::new(shape)?;
    /// assert_eq!(volume.kiosk(), None);
    /// let mut carried = [0; 20];
    /// Record { first_block: volume.create_kiosk(2)? as u32, size: 1000 }.put(&mut carried);
    /// assert_eq!(volume.kiosk(), Some(Rule::Audit)); // no file has the chain yet
    /// let inode = volume.make_file(ROOT, b"SLOT1\0\0\0\0\0\0\0\0\0\0\0", &carried)?;
    /// assert_eq!(volume.kiosk(), None);
    /// volume.rename_file(inode, ROOT, b"slot1\0\0\0\0\0\0\0\0\0\0\0")?;
    /// assert_eq!(volume.kiosk(), Some(Rule::Names));
    /// # Ok::<(), mukthiban::Refusal>(())
    /// ```
    pub fn kiosk(&self) -> Option<Rule> {
        let p = &self.parts;
        let (_, files) = p.rooms();
        let mut work = vec![0; p.blocks() + files];
        // SAFETY: both layers are sound, and the work list has its places, all 0.
        let r = unsafe { inner::kiosk_test(p, &mut work) };
        Rule::of(r.broken)
    }

    /// Makes a file of `block_count` blocks in one node, as [`kiosk::create`](crate::kiosk::create), and answers its first
    /// block. `NoSpace` where no free node has so many.
    pub fn create_kiosk(&mut self, block_count: usize) -> Result<usize, Refusal> {
        // SAFETY: the table is sound.
        let r = unsafe { inner::kiosk_create(&mut self.parts, block_count) };
        judge(r.answer)?;
        self.redraw();
        self.free -= block_count;
        self.counts[r.first_block] = block_count as u32;
        Ok(r.first_block)
    }
}
