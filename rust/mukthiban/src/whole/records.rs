//! The open records of a volume's inodes.

/// Open records, packed as the library has them: two places a record, the inode and its record, rising by inode, for
/// opened inodes alone. The list grows, so that no call of a volume finds it full.
#[derive(Clone, Default)]
pub(super) struct Records {
    pub(super) list: Vec<u32>,
    pub(super) opened: usize,
}

impl Records {
    /// With a place for one record more.
    pub(super) fn with_room(&mut self) -> &mut Records {
        if self.list.len() < 2 * (self.opened + 1) {
            self.list.resize(4 * (self.opened + 1), 0);
        }
        self
    }

    /// The record of an inode, 0 where nothing of it is open.
    pub(super) fn record(&self, inode: u32) -> u32 {
        let (records, _) = self.list[..2 * self.opened].as_chunks::<2>();
        records.binary_search_by_key(&inode, |record| record[0]).map_or(0, |at| records[at][1])
    }
}
