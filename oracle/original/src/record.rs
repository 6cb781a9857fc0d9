//! Stands in for the original's file record, whose file is not at hand: 24 bytes, `next` first, then 20 carried bytes as the rules say.

use crate::fs_meta::FileInfo;
use byte_struct::ByteStruct;

#[derive(ByteStruct, Clone)]
#[byte_struct_le]
pub struct FileRecord {
    pub next: u32,
    pub carried: [u8; 20],
}

impl FileInfo for FileRecord {
    fn set_next(&mut self, index: u32) {
        self.next = index;
    }
    fn get_next(&self) -> u32 {
        self.next
    }
}
