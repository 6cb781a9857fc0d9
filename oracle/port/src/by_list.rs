//! Read and write by a block list: by the rules and by the library.

use mukthiban_ffi::{mukthiban_fat_read_blocks, mukthiban_fat_write_blocks, mukthiban_version};
use rules::by_list;

/// What is lent to a call by a block list.
#[derive(Clone, PartialEq, Eq, Debug)]
pub struct ByList {
    pub data: Vec<u8>,
    pub block_len: usize,
    pub list: Vec<u32>,
    pub buf: Vec<u8>,
}

#[derive(Clone, Copy, PartialEq, Eq, Debug)]
pub enum ListCall {
    Read { pos: usize },
    Write { pos: usize },
}

impl ByList {
    /// The number that the rules give, which change what is lent.
    pub fn stated(&mut self, call: ListCall) -> u32 {
        let ByList { data, block_len, list, buf } = self;
        let done = match call {
            ListCall::Read { pos } => by_list::read_blocks(data, *block_len, list, pos, buf),
            ListCall::Write { pos } => by_list::write_blocks(data, *block_len, list, pos, buf),
        };
        done.map_or_else(|refusal| refusal.number(), |()| 0)
    }

    /// The number that the library gives, which changes what is lent.
    pub fn library(&mut self, call: ListCall) -> u32 {
        let ByList { data, block_len, list, buf } = self;
        let ((blocks, places), (bytes, len)) = ((list.as_ptr(), list.len()), (buf.as_mut_ptr(), buf.len()));
        // SAFETY: pointers and lengths are those of vectors, which do not overlap.
        let answered = unsafe {
            match call {
                ListCall::Read { pos } => {
                    mukthiban_fat_read_blocks(data.as_ptr(), data.len(), *block_len, blocks, places, pos, bytes, len)
                }
                ListCall::Write { pos } => {
                    mukthiban_fat_write_blocks(data.as_mut_ptr(), data.len(), *block_len, blocks, places, pos, bytes, len)
                }
            }
        };
        answered.answer
    }
}

/// The version of the library that is compared: major, minor, patch.
pub fn library_version() -> (u32, u32, u32) {
    // SAFETY: it takes nothing.
    let number = unsafe { mukthiban_version() };
    (number / 65_536, number / 256 % 256, number % 256)
}
