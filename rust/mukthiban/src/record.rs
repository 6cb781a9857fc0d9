/// What a file's carried bytes say: where its blocks begin, and how long it is.
///
/// Counted from the entry's `next`, bytes 8 to 11 are the first block and bytes 12 to 19 the size; so in the 20
/// carried bytes, which begin behind `next`, they are 4 to 7 and 8 to 15. A file of size 0 owns no chain, whatever its
/// block field says.
///
/// ```
/// use mukthiban::Record;
/// let record = Record { first_block: 5, size: 700 };
/// let mut carried = [0xEE; 20];
/// record.put(&mut carried);
/// assert_eq!(Record::of(&carried), record);
/// assert_eq!(carried[..4], [0xEE; 4]); // the spare bytes stay
/// assert_eq!(carried[16..], [0xEE; 4]);
/// ```
#[derive(Clone, Copy, Debug, PartialEq, Eq)]
pub struct Record {
    /// The first block of its chain; without meaning where the size is 0.
    pub first_block: u32,
    /// The file's length in bytes.
    pub size: u64,
}

impl Record {
    /// The record of a file of size 0. Its block field is the one that consoles write there.
    pub const EMPTY: Record = Record { first_block: 0x8000_0000, size: 0 };

    /// Reads the record from a file's carried bytes.
    pub fn of(carried: &[u8; 20]) -> Record {
        let word = |at: usize| u32::from_le_bytes(carried[at..at + 4].try_into().expect("4 bytes"));
        Record { first_block: word(4), size: u64::from(word(8)) | u64::from(word(12)) << 32 }
    }

    /// Writes the record into a file's carried bytes. The spare bytes stay.
    pub fn put(self, carried: &mut [u8; 20]) {
        carried[4..8].copy_from_slice(&self.first_block.to_le_bytes());
        carried[8..16].copy_from_slice(&self.size.to_le_bytes());
    }

    /// The blocks that hold `size` bytes. 0 for an empty file; `u64::MAX` where blocks of no byte can't hold it.
    ///
    /// ```
    /// use mukthiban::Record;
    /// let record = Record { first_block: 5, size: 700 };
    /// assert_eq!(record.blocks(512), 2);
    /// assert_eq!(record.blocks(0), u64::MAX);
    /// assert_eq!(Record::EMPTY.blocks(0), 0);
    /// ```
    pub fn blocks(self, block_len: usize) -> u64 {
        match (self.size, block_len) {
            (0, _) => 0,
            (_, 0) => u64::MAX,
            (size, len) => size.div_ceil(len as u64),
        }
    }
}
