//! Words, numbers and areas, put one behind the other and taken apart again.

/// Puts words, numbers and areas one behind the other.
pub struct Writer {
    pub bytes: Vec<u8>,
}

impl Writer {
    pub fn word(&mut self, word: u32) {
        self.bytes.extend(word.to_le_bytes());
    }
    pub fn number(&mut self, number: u64) {
        self.bytes.extend(number.to_le_bytes());
    }
    /// Bytes in an area of that length; the rest is 0.
    pub fn area(&mut self, bytes: &[u8], len: usize) {
        let end = self.bytes.len() + len;
        self.bytes.extend(bytes);
        self.bytes.resize(end, 0);
    }
    pub fn words(&mut self, words: &[u32], places: usize) {
        let bytes: Vec<u8> = words.iter().flat_map(|w| w.to_le_bytes()).collect();
        self.area(&bytes, places * 4);
    }
}

/// Takes them apart again.
pub struct Reader<'a> {
    pub bytes: &'a [u8],
}

impl<'a> Reader<'a> {
    pub fn take(&mut self, len: usize) -> &'a [u8] {
        let (front, rest) = self.bytes.split_at(len);
        self.bytes = rest;
        front
    }
    pub fn word(&mut self) -> u32 {
        u32::from_le_bytes(self.take(4).try_into().unwrap())
    }
    pub fn number(&mut self) -> u64 {
        u64::from_le_bytes(self.take(8).try_into().unwrap())
    }
    pub fn area(&mut self, len: usize, used: usize) -> Vec<u8> {
        self.take(len)[..used].to_vec()
    }
    pub fn words(&mut self, places: usize, used: usize) -> Vec<u32> {
        let bytes = self.area(places * 4, used * 4);
        bytes.chunks(4).map(|w| u32::from_le_bytes(w.try_into().unwrap())).collect()
    }
}
