//! Stands in for the original's file in memory: a fixed array of bytes; what passes its end is OutOfBound. It can be told to fail, and to refuse what was
//! never written, as the original's files with hashes do.

use crate::error::{make_error, Error};
use crate::random_access_file::RandomAccessFile;
use crate::wire::{failed, Wire};
use std::cell::RefCell;
use std::rc::Rc;

pub struct Memory {
    bytes: RefCell<Vec<u8>>,
    /// Which bytes were written, where this is looked at.
    known: RefCell<Option<Vec<bool>>>,
    wire: Rc<Wire>,
    /// Whether its writes are noted.
    first: bool,
}

impl Memory {
    pub fn new(bytes: &[u8]) -> Memory {
        Memory::on(&Rc::default(), bytes, false)
    }
    pub fn on(wire: &Rc<Wire>, bytes: &[u8], first: bool) -> Memory {
        Memory { bytes: RefCell::new(bytes.to_vec()), known: RefCell::new(None), wire: wire.clone(), first }
    }
    /// A file of that length of which nothing is written.
    pub fn unwritten(wire: &Rc<Wire>, len: usize) -> Memory {
        let memory = Memory::on(wire, &vec![0xDD; len], false);
        *memory.known.borrow_mut() = Some(vec![false; len]);
        memory
    }
    pub fn copied(&self) -> Vec<u8> {
        self.bytes.borrow().clone()
    }
    /// Whether it holds these bytes, where they were ever written.
    pub fn holds(&self, bytes: &[u8]) -> bool {
        match &*self.known.borrow() {
            None => *self.bytes.borrow() == bytes,
            Some(known) => self.bytes.borrow().iter().zip(bytes).zip(known).all(|((a, b), known)| a == b || !known),
        }
    }
    pub fn set(&self, bytes: &[u8]) {
        self.bytes.borrow_mut().copy_from_slice(bytes);
    }
    fn put(&self, pos: usize, buf: &[u8]) {
        self.bytes.borrow_mut()[pos..pos + buf.len()].copy_from_slice(buf);
        if let Some(known) = &mut *self.known.borrow_mut() {
            known[pos..pos + buf.len()].fill(true);
        }
    }
}

impl RandomAccessFile for Memory {
    fn read(&self, pos: usize, buf: &mut [u8]) -> Result<(), Error> {
        self.wire.call(0).or_else(|_| make_error(failed()))?;
        let bytes = self.bytes.borrow();
        let Some(part) = pos.checked_add(buf.len()).and_then(|end| bytes.get(pos..end)) else {
            return make_error(Error::OutOfBound);
        };
        if let Some(known) = &*self.known.borrow() {
            if known[pos..pos + buf.len()].contains(&false) {
                return make_error(Error::HashMismatch);
            }
        }
        buf.copy_from_slice(part);
        Ok(())
    }
    fn write(&self, pos: usize, buf: &[u8]) -> Result<(), Error> {
        if pos.checked_add(buf.len()).is_none_or(|end| end > self.len()) {
            return make_error(Error::OutOfBound);
        }
        if let Err(torn) = self.wire.call(buf.len()) {
            self.put(pos, &buf[..torn]);
            return make_error(failed());
        }
        self.put(pos, buf);
        if self.first {
            self.wire.note(pos, buf.len());
        }
        Ok(())
    }
    fn len(&self) -> usize {
        self.bytes.borrow().len()
    }
    fn commit(&self) -> Result<(), Error> {
        Ok(())
    }
}
