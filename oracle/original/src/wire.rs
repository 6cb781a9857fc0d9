//! What a volume's files have in common: calls that fail when they are told to, and a note of what is written.

use crate::error::Error;
use crate::Failure;
use std::cell::{Cell, RefCell};

#[derive(Default)]
pub struct Wire {
    failure: Cell<Option<Failure>>,
    writes: RefCell<Option<Vec<(usize, usize)>>>,
}

impl Wire {
    pub fn fail(&self, failure: Option<Failure>) {
        self.failure.set(failure);
    }

    /// Notes from now on what is written to the first file.
    pub fn watch(&self) {
        *self.writes.borrow_mut() = Some(vec![]);
    }

    /// The writes since then, as places and lengths.
    pub fn watched(&self) -> Vec<(usize, usize)> {
        self.writes.take().unwrap_or_default()
    }

    pub fn note(&self, pos: usize, len: usize) {
        if let Some(writes) = &mut *self.writes.borrow_mut() {
            writes.push((pos, len));
        }
    }

    /// Whether this call fails, and how many of its bytes are written all the same.
    pub fn call(&self, len: usize) -> Result<(), usize> {
        let Some(failure) = self.failure.get() else { return Ok(()) };
        if failure.after > 0 {
            self.failure.set(Some(Failure { after: failure.after - 1, ..failure }));
            return Ok(());
        }
        if !failure.lasting {
            self.failure.set(None);
        }
        Err(if failure.torn { len / 2 } else { 0 })
    }
}

/// The error of a call that fails.
pub fn failed() -> Error {
    Error::IO(std::io::Error::other("told to fail"))
}
