//! The calls as data, and everything that is lent to one.

pub use rules::entries::Kind;
use rules::opens::Packed;

/// What is lent to a block call. A call takes the parts that RULES 1.3 gives it and must leave the others alone.
#[derive(Clone, PartialEq, Eq, Debug, Default)]
pub struct Blocks {
    pub table: Vec<u8>,
    pub data: Vec<u8>,
    pub block_len: usize,
    pub work: Vec<u32>,
    pub list: Vec<u32>,
    pub buf: Vec<u8>,
}

#[derive(Clone, PartialEq, Eq, Debug)]
pub enum BlockCall {
    Format,
    Test,
    OpenList { first: usize },
    Create { count: usize },
    Resize { first: usize, count: usize },
    Delete { first: usize },
    Read { first: usize, pos: usize },
    Write { first: usize, pos: usize },
}

/// What is lent to a tree call.
#[derive(Clone, PartialEq, Eq, Debug, Default)]
pub struct Tree {
    pub dir_hash: Vec<u8>,
    pub dir_table: Vec<u8>,
    pub file_hash: Vec<u8>,
    pub file_table: Vec<u8>,
    pub work: Vec<u32>,
    pub dir_opens: Packed,
    pub file_opens: Packed,
    pub list: Vec<u32>,
}

impl Tree {
    pub fn four(&self) -> [&[u8]; 4] {
        [&self.dir_hash, &self.dir_table, &self.file_hash, &self.file_table]
    }
    pub fn opens(&self, kind: Kind) -> &Packed {
        match kind {
            Kind::Dir => &self.dir_opens,
            Kind::File => &self.file_opens,
        }
    }
    pub fn opens_mut(&mut self, kind: Kind) -> &mut Packed {
        match kind {
            Kind::Dir => &mut self.dir_opens,
            Kind::File => &mut self.file_opens,
        }
    }
    /// Entries that the kind's table has room for.
    pub fn room(&self, kind: Kind) -> usize {
        match kind {
            Kind::Dir => self.dir_table.len() / 40,
            Kind::File => self.file_table.len() / 48,
        }
    }
}

/// Of carried bytes the first 4 count for a directory.
#[derive(Clone, PartialEq, Eq, Debug)]
pub enum TreeCall {
    Format { dir_max: usize, file_max: usize },
    Test,
    Lookup { kind: Kind, parent: u32, name: [u8; 16] },
    Make { kind: Kind, parent: u32, name: [u8; 16], carried: [u8; 20] },
    Rename { kind: Kind, inode: u32, parent: u32, name: [u8; 16] },
    Delete { kind: Kind, inode: u32 },
    List { kind: Kind, inode: u32 },
    Stat,
    /// The kind as the interface's number.
    Name { kind: u32, inode: u32 },
    NameAnswer { kind: u32, inode: u32 },
    Carried { kind: Kind, inode: u32 },
    SetCarried { kind: Kind, inode: u32, carried: [u8; 20] },
    /// What is opened or given back as the interface's number: 0 a reader's open, 1 the writer's.
    Open { kind: Kind, inode: u32, want: u32 },
    Close { kind: Kind, inode: u32, want: u32 },
}

/// The number and the answer fields in their order; fields that a call does not have are 0.
#[derive(Clone, Copy, PartialEq, Eq, Debug, Default)]
pub struct Answered {
    pub number: u32,
    pub fields: [u64; 4],
    pub bytes: [u8; 20],
    /// Of a block call: the entry and the rule of a broken block table (RULES 3.6), 0 and 0 with any other number.
    pub fault: (usize, u32),
}

impl Answered {
    pub fn number(number: u32) -> Answered {
        Answered { number, ..Default::default() }
    }
    pub fn with(number: u32, given: &[u64]) -> Answered {
        let mut answered = Answered::number(number);
        answered.fields[..given.len()].copy_from_slice(given);
        answered
    }
    pub fn at(self, entry: usize, rule: u32) -> Answered {
        Answered { fault: (entry, rule), ..self }
    }
    pub fn carrying(number: u32, given: &[u8]) -> Answered {
        let mut answered = Answered::number(number);
        answered.bytes[..given.len()].copy_from_slice(given);
        answered
    }
}
