//! The same interface where the original's source is not to be had. Nothing of it may be called.

use crate::Failure;

type Name = [u8; 16];

macro_rules! absent {
    ($type:ident { $(fn $name:ident($($part:tt)*) -> $answer:ty;)* }) => {
        pub struct $type {}

        #[allow(unused_variables)]
        impl $type {
            $(pub fn $name($($part)*) -> $answer {
                unreachable!("the original is not here")
            })*
        }
    };
}

absent! {
    Volume {
        fn format(table: &mut [u8]) -> Result<(), u32>;
        fn open(table: &[u8], data: &[u8], block_len: usize) -> Result<Volume, u32>;
        fn unwritten(blocks: usize, block_len: usize) -> Result<Volume, u32>;
        fn reopen(&mut self, block_len: usize) -> Result<(), u32>;
        fn fail(&self, failure: Option<Failure>) -> ();
        fn watch(&self) -> ();
        fn watched(&self) -> Vec<(usize, usize)>;
        fn free(&self) -> usize;
        fn table(&self) -> Vec<u8>;
        fn data(&self) -> Vec<u8>;
        fn holds(&self, table: &[u8], data: &[u8]) -> bool;
        fn set(&self, table: &[u8], data: &[u8]) -> ();
        fn set_table(&self, table: &[u8]) -> ();
        fn list(&mut self, first: usize) -> Result<Vec<u32>, u32>;
        fn fresh_list(&self, first: usize) -> Result<Vec<u32>, u32>;
        fn create(&mut self, count: usize) -> Result<usize, u32>;
        fn resize(&mut self, first: usize, count: usize) -> Result<(), u32>;
        fn resize_apart(&self, first: usize, count: usize) -> Result<(), u32>;
        fn delete(&mut self, first: usize) -> Result<(), u32>;
        fn read(&mut self, first: usize, pos: usize, buf: &mut [u8]) -> Result<(), u32>;
        fn write(&mut self, first: usize, pos: usize, buf: &[u8]) -> Result<(), u32>;
        fn opened(&mut self, first: usize) -> Result<Opened<'_>, u32>;
    }
}

pub struct Opened<'v>(&'v mut Volume);

impl Opened<'_> {
    pub fn read(&mut self, pos: usize, buf: &mut [u8]) -> Result<(), u32> {
        self.0.read(0, pos, buf)
    }
    pub fn write(&mut self, pos: usize, buf: &[u8]) -> Result<(), u32> {
        self.0.write(0, pos, buf)
    }
}

absent! {
    Tables {
        fn format(four: [&[u8]; 4], dir_max: usize, file_max: usize) -> (Result<(), u32>, [Vec<u8>; 4]);
        fn open(four: [&[u8]; 4]) -> Result<Tables, u32>;
        fn unwritten(lens: [usize; 4], dir_max: usize, file_max: usize) -> Result<Tables, u32>;
        fn reopen(&mut self) -> Result<(), u32>;
        fn fail(&self, failure: Option<Failure>) -> ();
        fn four(&self) -> [Vec<u8>; 4];
        fn holds(&self, four: [&[u8]; 4]) -> bool;
        fn set(&self, four: [&[u8]; 4]) -> ();
        fn drop_handles(&mut self) -> ();
        fn open_dir(&mut self, ino: u32) -> ();
        fn open_file(&mut self, ino: u32) -> ();
        fn try_open_dir(&mut self, ino: u32) -> Result<(), u32>;
        fn try_open_file(&mut self, ino: u32) -> Result<(), u32>;
        fn close_dir(&mut self, ino: u32) -> ();
        fn close_file(&mut self, ino: u32) -> ();
        fn dir_opens(&self, ino: u32) -> u32;
        fn file_opens(&self, ino: u32) -> u32;
        fn lookup_dir(&self, parent: u32, name: Name) -> Result<u32, u32>;
        fn lookup_file(&self, parent: u32, name: Name) -> Result<u32, u32>;
        fn make_dir(&mut self, parent: u32, name: Name, padding: [u8; 4]) -> Result<u32, u32>;
        fn make_file(&mut self, parent: u32, name: Name, carried: [u8; 20]) -> Result<u32, u32>;
        fn rename_dir(&mut self, ino: u32, parent: u32, name: Name) -> Result<(), u32>;
        fn rename_file(&mut self, ino: u32, parent: u32, name: Name) -> Result<(), u32>;
        fn delete_dir(&mut self, ino: u32) -> Result<(), u32>;
        fn delete_file(&mut self, ino: u32) -> Result<(), u32>;
        fn list_dirs(&self, ino: u32) -> Result<Vec<(Name, u32)>, u32>;
        fn list_files(&self, ino: u32) -> Result<Vec<(Name, u32)>, u32>;
        fn dir_parent(&self, ino: u32) -> Result<u32, u32>;
        fn file_parent(&self, ino: u32) -> Result<u32, u32>;
        fn stat(&self) -> Result<[usize; 4], u32>;
        fn carried_file(&self, ino: u32) -> Result<[u8; 20], u32>;
        fn set_carried_file(&self, ino: u32, carried: [u8; 20]) -> Result<(), u32>;
        fn set_info_file(&self, ino: u32, next: u32, carried: [u8; 20]) -> Result<(), u32>;
    }
}

absent! {
    Save {
        fn new(blocks: usize, dirs: usize, files: usize, buckets: usize) -> Result<Save, u32>;
        fn reopen(&mut self) -> Result<(), u32>;
        fn bytes(&self) -> [Vec<u8>; 4];
        fn free(&self) -> usize;
        fn mkdir(&self, path: &[Name]) -> Result<(), u32>;
        fn put(&self, path: &[Name], bytes: &[u8]) -> Result<(), u32>;
        fn get(&self, path: &[Name]) -> Result<Vec<u8>, u32>;
        fn remove(&self, path: &[Name]) -> Result<(), u32>;
        fn rmdir(&self, path: &[Name]) -> Result<(), u32>;
        fn rename(&self, path: &[Name], to: &[Name]) -> Result<(), u32>;
        fn list(&self, path: &[Name]) -> Result<[Vec<Name>; 2], u32>;
    }
}

pub fn made_and_found() -> Result<(u32, u32), u32> {
    unreachable!("the original is not here")
}

pub mod speed {
    pub const BLOCK_CALLS: [&str; 7] = [""; 7];
    pub const TREE_CALLS: [&str; 4] = [""; 4];

    pub struct BlockShape {
        pub blocks: usize,
        pub block_len: usize,
        pub there: usize,
        pub there_blocks: usize,
        pub worn: bool,
        pub files: usize,
        pub file_blocks: usize,
    }

    pub struct TreeShape {
        pub dirs: usize,
        pub there: usize,
        pub buckets: usize,
        pub files: usize,
    }

    absent! {
        Blocks {
            fn new(shape: BlockShape) -> Blocks;
            fn round(&self) -> [f64; 7];
        }
    }

    absent! {
        Tree {
            fn new(shape: TreeShape) -> Tree;
            fn round(&self) -> [f64; 4];
        }
    }
}
