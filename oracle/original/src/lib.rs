//! The original, compiled unchanged from its own source, behind a small interface of plain bytes and the rules' numbers.
//!
//! The six files are read at build time from the folder that SAVE3DS_SRC names. Where they are not to be had, `PRESENT` is false and nothing else may be called.
//!
//! This text is compiled five times: as the crate `original`, and as the crates of `exchanged/`, which have modules of `rust/save3ds` in the original's place.

#[cfg(original)]
#[allow(dead_code, noop_method_call, clippy::all)]
mod byte_struct_common {
    include!(concat!(env!("OUT_DIR"), "/byte_struct_common.rs"));
}
#[cfg(original)]
#[allow(dead_code, noop_method_call, clippy::all)]
mod error {
    include!(concat!(env!("OUT_DIR"), "/error.rs"));
}
#[cfg(original)]
#[allow(dead_code, noop_method_call, clippy::all)]
mod random_access_file {
    include!(concat!(env!("OUT_DIR"), "/random_access_file.rs"));
}
#[cfg(original)]
#[allow(dead_code, noop_method_call, clippy::all)]
mod fat {
    include!(concat!(env!("OUT_DIR"), "/fat.rs"));

    /// Beside the module's text, so that its private block list can be seen.
    impl FatFile {
        #[cfg(not(our_fat))]
        pub fn listed(&self) -> Vec<u32> {
            self.block_list.iter().map(|b| b.block_index as u32).collect()
        }
        #[cfg(our_fat)]
        pub fn listed(&self) -> Vec<u32> {
            self.block_list.clone()
        }
    }
}
#[cfg(original)]
#[allow(dead_code, noop_method_call, clippy::all)]
mod fs_meta {
    include!(concat!(env!("OUT_DIR"), "/fs_meta.rs"));

    /// Beside the module's text, so that its private open counts can be seen.
    #[cfg(our_meta)]
    impl<DK, DI, FK, FI> FsMeta<DK, DI, FK, FI> {
        pub fn dir_opens(&self, ino: u32) -> u32 {
            self.store.kept.borrow().opens(Kind::Dir, ino) as u32
        }
        pub fn file_opens(&self, ino: u32) -> u32 {
            self.store.kept.borrow().opens(Kind::File, ino) as u32
        }
    }
    #[cfg(not(our_meta))]
    impl<DK, DI, FK, FI> FsMeta<DK, DI, FK, FI> {
        pub fn dir_opens(&self, ino: u32) -> u32 {
            self.dirs.ref_count.borrow().get(&ino).copied().unwrap_or(0)
        }
        pub fn file_opens(&self, ino: u32) -> u32 {
            self.files.ref_count.borrow().get(&ino).copied().unwrap_or(0)
        }
    }
}
/// The original's own beside ours, unchanged, for entries of other widths.
#[cfg(our_meta)]
#[allow(dead_code, noop_method_call, clippy::all)]
mod fs_meta_beside {
    include!(concat!(env!("OUT_DIR"), "/fs_meta_beside.rs"));
}
#[cfg(original)]
#[allow(dead_code, noop_method_call, clippy::all)]
mod save_ext_common {
    include!(concat!(env!("OUT_DIR"), "/save_ext_common.rs"));
}

#[cfg(original)]
mod memory;
#[cfg(original)]
#[cfg_attr(our_fat, allow(dead_code))]
mod misc;
#[cfg(original)]
mod other_widths;
#[cfg(original)]
mod record;
#[cfg(original)]
mod wire;

#[cfg(original)]
mod save;
#[cfg(original)]
pub mod speed;
#[cfg(original)]
mod tables;
#[cfg(original)]
mod volume;
#[cfg(original)]
pub use other_widths::made_and_found;
#[cfg(original)]
pub use save::Save;
#[cfg(original)]
pub use tables::Tables;
#[cfg(original)]
pub use volume::{Opened, Volume};

#[cfg(not(original))]
mod absent;
#[cfg(not(original))]
pub use absent::{made_and_found, speed, Opened, Save, Tables, Volume};

/// Whether the original's source was there when this was built.
pub const PRESENT: bool = cfg!(original);

/// Whether `fat.rs`, and whether `fs_meta.rs`, is that of `rust/save3ds`.
pub const OUR_FAT: bool = cfg!(our_fat);
pub const OUR_META: bool = cfg!(our_meta);

/// How files fail: after so many calls the next, or all from it on. Of a write that fails the first half may be written.
#[derive(Clone, Copy, Debug)]
pub struct Failure {
    pub after: usize,
    pub lasting: bool,
    pub torn: bool,
}

/// The number of a call that failed as it was told to.
pub const FAILED: u32 = 98;

/// The rules' number for the original's error; the errors that the three modules never give are 99.
#[cfg(original)]
fn number(error: error::Error) -> u32 {
    use error::Error::*;
    match error {
        SizeMismatch => 1,
        InvalidValue => 2,
        BrokenFat => 4,
        NoSpace => 6,
        OutOfBound => 7,
        NotFound => 10,
        AlreadyExist => 11,
        Busy => 12,
        DeletingRoot => 13,
        NotEmpty => 14,
        Unsupported => 20,
        IO(_) => FAILED,
        _ => 99,
    }
}
