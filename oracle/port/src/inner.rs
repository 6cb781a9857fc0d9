//! The library's inner calls. They require that sizes fit and tables are sound, and take no work list.

use crate::library::{answered, created, found, listed, made, named, opened, plain, stat};
use crate::{Answered, BlockCall, Blocks, Kind, Tree, TreeCall};
use mukthiban_ffi::tested::*;

/// To be used only where the rules find the sizes right and the tables sound.
pub struct Inner;

/// The number of blocks, which these calls are passed.
fn block_count(lent: &Blocks) -> usize {
    lent.table.len() / 8 - 1
}

/// A call over the table alone.
macro_rules! on_table {
    ($to:ident, $call:ident, $lent:ident $(, $more:expr)*) => {
        Some($to($call($lent.table.as_mut_ptr(), $lent.table.len(), block_count($lent), $($more),*)))
    };
}

/// A call over table, data and block length.
macro_rules! on_data {
    ($to:ident, $call:ident, $lent:ident $(, $more:expr)*) => {
        Some($to($call(
            $lent.table.as_mut_ptr(), $lent.table.len(), block_count($lent),
            $lent.data.as_mut_ptr(), $lent.data.len(),
            $lent.block_len,
            $($more),*
        )))
    };
}

/// A call over the four tables.
macro_rules! on_four {
    ($to:ident, $call:ident, $lent:ident $(, $more:expr)*) => {
        Some($to($call(
            $lent.dir_hash.as_mut_ptr(), $lent.dir_hash.len(),
            $lent.dir_table.as_mut_ptr(), $lent.dir_table.len(),
            $lent.file_hash.as_mut_ptr(), $lent.file_hash.len(),
            $lent.file_table.as_mut_ptr(), $lent.file_table.len(),
            $($more),*
        )))
    };
}

/// The same with the open records of the kind: one call for directories, one for files.
macro_rules! with_opens {
    ($to:ident, $kind:expr, $dir:ident, $file:ident, $lent:ident $(, $more:expr)*) => {
        match $kind {
            Kind::Dir => on_four!($to, $dir, $lent, $lent.dir_opens.list.as_mut_ptr(), $lent.dir_opens.list.len(), &raw mut $lent.dir_opens.opened $(, $more)*),
            Kind::File => on_four!($to, $file, $lent, $lent.file_opens.list.as_mut_ptr(), $lent.file_opens.list.len(), &raw mut $lent.file_opens.opened $(, $more)*),
        }
    };
}

unsafe fn block_call(call: &BlockCall, lent: &mut Blocks) -> Option<Answered> {
    match *call {
        BlockCall::Format | BlockCall::Test => None,
        BlockCall::OpenList { first } => on_table!(
            opened, mukthiban_tested_fat_open_list, lent, first, lent.list.as_mut_ptr(), lent.list.len()
        ),
        BlockCall::Create { count } => on_table!(created, mukthiban_tested_fat_create, lent, lent.block_len, count),
        BlockCall::Resize { first, count } => {
            on_table!(answered, mukthiban_tested_fat_resize, lent, lent.block_len, first, count)
        }
        BlockCall::Delete { first } => on_table!(answered, mukthiban_tested_fat_delete, lent, lent.block_len, first),
        BlockCall::Read { first, pos } => on_data!(
            answered, mukthiban_tested_fat_read, lent, first, pos, lent.buf.as_mut_ptr(), lent.buf.len()
        ),
        BlockCall::Write { first, pos } => on_data!(
            answered, mukthiban_tested_fat_write, lent, first, pos, lent.buf.as_ptr(), lent.buf.len()
        ),
    }
}

unsafe fn tree_call(call: &TreeCall, lent: &mut Tree) -> Option<Answered> {
    match *call {
        TreeCall::Format { .. } | TreeCall::Test | TreeCall::NameAnswer { .. } => None,
        TreeCall::Lookup { kind, parent, ref name } => match kind {
            Kind::Dir => on_four!(found, mukthiban_tested_tree_lookup_dir, lent, parent, name),
            Kind::File => on_four!(found, mukthiban_tested_tree_lookup_file, lent, parent, name),
        },
        TreeCall::Make { kind, parent, ref name, ref carried } => match kind {
            Kind::Dir => {
                let padding: &[u8; 4] = carried[..4].try_into().unwrap();
                on_four!(
                    made, mukthiban_tested_tree_make_dir, lent,
                    lent.dir_opens.list.as_mut_ptr(), lent.dir_opens.list.len(), &raw mut lent.dir_opens.opened, parent, name, padding
                )
            }
            Kind::File => on_four!(
                made, mukthiban_tested_tree_make_file, lent,
                lent.file_opens.list.as_mut_ptr(), lent.file_opens.list.len(), &raw mut lent.file_opens.opened, parent, name, carried
            ),
        },
        TreeCall::Rename { kind, inode, parent, ref name } => with_opens!(
            plain, kind, mukthiban_tested_tree_rename_dir, mukthiban_tested_tree_rename_file, lent,
            inode, parent, name
        ),
        TreeCall::Delete { kind, inode } => with_opens!(
            plain, kind, mukthiban_tested_tree_delete_dir, mukthiban_tested_tree_delete_file, lent, inode
        ),
        TreeCall::List { kind, inode } => match kind {
            Kind::Dir => on_four!(
                listed, mukthiban_tested_tree_list_dirs, lent, inode, lent.list.as_mut_ptr(), lent.list.len()
            ),
            Kind::File => on_four!(
                listed, mukthiban_tested_tree_list_files, lent, inode, lent.list.as_mut_ptr(), lent.list.len()
            ),
        },
        TreeCall::Stat => on_four!(stat, mukthiban_tested_tree_stat, lent),
        TreeCall::Name { kind, inode } => on_four!(named, mukthiban_tested_tree_name, lent, kind, inode),
        TreeCall::Carried { kind, inode } => match kind {
            // The lent place holds junk before, so that a byte left alone shows.
            Kind::Dir => {
                let mut place = [0xEE; 4];
                let number = on_four!(plain, mukthiban_tested_tree_carried_dir, lent, inode, &mut place)?;
                Some(Answered::carrying(number.number, &place))
            }
            Kind::File => {
                let mut place = [0xEE; 20];
                let number = on_four!(plain, mukthiban_tested_tree_carried_file, lent, inode, &mut place)?;
                Some(Answered::carrying(number.number, &place))
            }
        },
        TreeCall::SetCarried { kind, inode, ref carried } => match kind {
            Kind::Dir => {
                let padding: &[u8; 4] = carried[..4].try_into().unwrap();
                on_four!(plain, mukthiban_tested_tree_set_carried_dir, lent, inode, padding)
            }
            Kind::File => on_four!(plain, mukthiban_tested_tree_set_carried_file, lent, inode, carried),
        },
        TreeCall::Open { kind, inode, want } => with_opens!(
            plain, kind, mukthiban_tested_tree_open_dir, mukthiban_tested_tree_open_file, lent, inode, want
        ),
        TreeCall::Close { kind, inode, want } => with_opens!(
            plain, kind, mukthiban_tested_tree_close_dir, mukthiban_tested_tree_close_file, lent, inode, want
        ),
    }
}

impl Inner {
    /// None for format and the tests, which have no inner call, and for the name's number, which is the name's.
    pub fn block_call(&self, call: &BlockCall, lent: &mut Blocks) -> Option<Answered> {
        unsafe { block_call(call, lent) }
    }
    pub fn tree_call(&self, call: &TreeCall, lent: &mut Tree) -> Option<Answered> {
        unsafe { tree_call(call, lent) }
    }
}
