//! The proved library as a port, through its C interface.

use crate::{Answered, BlockCall, Blocks, Kind, Port, Tree, TreeCall};
use mukthiban_ffi::*;

pub struct Library;

pub(crate) fn plain(p: Plain) -> Answered {
    Answered::number(p.answer)
}
pub(crate) fn answered(a: mukthiban_ffi::Answered) -> Answered {
    Answered::number(a.answer).at(a.entry, a.rule)
}
pub(crate) fn tested(t: Tested) -> Answered {
    Answered::with(t.answer, &[t.free as u64, t.files as u64]).at(t.entry, t.rule)
}
pub(crate) fn opened(o: Opened) -> Answered {
    Answered::with(o.answer, &[o.count as u64]).at(o.entry, o.rule)
}
pub(crate) fn listed(l: Listed) -> Answered {
    Answered::with(l.answer, &[l.count as u64])
}
pub(crate) fn created(c: Created) -> Answered {
    Answered::with(c.answer, &[c.first_block as u64]).at(c.entry, c.rule)
}
pub(crate) fn made(m: Made) -> Answered {
    Answered::with(m.answer, &[m.inode.into()])
}
pub(crate) fn found(f: Found) -> Answered {
    Answered::with(f.answer, &[f.inode.into(), f.compared.into()])
}
pub(crate) fn stat(s: Stat) -> Answered {
    let fields = [s.dir_total, s.dir_free, s.file_total, s.file_free];
    Answered::with(s.answer, &fields.map(|f| f as u64))
}
pub(crate) fn named(n: Named) -> Answered {
    Answered::with(n.answer, &[n.offset as u64])
}

/// A call over table, data, block length and work list.
macro_rules! on_volume {
    ($to:ident, $call:ident, $lent:ident $(, $more:expr)*) => {
        $to($call(
            $lent.table.as_mut_ptr(), $lent.table.len(),
            $lent.data.as_mut_ptr(), $lent.data.len(),
            $lent.block_len,
            $lent.work.as_mut_ptr(), $lent.work.len(),
            $($more),*
        ))
    };
}

/// A call over the four tables and the work list.
macro_rules! on_four {
    ($to:ident, $call:ident, $lent:ident $(, $more:expr)*) => {
        $to($call(
            $lent.dir_hash.as_mut_ptr(), $lent.dir_hash.len(),
            $lent.dir_table.as_mut_ptr(), $lent.dir_table.len(),
            $lent.file_hash.as_mut_ptr(), $lent.file_hash.len(),
            $lent.file_table.as_mut_ptr(), $lent.file_table.len(),
            $lent.work.as_mut_ptr(), $lent.work.len(),
            $($more),*
        ))
    };
}

/// The same with the open records of the kind: one call for directories, one for files.
macro_rules! with_opens {
    ($to:ident, $kind:expr, $dir:ident, $file:ident, $lent:ident $(, $more:expr)*) => {
        match $kind {
            Kind::Dir => on_four!($to, $dir, $lent, $lent.dir_opens.list.as_mut_ptr(), $lent.dir_opens.list.len(), &raw mut $lent.dir_opens.opened $(, $more)*),
            Kind::File => on_four!($to, $file, $lent, $lent.file_opens.list.as_mut_ptr(), $lent.file_opens.list.len(), &raw mut $lent.file_opens.opened $(, $more)*),
        }
    };
}

unsafe fn block_call(call: &BlockCall, lent: &mut Blocks) -> Answered {
    match *call {
        BlockCall::Format => plain(mukthiban_fat_format(lent.table.as_mut_ptr(), lent.table.len())),
        BlockCall::Test => {
            let (table, work) = (&lent.table, &mut lent.work);
            tested(mukthiban_fat_test(table.as_ptr(), table.len(), work.as_mut_ptr(), work.len()))
        }
        BlockCall::OpenList { first } => on_volume!(
            opened, mukthiban_fat_open_list, lent, first, lent.list.as_mut_ptr(), lent.list.len()
        ),
        BlockCall::Create { count } => on_volume!(created, mukthiban_fat_create, lent, count),
        BlockCall::Resize { first, count } => {
            on_volume!(answered, mukthiban_fat_resize, lent, first, count)
        }
        BlockCall::Delete { first } => on_volume!(answered, mukthiban_fat_delete, lent, first),
        BlockCall::Read { first, pos } => on_volume!(
            answered, mukthiban_fat_read, lent, first, pos, lent.buf.as_mut_ptr(), lent.buf.len()
        ),
        BlockCall::Write { first, pos } => on_volume!(
            answered, mukthiban_fat_write, lent, first, pos, lent.buf.as_ptr(), lent.buf.len()
        ),
    }
}

unsafe fn tree_format(lent: &mut Tree, dir_max: usize, file_max: usize) -> Answered {
    plain(mukthiban_tree_format(
        lent.dir_hash.as_mut_ptr(),
        lent.dir_hash.len(),
        lent.dir_table.as_mut_ptr(),
        lent.dir_table.len(),
        dir_max,
        lent.file_hash.as_mut_ptr(),
        lent.file_hash.len(),
        lent.file_table.as_mut_ptr(),
        lent.file_table.len(),
        file_max,
    ))
}

unsafe fn tree_call(call: &TreeCall, lent: &mut Tree) -> Answered {
    match *call {
        TreeCall::Format { dir_max, file_max } => tree_format(lent, dir_max, file_max),
        TreeCall::Test => on_four!(plain, mukthiban_tree_test, lent),
        TreeCall::Lookup { kind, parent, ref name } => match kind {
            Kind::Dir => on_four!(found, mukthiban_tree_lookup_dir, lent, parent, name),
            Kind::File => on_four!(found, mukthiban_tree_lookup_file, lent, parent, name),
        },
        TreeCall::Make { kind, parent, ref name, ref carried } => match kind {
            Kind::Dir => {
                let padding: &[u8; 4] = carried[..4].try_into().unwrap();
                on_four!(
                    made, mukthiban_tree_make_dir, lent,
                    lent.dir_opens.list.as_mut_ptr(), lent.dir_opens.list.len(), &raw mut lent.dir_opens.opened, parent, name, padding
                )
            }
            Kind::File => on_four!(
                made, mukthiban_tree_make_file, lent,
                lent.file_opens.list.as_mut_ptr(), lent.file_opens.list.len(), &raw mut lent.file_opens.opened, parent, name, carried
            ),
        },
        TreeCall::Rename { kind, inode, parent, ref name } => with_opens!(
            plain, kind, mukthiban_tree_rename_dir, mukthiban_tree_rename_file, lent,
            inode, parent, name
        ),
        TreeCall::Delete { kind, inode } => with_opens!(
            plain, kind, mukthiban_tree_delete_dir, mukthiban_tree_delete_file, lent, inode
        ),
        TreeCall::List { kind, inode } => match kind {
            Kind::Dir => on_four!(
                listed, mukthiban_tree_list_dirs, lent, inode, lent.list.as_mut_ptr(), lent.list.len()
            ),
            Kind::File => on_four!(
                listed, mukthiban_tree_list_files, lent, inode, lent.list.as_mut_ptr(), lent.list.len()
            ),
        },
        TreeCall::Stat => on_four!(stat, mukthiban_tree_stat, lent),
        TreeCall::Name { kind, inode } => on_four!(named, mukthiban_tree_name, lent, kind, inode),
        // In C the number stands beside the name's place.
        TreeCall::NameAnswer { kind, inode } => {
            let answered = on_four!(named, mukthiban_tree_name, lent, kind, inode);
            Answered::number(answered.number)
        }
        TreeCall::Carried { kind, inode } => match kind {
            // The lent place holds junk before, so that a byte left alone shows.
            Kind::Dir => {
                let mut place = [0xEE; 4];
                let number = on_four!(plain, mukthiban_tree_carried_dir, lent, inode, &mut place);
                Answered::carrying(number.number, &place)
            }
            Kind::File => {
                let mut place = [0xEE; 20];
                let number = on_four!(plain, mukthiban_tree_carried_file, lent, inode, &mut place);
                Answered::carrying(number.number, &place)
            }
        },
        TreeCall::SetCarried { kind, inode, ref carried } => match kind {
            Kind::Dir => {
                let padding: &[u8; 4] = carried[..4].try_into().unwrap();
                on_four!(plain, mukthiban_tree_set_carried_dir, lent, inode, padding)
            }
            Kind::File => on_four!(plain, mukthiban_tree_set_carried_file, lent, inode, carried),
        },
        TreeCall::Open { kind, inode, want } => with_opens!(
            plain, kind, mukthiban_tree_open_dir, mukthiban_tree_open_file, lent, inode, want
        ),
        TreeCall::Close { kind, inode, want } => with_opens!(
            plain, kind, mukthiban_tree_close_dir, mukthiban_tree_close_file, lent, inode, want
        ),
    }
}

impl Port for Library {
    fn block_call(&self, call: &BlockCall, lent: &mut Blocks) -> Answered {
        unsafe { block_call(call, lent) }
    }
    fn tree_call(&self, call: &TreeCall, lent: &mut Tree) -> Answered {
        unsafe { tree_call(call, lent) }
    }
}
