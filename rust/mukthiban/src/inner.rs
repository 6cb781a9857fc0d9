//! The one place that calls the inner calls, which require sound tables and test nothing.
//!
//! Safety, for all of this module: the tables were accepted by both tests and changed since by these calls alone, and
//! the rest of what `include/mukthiban_tested.h` requires holds. [`Volume`](crate::Volume) sees to it.

use crate::parts::Parts;
use crate::whole::Maps;
use mukthiban_ffi::{tested, Answered, Audited, Created, Opened, Planned, Profiled};

/// `map` has the words of the table's blocks. It is, after the call, the table's free map.
pub unsafe fn build(p: &Parts, map: &mut [u32]) -> Answered {
    tested::mukthiban_tested_map_build(p.fat.as_ptr(), p.fat.len(), p.blocks(), map.as_mut_ptr(), map.len())
}

/// `firsts` has the words of the table's blocks. It is, after the call, the table's map of first blocks.
pub unsafe fn build_firsts(p: &Parts, firsts: &mut [u32]) -> Answered {
    let (fat, len) = (p.fat.as_ptr(), p.fat.len());
    tested::mukthiban_tested_first_build(fat, len, p.blocks(), firsts.as_mut_ptr(), firsts.len())
}

// The same calls without maps, `mukthiban_tested_fat_create`, `mukthiban_tested_fat_resize`, `mukthiban_tested_fat_delete`,
// `mukthiban_tested_fat_open_list`, `mukthiban_tested_fat_read` and `mukthiban_tested_fat_write`, and with the free map alone,
// `mukthiban_tested_map_create`, `mukthiban_tested_map_resize` and `mukthiban_tested_map_delete`, are for a program that keeps
// none or one.

/// Both maps are the table's, before the call and after it; here and in the next two.
pub unsafe fn create(p: &mut Parts, maps: &mut Maps, block_count: usize) -> Created {
    tested::mukthiban_tested_first_create(
        p.fat.as_mut_ptr(),
        p.fat.len(),
        p.blocks(),
        p.block_len,
        maps.free.as_mut_ptr(),
        maps.free.len(),
        maps.firsts.as_mut_ptr(),
        maps.firsts.len(),
        block_count,
    )
}

pub unsafe fn resize(p: &mut Parts, maps: &mut Maps, first: usize, block_count: usize) -> Answered {
    tested::mukthiban_tested_first_resize(
        p.fat.as_mut_ptr(),
        p.fat.len(),
        p.blocks(),
        p.block_len,
        maps.free.as_mut_ptr(),
        maps.free.len(),
        maps.firsts.as_ptr(),
        maps.firsts.len(),
        first,
        block_count,
    )
}

pub unsafe fn delete(p: &mut Parts, maps: &mut Maps, first: usize) -> Answered {
    tested::mukthiban_tested_first_delete(
        p.fat.as_mut_ptr(),
        p.fat.len(),
        p.blocks(),
        p.block_len,
        maps.free.as_mut_ptr(),
        maps.free.len(),
        maps.firsts.as_mut_ptr(),
        maps.firsts.len(),
        first,
    )
}

/// `work` has a place for each block, all 0.
pub unsafe fn merge(p: &mut Parts, work: &mut [u32]) -> Answered {
    let (fat, len) = (p.fat.as_mut_ptr(), p.fat.len());
    tested::mukthiban_tested_fat_merge(fat, len, p.blocks(), p.block_len, work.as_mut_ptr(), work.len())
}

/// `work` has a place for each block and each place of the file table, all 0.
pub unsafe fn audit(p: &Parts, work: &mut [u32], list: &mut [u32]) -> Audited {
    tested::mukthiban_tested_volume_audit(
        p.fat.as_ptr(),
        p.fat.len(),
        p.blocks(),
        p.block_len,
        p.file_table.as_ptr(),
        p.file_table.len(),
        work.as_mut_ptr(),
        work.len(),
        list.as_mut_ptr(),
        list.len(),
    )
}

/// `work` as for [`audit`].
pub unsafe fn kiosk_test(p: &Parts, work: &mut [u32]) -> Profiled {
    tested::mukthiban_tested_kiosk_test(
        p.fat.as_ptr(),
        p.fat.len(),
        p.blocks(),
        p.block_len,
        p.dir_table.as_ptr(),
        p.dir_table.len(),
        p.file_table.as_ptr(),
        p.file_table.len(),
        work.as_mut_ptr(),
        work.len(),
    )
}

/// The map is left behind.
pub unsafe fn kiosk_create(p: &mut Parts, block_count: usize) -> Created {
    let (fat, len) = (p.fat.as_mut_ptr(), p.fat.len());
    tested::mukthiban_tested_kiosk_create(fat, len, p.blocks(), p.block_len, block_count)
}

/// `work` as for [`merge`].
pub unsafe fn plan_check(p: &Parts, work: &mut [u32], first: usize, plan: &[u32]) -> Answered {
    tested::mukthiban_tested_plan_check(
        p.fat.as_ptr(),
        p.fat.len(),
        p.blocks(),
        work.as_mut_ptr(),
        work.len(),
        first,
        plan.as_ptr(),
        plan.len(),
    )
}

/// `work` as for [`merge`].
pub unsafe fn plan_apply(p: &mut Parts, work: &mut [u32], first: usize, plan: &[u32]) -> Created {
    tested::mukthiban_tested_plan_apply(
        p.fat.as_mut_ptr(),
        p.fat.len(),
        p.blocks(),
        p.data.as_mut_ptr(),
        p.data.len(),
        p.block_len,
        work.as_mut_ptr(),
        work.len(),
        first,
        plan.as_ptr(),
        plan.len(),
    )
}

/// `work` as for [`merge`].
pub unsafe fn plan_find(p: &Parts, work: &mut [u32], first: usize, list: &mut [u32]) -> Planned {
    tested::mukthiban_tested_plan_find(
        p.fat.as_ptr(),
        p.fat.len(),
        p.blocks(),
        work.as_mut_ptr(),
        work.len(),
        first,
        list.as_mut_ptr(),
        list.len(),
    )
}

/// `firsts` is the table's map of first blocks; here and in the next two.
pub unsafe fn open_list(p: &Parts, firsts: &[u32], first: usize, list: &mut [u32]) -> Opened {
    tested::mukthiban_tested_first_open_list(
        p.fat.as_ptr(),
        p.fat.len(),
        p.blocks(),
        firsts.as_ptr(),
        firsts.len(),
        first,
        list.as_mut_ptr(),
        list.len(),
    )
}

pub unsafe fn read(p: &Parts, firsts: &[u32], first: usize, pos: usize, buf: &mut [u8]) -> Answered {
    tested::mukthiban_tested_first_read(
        p.fat.as_ptr(),
        p.fat.len(),
        p.blocks(),
        firsts.as_ptr(),
        firsts.len(),
        p.data.as_ptr(),
        p.data.len(),
        p.block_len,
        first,
        pos,
        buf.as_mut_ptr(),
        buf.len(),
    )
}

pub unsafe fn write(p: &mut Parts, firsts: &[u32], first: usize, pos: usize, buf: &[u8]) -> Answered {
    tested::mukthiban_tested_first_write(
        p.fat.as_ptr(),
        p.fat.len(),
        p.blocks(),
        firsts.as_ptr(),
        firsts.len(),
        p.data.as_mut_ptr(),
        p.data.len(),
        p.block_len,
        first,
        pos,
        buf.as_ptr(),
        buf.len(),
    )
}

/// A call on the four tables: `on_tree!(call, read PARTS, ..)`, or `change` in the place of `read`.
macro_rules! on_tree {
    (@ $call:ident, $p:expr, $as:ident, $($rest:expr),*) => {
        mukthiban_ffi::tested::$call(
            $p.dir_hash.$as(), $p.dir_hash.len(), $p.dir_table.$as(), $p.dir_table.len(),
            $p.file_hash.$as(), $p.file_hash.len(), $p.file_table.$as(), $p.file_table.len(),
            $($rest),*
        )
    };
    ($call:ident, read $p:expr $(, $rest:expr)* $(,)?) => {
        $crate::inner::on_tree!(@ $call, $p, as_ptr, $($rest),*)
    };
    ($call:ident, change $p:expr $(, $rest:expr)* $(,)?) => {
        $crate::inner::on_tree!(@ $call, $p, as_mut_ptr, $($rest),*)
    };
}
pub(crate) use on_tree;
