//! The inner calls, as `include/mukthiban_tested.h` declares them: for tables that were tested once and changed since by
//! these calls alone. What each requires stands there.

use crate::answers::*;

calls! {
    fn mukthiban_tested_fat_open_list(table: &[u8], n: usize, first_block: usize, list: &mut [u32]) -> Opened;
    fn mukthiban_tested_fat_create(table: &mut [u8], n: usize, block_len: usize, block_count: usize) -> Created;
    fn mukthiban_tested_fat_resize(
        table: &mut [u8], n: usize, block_len: usize, first_block: usize, block_count: usize,
    ) -> Answered;
    fn mukthiban_tested_fat_delete(table: &mut [u8], n: usize, block_len: usize, first_block: usize) -> Answered;
    fn mukthiban_tested_fat_merge(table: &mut [u8], n: usize, block_len: usize, work: &mut [u32]) -> Answered;
    fn mukthiban_tested_fat_read(
        table: &[u8], n: usize, data: &[u8], block_len: usize, first_block: usize, pos: usize, buf: &mut [u8],
    ) -> Answered;
    fn mukthiban_tested_fat_write(
        table: &[u8], n: usize, data: &mut [u8], block_len: usize, first_block: usize, pos: usize, buf: &[u8],
    ) -> Answered;
    fn mukthiban_tested_volume_audit(
        table: &[u8], n: usize, block_len: usize, file_table: &[u8], work: &mut [u32], list: &mut [u32],
    ) -> Audited;
    fn mukthiban_tested_plan_check(
        table: &[u8], n: usize, work: &mut [u32], first_block: usize, plan: &[u32],
    ) -> Answered;
    fn mukthiban_tested_plan_apply(
        table: &mut [u8], n: usize, data: &mut [u8], block_len: usize, work: &mut [u32], first_block: usize, plan: &[u32],
    ) -> Created;
    fn mukthiban_tested_plan_find(
        table: &[u8], n: usize, work: &mut [u32], first_block: usize, list: &mut [u32],
    ) -> Planned;
    fn mukthiban_tested_kiosk_test(
        table: &[u8], n: usize, block_len: usize, dir_table: &[u8], file_table: &[u8], work: &mut [u32],
    ) -> Profiled;
    fn mukthiban_tested_kiosk_create(table: &mut [u8], n: usize, block_len: usize, block_count: usize) -> Created;
    fn mukthiban_tested_map_build(table: &[u8], n: usize, map: &mut [u32]) -> Answered;
    fn mukthiban_tested_map_create(
        table: &mut [u8], n: usize, block_len: usize, map: &mut [u32], block_count: usize,
    ) -> Created;
    fn mukthiban_tested_map_resize(
        table: &mut [u8], n: usize, block_len: usize, map: &mut [u32], first_block: usize, block_count: usize,
    ) -> Answered;
    fn mukthiban_tested_map_delete(
        table: &mut [u8], n: usize, block_len: usize, map: &mut [u32], first_block: usize,
    ) -> Answered;
    fn mukthiban_tested_first_build(table: &[u8], n: usize, firsts: &mut [u32]) -> Answered;
    fn mukthiban_tested_first_create(
        table: &mut [u8], n: usize, block_len: usize, map: &mut [u32], firsts: &mut [u32], block_count: usize,
    ) -> Created;
    fn mukthiban_tested_first_resize(
        table: &mut [u8], n: usize, block_len: usize, map: &mut [u32], firsts: &[u32], first_block: usize, block_count: usize,
    ) -> Answered;
    fn mukthiban_tested_first_delete(
        table: &mut [u8], n: usize, block_len: usize, map: &mut [u32], firsts: &mut [u32], first_block: usize,
    ) -> Answered;
    fn mukthiban_tested_first_open_list(
        table: &[u8], n: usize, firsts: &[u32], first_block: usize, list: &mut [u32],
    ) -> Opened;
    fn mukthiban_tested_first_read(
        table: &[u8], n: usize, firsts: &[u32], data: &[u8], block_len: usize, first_block: usize, pos: usize, buf: &mut [u8],
    ) -> Answered;
    fn mukthiban_tested_first_write(
        table: &[u8], n: usize, firsts: &[u32], data: &mut [u8], block_len: usize, first_block: usize, pos: usize, buf: &[u8],
    ) -> Answered;
    fn mukthiban_tested_tree_lookup_dir(
        dir_hash: &[u8], dir_table: &[u8], file_hash: &[u8], file_table: &[u8],
        parent: u32, name: &[u8; 16],
    ) -> Found;
    fn mukthiban_tested_tree_lookup_file(
        dir_hash: &[u8], dir_table: &[u8], file_hash: &[u8], file_table: &[u8],
        parent: u32, name: &[u8; 16],
    ) -> Found;
    fn mukthiban_tested_tree_make_dir(
        dir_hash: &mut [u8], dir_table: &mut [u8], file_hash: &[u8], file_table: &[u8],
        opens: &mut [u32], opened: &mut usize, parent: u32, name: &[u8; 16], carried: &[u8; 4],
    ) -> Made;
    fn mukthiban_tested_tree_make_file(
        dir_hash: &[u8], dir_table: &mut [u8], file_hash: &mut [u8], file_table: &mut [u8],
        opens: &mut [u32], opened: &mut usize, parent: u32, name: &[u8; 16], carried: &[u8; 20],
    ) -> Made;
    fn mukthiban_tested_tree_rename_dir(
        dir_hash: &mut [u8], dir_table: &mut [u8], file_hash: &[u8], file_table: &[u8],
        opens: &[u32], opened: &usize, inode: u32, parent: u32, name: &[u8; 16],
    ) -> Plain;
    fn mukthiban_tested_tree_rename_file(
        dir_hash: &[u8], dir_table: &mut [u8], file_hash: &mut [u8], file_table: &mut [u8],
        opens: &[u32], opened: &usize, inode: u32, parent: u32, name: &[u8; 16],
    ) -> Plain;
    fn mukthiban_tested_tree_delete_dir(
        dir_hash: &mut [u8], dir_table: &mut [u8], file_hash: &[u8], file_table: &[u8],
        opens: &mut [u32], opened: &mut usize, inode: u32,
    ) -> Plain;
    fn mukthiban_tested_tree_delete_file(
        dir_hash: &[u8], dir_table: &mut [u8], file_hash: &mut [u8], file_table: &mut [u8],
        opens: &mut [u32], opened: &mut usize, inode: u32,
    ) -> Plain;
    fn mukthiban_tested_tree_list_dirs(
        dir_hash: &[u8], dir_table: &[u8], file_hash: &[u8], file_table: &[u8],
        inode: u32, list: &mut [u32],
    ) -> Listed;
    fn mukthiban_tested_tree_list_files(
        dir_hash: &[u8], dir_table: &[u8], file_hash: &[u8], file_table: &[u8],
        inode: u32, list: &mut [u32],
    ) -> Listed;
    fn mukthiban_tested_tree_stat(dir_hash: &[u8], dir_table: &[u8], file_hash: &[u8], file_table: &[u8]) -> Stat;
    fn mukthiban_tested_tree_name(
        dir_hash: &[u8], dir_table: &[u8], file_hash: &[u8], file_table: &[u8],
        kind: u32, inode: u32,
    ) -> Named;
    fn mukthiban_tested_tree_carried_dir(
        dir_hash: &[u8], dir_table: &[u8], file_hash: &[u8], file_table: &[u8],
        inode: u32, carried: &mut [u8; 4],
    ) -> Plain;
    fn mukthiban_tested_tree_carried_file(
        dir_hash: &[u8], dir_table: &[u8], file_hash: &[u8], file_table: &[u8],
        inode: u32, carried: &mut [u8; 20],
    ) -> Plain;
    fn mukthiban_tested_tree_set_carried_dir(
        dir_hash: &[u8], dir_table: &mut [u8], file_hash: &[u8], file_table: &[u8],
        inode: u32, carried: &[u8; 4],
    ) -> Plain;
    fn mukthiban_tested_tree_set_carried_file(
        dir_hash: &[u8], dir_table: &[u8], file_hash: &[u8], file_table: &mut [u8],
        inode: u32, carried: &[u8; 20],
    ) -> Plain;
    fn mukthiban_tested_tree_open_dir(
        dir_hash: &[u8], dir_table: &[u8], file_hash: &[u8], file_table: &[u8],
        opens: &mut [u32], opened: &mut usize, inode: u32, kind: u32,
    ) -> Plain;
    fn mukthiban_tested_tree_open_file(
        dir_hash: &[u8], dir_table: &[u8], file_hash: &[u8], file_table: &[u8],
        opens: &mut [u32], opened: &mut usize, inode: u32, kind: u32,
    ) -> Plain;
    fn mukthiban_tested_tree_close_dir(
        dir_hash: &[u8], dir_table: &[u8], file_hash: &[u8], file_table: &[u8],
        opens: &mut [u32], opened: &mut usize, inode: u32, kind: u32,
    ) -> Plain;
    fn mukthiban_tested_tree_close_file(
        dir_hash: &[u8], dir_table: &[u8], file_hash: &[u8], file_table: &[u8],
        opens: &mut [u32], opened: &mut usize, inode: u32, kind: u32,
    ) -> Plain;
}
