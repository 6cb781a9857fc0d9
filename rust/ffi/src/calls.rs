//! The public calls, as `include/mukthiban.h` declares them: none requires anything of what it is lent.

use crate::answers::*;

calls! {
    fn mukthiban_version() -> u32;
    fn mukthiban_fat_format(table: &mut [u8]) -> Plain;
    fn mukthiban_fat_test(table: &[u8], work: &mut [u32]) -> Tested;
    fn mukthiban_fat_open_list(
        table: &[u8], data: &[u8], block_len: usize, work: &mut [u32], first_block: usize, list: &mut [u32],
    ) -> Opened;
    fn mukthiban_fat_create(
        table: &mut [u8], data: &[u8], block_len: usize, work: &mut [u32], block_count: usize,
    ) -> Created;
    fn mukthiban_fat_resize(
        table: &mut [u8], data: &[u8], block_len: usize, work: &mut [u32], first_block: usize, block_count: usize,
    ) -> Answered;
    fn mukthiban_fat_delete(
        table: &mut [u8], data: &[u8], block_len: usize, work: &mut [u32], first_block: usize,
    ) -> Answered;
    fn mukthiban_fat_merge(table: &mut [u8], block_len: usize, work: &mut [u32]) -> Answered;
    fn mukthiban_fat_read(
        table: &[u8], data: &[u8], block_len: usize, work: &mut [u32], first_block: usize, pos: usize, buf: &mut [u8],
    ) -> Answered;
    fn mukthiban_fat_write(
        table: &[u8], data: &mut [u8], block_len: usize, work: &mut [u32], first_block: usize, pos: usize, buf: &[u8],
    ) -> Answered;
    fn mukthiban_fat_read_blocks(
        data: &[u8], block_len: usize, list: &[u32], pos: usize, buf: &mut [u8],
    ) -> Plain;
    fn mukthiban_fat_write_blocks(
        data: &mut [u8], block_len: usize, list: &[u32], pos: usize, buf: &[u8],
    ) -> Plain;
    fn mukthiban_plan_check(
        table: &[u8], data: &[u8], block_len: usize, work: &mut [u32], first_block: usize, plan: &[u32],
    ) -> Answered;
    fn mukthiban_plan_apply(
        table: &mut [u8], data: &mut [u8], block_len: usize, work: &mut [u32], first_block: usize, plan: &[u32],
    ) -> Created;
    fn mukthiban_plan_find(
        table: &[u8], data: &[u8], block_len: usize, work: &mut [u32], first_block: usize, list: &mut [u32],
    ) -> Planned;
    fn mukthiban_map_build(
        table: &[u8], data: &[u8], block_len: usize, work: &mut [u32], map: &mut [u32],
    ) -> Answered;
    fn mukthiban_map_create(
        table: &mut [u8], data: &[u8], block_len: usize, work: &mut [u32], map: &mut [u32], block_count: usize,
    ) -> Created;
    fn mukthiban_map_resize(
        table: &mut [u8], data: &[u8], block_len: usize, work: &mut [u32], map: &mut [u32], first_block: usize,
        block_count: usize,
    ) -> Answered;
    fn mukthiban_map_delete(
        table: &mut [u8], data: &[u8], block_len: usize, work: &mut [u32], map: &mut [u32], first_block: usize,
    ) -> Answered;
    fn mukthiban_map_count(map: &[u32], n: usize, a: usize, b: usize) -> Counted;
    fn mukthiban_tree_format(
        dir_hash: &mut [u8], dir_table: &mut [u8], dir_max: usize, file_hash: &mut [u8], file_table: &mut [u8],
        file_max: usize,
    ) -> Plain;
    fn mukthiban_tree_test(
        dir_hash: &[u8], dir_table: &[u8], file_hash: &[u8], file_table: &[u8],
        work: &mut [u32],
    ) -> Plain;
    fn mukthiban_tree_lookup_dir(
        dir_hash: &[u8], dir_table: &[u8], file_hash: &[u8], file_table: &[u8],
        work: &mut [u32], parent: u32, name: &[u8; 16],
    ) -> Found;
    fn mukthiban_tree_lookup_file(
        dir_hash: &[u8], dir_table: &[u8], file_hash: &[u8], file_table: &[u8],
        work: &mut [u32], parent: u32, name: &[u8; 16],
    ) -> Found;
    fn mukthiban_tree_make_dir(
        dir_hash: &mut [u8], dir_table: &mut [u8], file_hash: &[u8], file_table: &[u8],
        work: &mut [u32], opens: &mut [u32], opened: &mut usize, parent: u32, name: &[u8; 16], carried: &[u8; 4],
    ) -> Made;
    fn mukthiban_tree_make_file(
        dir_hash: &[u8], dir_table: &mut [u8], file_hash: &mut [u8], file_table: &mut [u8],
        work: &mut [u32], opens: &mut [u32], opened: &mut usize, parent: u32, name: &[u8; 16], carried: &[u8; 20],
    ) -> Made;
    fn mukthiban_tree_rename_dir(
        dir_hash: &mut [u8], dir_table: &mut [u8], file_hash: &[u8], file_table: &[u8],
        work: &mut [u32], opens: &[u32], opened: &usize, inode: u32, parent: u32, name: &[u8; 16],
    ) -> Plain;
    fn mukthiban_tree_rename_file(
        dir_hash: &[u8], dir_table: &mut [u8], file_hash: &mut [u8], file_table: &mut [u8],
        work: &mut [u32], opens: &[u32], opened: &usize, inode: u32, parent: u32, name: &[u8; 16],
    ) -> Plain;
    fn mukthiban_tree_delete_dir(
        dir_hash: &mut [u8], dir_table: &mut [u8], file_hash: &[u8], file_table: &[u8],
        work: &mut [u32], opens: &mut [u32], opened: &mut usize, inode: u32,
    ) -> Plain;
    fn mukthiban_tree_delete_file(
        dir_hash: &[u8], dir_table: &mut [u8], file_hash: &mut [u8], file_table: &mut [u8],
        work: &mut [u32], opens: &mut [u32], opened: &mut usize, inode: u32,
    ) -> Plain;
    fn mukthiban_tree_list_dirs(
        dir_hash: &[u8], dir_table: &[u8], file_hash: &[u8], file_table: &[u8],
        work: &mut [u32], inode: u32, list: &mut [u32],
    ) -> Listed;
    fn mukthiban_tree_list_files(
        dir_hash: &[u8], dir_table: &[u8], file_hash: &[u8], file_table: &[u8],
        work: &mut [u32], inode: u32, list: &mut [u32],
    ) -> Listed;
    fn mukthiban_tree_stat(
        dir_hash: &[u8], dir_table: &[u8], file_hash: &[u8], file_table: &[u8],
        work: &mut [u32],
    ) -> Stat;
    fn mukthiban_tree_aged(
        dir_hash: &[u8], dir_table: &[u8], file_hash: &[u8], file_table: &[u8],
        work: &mut [u32],
    ) -> Aged;
    fn mukthiban_tree_name(
        dir_hash: &[u8], dir_table: &[u8], file_hash: &[u8], file_table: &[u8],
        work: &mut [u32], kind: u32, inode: u32,
    ) -> Named;
    fn mukthiban_tree_carried_dir(
        dir_hash: &[u8], dir_table: &[u8], file_hash: &[u8], file_table: &[u8],
        work: &mut [u32], inode: u32, carried: &mut [u8; 4],
    ) -> Plain;
    fn mukthiban_tree_carried_file(
        dir_hash: &[u8], dir_table: &[u8], file_hash: &[u8], file_table: &[u8],
        work: &mut [u32], inode: u32, carried: &mut [u8; 20],
    ) -> Plain;
    fn mukthiban_tree_set_carried_dir(
        dir_hash: &[u8], dir_table: &mut [u8], file_hash: &[u8], file_table: &[u8],
        work: &mut [u32], inode: u32, carried: &[u8; 4],
    ) -> Plain;
    fn mukthiban_tree_set_carried_file(
        dir_hash: &[u8], dir_table: &[u8], file_hash: &[u8], file_table: &mut [u8],
        work: &mut [u32], inode: u32, carried: &[u8; 20],
    ) -> Plain;
    fn mukthiban_tree_open_dir(
        dir_hash: &[u8], dir_table: &[u8], file_hash: &[u8], file_table: &[u8],
        work: &mut [u32], opens: &mut [u32], opened: &mut usize, inode: u32, kind: u32,
    ) -> Plain;
    fn mukthiban_tree_open_file(
        dir_hash: &[u8], dir_table: &[u8], file_hash: &[u8], file_table: &[u8],
        work: &mut [u32], opens: &mut [u32], opened: &mut usize, inode: u32, kind: u32,
    ) -> Plain;
    fn mukthiban_tree_close_dir(
        dir_hash: &[u8], dir_table: &[u8], file_hash: &[u8], file_table: &[u8],
        work: &mut [u32], opens: &mut [u32], opened: &mut usize, inode: u32, kind: u32,
    ) -> Plain;
    fn mukthiban_tree_close_file(
        dir_hash: &[u8], dir_table: &[u8], file_hash: &[u8], file_table: &[u8],
        work: &mut [u32], opens: &mut [u32], opened: &mut usize, inode: u32, kind: u32,
    ) -> Plain;
    fn mukthiban_volume_audit(
        table: &[u8], data: &[u8], block_len: usize,
        dir_hash: &[u8], dir_table: &[u8], file_hash: &[u8], file_table: &[u8],
        work: &mut [u32], list: &mut [u32],
    ) -> Audited;
    fn mukthiban_kiosk_test(
        table: &[u8], data: &[u8], block_len: usize,
        dir_hash: &[u8], dir_table: &[u8], file_hash: &[u8], file_table: &[u8],
        work: &mut [u32],
    ) -> Profiled;
    fn mukthiban_kiosk_create(
        table: &mut [u8], data: &[u8], block_len: usize, work: &mut [u32], block_count: usize,
    ) -> Created;
    fn mukthiban_salvage_chain(
        table: &[u8], work: &mut [u32], first_block: usize, list: &mut [u32],
    ) -> Salvaged;
    fn mukthiban_salvage_shared(
        table: &[u8], work: &mut [u32], firsts: &[u32], list: &mut [u32],
    ) -> Plain;
    fn mukthiban_salvage_chains(
        table: &[u8], work: &mut [u32], firsts: &[u32], ends: &mut [usize], list: &mut [u32],
    ) -> Listed;
    fn mukthiban_salvage_dirs(table: &[u8], work: &mut [u32], list: &mut [u32]) -> Listed;
    fn mukthiban_salvage_files(table: &[u8], work: &mut [u32], list: &mut [u32]) -> Listed;
    fn mukthiban_salvage_way(table: &[u8], work: &mut [u32], inode: u32, list: &mut [u32]) -> Listed;
}
