/* The inner calls of Mukthiban: for a program that has tested its tables once
 * and changes them by these calls alone. They test nothing of the tables, and
 * so cost what they touch and not a test of the whole table. Those that change
 * blocks look at the block length, and answer 20 where it is not in use.
 *
 * DANGER: unlike the calls of mukthiban.h they may NOT be handed any bytes.
 * Each is proved for what stands under Requires and for nothing else; on other
 * input it may read or write anywhere. Where in doubt use mukthiban.h.
 *
 * What "Requires" means:
 *  - A sound table of n blocks: mukthiban_fat_test answered MUKTHIBAN_DONE on
 *    table, and n = table_len / 8 - 1.
 *  - Data that fit: block_len is from 1 to 65,536 and data_len = n * block_len.
 *  - Sound tables: mukthiban_tree_test answered MUKTHIBAN_DONE on the four.
 *  - Open records in order: *opened is at most opens_len / 2, and the first
 *    *opened records of opens rise by inode, none of inode 0 and none of 0.
 *    None open is *opened = 0. These calls keep them so.
 * Whatever these calls answer, sound tables stay sound: so after one test any
 * number of them may follow, as long as nothing else writes to the tables.
 *
 * Each answers what the call of the same name in mukthiban.h answers on such
 * input, with the same bytes changed, in the order that stands at it (those
 * beside both maps, mukthiban_tested_first_.., what mukthiban_fat_.. answers).
 * There is no work list, but for the merge, the plans, the audit and the
 * kiosk's test.
 */
#ifndef MUKTHIBAN_TESTED_H
#define MUKTHIBAN_TESTED_H

#include "mukthiban.h"

#ifdef __cplusplus
extern "C" {
#endif

/* ---- The block table ---- */

/* Writes the file's blocks to list, in chain order. Answers 5, 8.
 * Requires: a sound table of n blocks. */
mukthiban_opened mukthiban_tested_fat_open_list(const uint8_t *table, size_t table_len, size_t n,
                                                size_t first_block,
                                                uint32_t *list, size_t list_len);

/* Makes a file of block_count blocks. Answers 20, 2 (count 0), 6.
 * Requires: a sound table of n blocks. */
mukthiban_created mukthiban_tested_fat_create(uint8_t *table, size_t table_len, size_t n, size_t block_len,
                                              size_t block_count);

/* Grows or shrinks a file to block_count blocks. Answers 20, 5, 2 (count 0), 6.
 * Requires: a sound table of n blocks. */
mukthiban_answered mukthiban_tested_fat_resize(uint8_t *table, size_t table_len, size_t n, size_t block_len,
                                               size_t first_block, size_t block_count);

/* Gives a whole file back. Answers 20, 5.
 * Requires: a sound table of n blocks. */
mukthiban_answered mukthiban_tested_fat_delete(uint8_t *table, size_t table_len, size_t n, size_t block_len,
                                               size_t first_block);

/* Merges free neighbours. Answers 20.
 * Requires: a sound table of n blocks; work_len = n, and every place of work is 0. They are 0 on return. */
mukthiban_answered mukthiban_tested_fat_merge(uint8_t *table, size_t table_len, size_t n, size_t block_len,
                                              uint32_t *work, size_t work_len);

/* Reads buf_len bytes of the file from pos into buf. Answers 5, 7.
 * Requires: a sound table of n blocks and data that fit. */
mukthiban_answered mukthiban_tested_fat_read(const uint8_t *table, size_t table_len, size_t n,
                                             const uint8_t *data, size_t data_len, size_t block_len,
                                             size_t first_block, size_t pos,
                                             uint8_t *buf, size_t buf_len);

/* Writes buf's bytes to the file from pos on. Answers 20, 5, 7.
 * Requires: a sound table of n blocks and data that fit. */
mukthiban_answered mukthiban_tested_fat_write(const uint8_t *table, size_t table_len, size_t n,
                                              uint8_t *data, size_t data_len, size_t block_len,
                                              size_t first_block, size_t pos,
                                              const uint8_t *buf, size_t buf_len);

/* ---- Both layers ---- */

/* Writes where the files' records and the chains of the block table disagree to
 * list, as mukthiban_volume_audit does. Answers 8.
 * Requires: a sound table of n blocks, block_len from 1 to 65,536, sound tables
 * of which file_table is one; work_len is at least n and the room of the files,
 * and every place of work is 0. They are 0 on return. */
mukthiban_audited mukthiban_tested_volume_audit(const uint8_t *table, size_t table_len, size_t n, size_t block_len,
                                                const uint8_t *file_table, size_t file_table_len,
                                                uint32_t *work, size_t work_len,
                                                uint32_t *list, size_t list_len);

/* ---- Plans that make a file whole ---- */

/* Checks a plan. Answers 5, 2 (not accepted).
 * Requires: a sound table of n blocks; work_len = n, and every place of work is 0. They are 0 on return. */
mukthiban_answered mukthiban_tested_plan_check(const uint8_t *table, size_t table_len, size_t n,
                                               uint32_t *work, size_t work_len,
                                               size_t first_block,
                                               const uint32_t *plan, size_t plan_len);

/* Applies a plan. Answers 20, 5, 2 (not accepted).
 * Requires: a sound table of n blocks and data that fit; work_len = n, and every place of work is 0. They are 0 on return. */
mukthiban_created mukthiban_tested_plan_apply(uint8_t *table, size_t table_len, size_t n,
                                              uint8_t *data, size_t data_len, size_t block_len,
                                              uint32_t *work, size_t work_len,
                                              size_t first_block,
                                              const uint32_t *plan, size_t plan_len);

/* Finds a plan. Answers 5, 6, 8.
 * Requires: a sound table of n blocks; work_len = n, and every place of work is 0. They are 0 on return. */
mukthiban_planned mukthiban_tested_plan_find(const uint8_t *table, size_t table_len, size_t n,
                                             uint32_t *work, size_t work_len,
                                             size_t first_block,
                                             uint32_t *list, size_t list_len);

/* ---- The demo kiosk ---- */

/* Tells the first rule of the kiosk's profile that is broken, 0 where none is, as mukthiban_kiosk_test does. Answers nothing
 * but MUKTHIBAN_DONE.
 * Requires: as mukthiban_tested_volume_audit, and dir_table is one of the sound tables too. */
mukthiban_profiled mukthiban_tested_kiosk_test(const uint8_t *table, size_t table_len, size_t n, size_t block_len,
                                               const uint8_t *dir_table, size_t dir_table_len,
                                               const uint8_t *file_table, size_t file_table_len,
                                               uint32_t *work, size_t work_len);

/* Makes a file in one node, as mukthiban_kiosk_create does. Answers 20, 2 (count 0), 6.
 * Requires: a sound table of n blocks. */
mukthiban_created mukthiban_tested_kiosk_create(uint8_t *table, size_t table_len, size_t n,
                                                size_t block_len, size_t block_count);

/* ---- The free map ---- */

/* Builds the map of the table. Answers nothing but MUKTHIBAN_DONE.
 * Requires: a sound table of n blocks; map_len is n / 32, rounded up. */
mukthiban_answered mukthiban_tested_map_build(const uint8_t *table, size_t table_len, size_t n,
                                              uint32_t *map, size_t map_len);

/* Makes a file of block_count blocks and keeps the map: only the words of the blocks that move are written, but that with 6 the
 * map is drawn again and is as it was. Answers 20, 2 (count 0), 6.
 * Requires: a sound table of n blocks; map_len is n / 32, rounded up, and map is the table's, as the call above or an earlier
 * one of these left it, with no change of the table since but by these or by a merge. So of the next two. */
mukthiban_created mukthiban_tested_map_create(uint8_t *table, size_t table_len, size_t n, size_t block_len,
                                              uint32_t *map, size_t map_len, size_t block_count);

/* Grows or shrinks a file to block_count blocks and keeps the map. Answers 20, 5, 2 (count 0), 6.
 * Requires: as mukthiban_tested_map_create. */
mukthiban_answered mukthiban_tested_map_resize(uint8_t *table, size_t table_len, size_t n, size_t block_len,
                                               uint32_t *map, size_t map_len, size_t first_block, size_t block_count);

/* Gives a whole file back and keeps the map. Answers 20, 5.
 * Requires: as mukthiban_tested_map_create. */
mukthiban_answered mukthiban_tested_map_delete(uint8_t *table, size_t table_len, size_t n, size_t block_len,
                                               uint32_t *map, size_t map_len, size_t first_block);

/* ---- Both maps ----
 * The map of files' first blocks has a bit a block, the lowest block in the lowest bit of the first word, set where the block is
 * a file's first; unused bits are 0. With it a call sees by one bit whether a block begins a file, and goes over no other file's
 * nodes. The calls below keep both maps, whatever they answer. Every other call that changes the table leaves the map of first
 * blocks behind: build it again, also after a merge, of which it is not promised that the map stays right. */

/* Builds the map of first blocks. Answers nothing but MUKTHIBAN_DONE.
 * Requires: a sound table of n blocks; firsts_len is n / 32, rounded up. */
mukthiban_answered mukthiban_tested_first_build(const uint8_t *table, size_t table_len, size_t n,
                                                uint32_t *firsts, size_t firsts_len);

/* Makes a file of block_count blocks. Answers 20, 2 (count 0), 6.
 * Requires: a sound table of n blocks; map_len and firsts_len are n / 32, rounded up, and both maps are the table's, as the two
 * builds or an earlier one of these calls left them, with no change of the table since but by these. So of the next two. */
mukthiban_created mukthiban_tested_first_create(uint8_t *table, size_t table_len, size_t n, size_t block_len,
                                                uint32_t *map, size_t map_len, uint32_t *firsts, size_t firsts_len,
                                                size_t block_count);

/* Grows or shrinks a file to block_count blocks. Answers 20, 5, 2 (count 0), 6.
 * Requires: as mukthiban_tested_first_create. */
mukthiban_answered mukthiban_tested_first_resize(uint8_t *table, size_t table_len, size_t n, size_t block_len,
                                                 uint32_t *map, size_t map_len,
                                                 const uint32_t *firsts, size_t firsts_len,
                                                 size_t first_block, size_t block_count);

/* Gives a whole file back. Answers 20, 5.
 * Requires: as mukthiban_tested_first_create. */
mukthiban_answered mukthiban_tested_first_delete(uint8_t *table, size_t table_len, size_t n, size_t block_len,
                                                 uint32_t *map, size_t map_len, uint32_t *firsts, size_t firsts_len,
                                                 size_t first_block);

/* Writes the file's blocks to list, in chain order. Answers 5, 8.
 * Requires: a sound table of n blocks; firsts is the table's, as for mukthiban_tested_first_create. So of the next two. */
mukthiban_opened mukthiban_tested_first_open_list(const uint8_t *table, size_t table_len, size_t n,
                                                  const uint32_t *firsts, size_t firsts_len,
                                                  size_t first_block, uint32_t *list, size_t list_len);

/* Reads buf_len bytes of the file from pos into buf. Answers 5, 7.
 * Requires: as mukthiban_tested_first_open_list, and data that fit. */
mukthiban_answered mukthiban_tested_first_read(const uint8_t *table, size_t table_len, size_t n,
                                               const uint32_t *firsts, size_t firsts_len,
                                               const uint8_t *data, size_t data_len, size_t block_len,
                                               size_t first_block, size_t pos, uint8_t *buf, size_t buf_len);

/* Writes buf's bytes to the file from pos on. Answers 20, 5, 7.
 * Requires: as mukthiban_tested_first_open_list, and data that fit. */
mukthiban_answered mukthiban_tested_first_write(const uint8_t *table, size_t table_len, size_t n,
                                                const uint32_t *firsts, size_t firsts_len,
                                                uint8_t *data, size_t data_len, size_t block_len,
                                                size_t first_block, size_t pos,
                                                const uint8_t *buf, size_t buf_len);

/* ---- The entry tables ---- */

/* Finds the directory with that parent and name. Answers 10.
 * Requires: sound tables. */
mukthiban_found mukthiban_tested_tree_lookup_dir(const uint8_t *dir_hash, size_t dir_hash_len,
                                                 const uint8_t *dir_table, size_t dir_table_len,
                                                 const uint8_t *file_hash, size_t file_hash_len,
                                                 const uint8_t *file_table, size_t file_table_len,
                                                 uint32_t parent, const uint8_t name[16]);

/* Finds the file with that parent and name. Answers 10.
 * Requires: sound tables. */
mukthiban_found mukthiban_tested_tree_lookup_file(const uint8_t *dir_hash, size_t dir_hash_len,
                                                  const uint8_t *dir_table, size_t dir_table_len,
                                                  const uint8_t *file_hash, size_t file_hash_len,
                                                  const uint8_t *file_table, size_t file_table_len,
                                                  uint32_t parent, const uint8_t name[16]);

/* Makes a directory, held by its writer. Answers 2 (name), 10 (parent), 11, 6, 17 (no place for the new inode).
 * Requires: sound tables, open records in order. */
mukthiban_made mukthiban_tested_tree_make_dir(uint8_t *dir_hash, size_t dir_hash_len,
                                              uint8_t *dir_table, size_t dir_table_len,
                                              const uint8_t *file_hash, size_t file_hash_len,
                                              const uint8_t *file_table, size_t file_table_len,
                                              uint32_t *opens, size_t opens_len, size_t *opened, uint32_t parent,
                                              const uint8_t name[16], const uint8_t carried[4]);

/* Makes a file entry, held by its writer. Answers 2 (name), 10 (parent), 11, 6, 17 (no place for the new inode).
 * Requires: sound tables, open records in order. */
mukthiban_made mukthiban_tested_tree_make_file(const uint8_t *dir_hash, size_t dir_hash_len,
                                               uint8_t *dir_table, size_t dir_table_len,
                                               uint8_t *file_hash, size_t file_hash_len,
                                               uint8_t *file_table, size_t file_table_len,
                                               uint32_t *opens, size_t opens_len, size_t *opened, uint32_t parent,
                                               const uint8_t name[16], const uint8_t carried[20]);

/* Gives a directory that a writer holds another parent and name. Answers 10 (subject), 16, 13, 2 (name), 10 (parent), 15, 11.
 * Requires: sound tables, open records in order. */
mukthiban_plain mukthiban_tested_tree_rename_dir(uint8_t *dir_hash, size_t dir_hash_len,
                                                 uint8_t *dir_table, size_t dir_table_len,
                                                 const uint8_t *file_hash, size_t file_hash_len,
                                                 const uint8_t *file_table, size_t file_table_len,
                                                 const uint32_t *opens, size_t opens_len, const size_t *opened, uint32_t inode,
                                                 uint32_t parent, const uint8_t name[16]);

/* Gives a file that a writer holds another parent and name. Answers 10 (subject), 16, 2 (name), 10 (parent), 11.
 * Requires: sound tables, open records in order. */
mukthiban_plain mukthiban_tested_tree_rename_file(const uint8_t *dir_hash, size_t dir_hash_len,
                                                  uint8_t *dir_table, size_t dir_table_len,
                                                  uint8_t *file_hash, size_t file_hash_len,
                                                  uint8_t *file_table, size_t file_table_len,
                                                  const uint32_t *opens, size_t opens_len, const size_t *opened, uint32_t inode,
                                                  uint32_t parent, const uint8_t name[16]);

/* Deletes a directory without children, held by its writer and no reader. Answers 10, 16, 12, 13, 14.
 * Requires: sound tables, open records in order. */
mukthiban_plain mukthiban_tested_tree_delete_dir(uint8_t *dir_hash, size_t dir_hash_len,
                                                 uint8_t *dir_table, size_t dir_table_len,
                                                 const uint8_t *file_hash, size_t file_hash_len,
                                                 const uint8_t *file_table, size_t file_table_len,
                                                 uint32_t *opens, size_t opens_len, size_t *opened, uint32_t inode);

/* Deletes a file entry, held by its writer and no reader. Answers 10, 16, 12.
 * Requires: sound tables, open records in order. */
mukthiban_plain mukthiban_tested_tree_delete_file(const uint8_t *dir_hash, size_t dir_hash_len,
                                                  uint8_t *dir_table, size_t dir_table_len,
                                                  uint8_t *file_hash, size_t file_hash_len,
                                                  uint8_t *file_table, size_t file_table_len,
                                                  uint32_t *opens, size_t opens_len, size_t *opened, uint32_t inode);

/* Writes the inodes of the directories in a directory to list. Answers 10, 8.
 * Requires: sound tables. */
mukthiban_listed mukthiban_tested_tree_list_dirs(const uint8_t *dir_hash, size_t dir_hash_len,
                                                 const uint8_t *dir_table, size_t dir_table_len,
                                                 const uint8_t *file_hash, size_t file_hash_len,
                                                 const uint8_t *file_table, size_t file_table_len,
                                                 uint32_t inode,
                                                 uint32_t *list, size_t list_len);

/* Writes the inodes of the files in a directory to list. Answers 10, 8.
 * Requires: sound tables. */
mukthiban_listed mukthiban_tested_tree_list_files(const uint8_t *dir_hash, size_t dir_hash_len,
                                                  const uint8_t *dir_table, size_t dir_table_len,
                                                  const uint8_t *file_hash, size_t file_hash_len,
                                                  const uint8_t *file_table, size_t file_table_len,
                                                  uint32_t inode,
                                                  uint32_t *list, size_t list_len);

/* Counts entries in all and entries still free. Answers 0 alone.
 * Requires: sound tables. */
mukthiban_stat mukthiban_tested_tree_stat(const uint8_t *dir_hash, size_t dir_hash_len,
                                          const uint8_t *dir_table, size_t dir_table_len,
                                          const uint8_t *file_hash, size_t file_hash_len,
                                          const uint8_t *file_table, size_t file_table_len);

/* Where the 16 name bytes of a live inode begin. Answers 10.
 * Requires: sound tables, kind 0 or 1. */
mukthiban_named mukthiban_tested_tree_name(const uint8_t *dir_hash, size_t dir_hash_len,
                                           const uint8_t *dir_table, size_t dir_table_len,
                                           const uint8_t *file_hash, size_t file_hash_len,
                                           const uint8_t *file_table, size_t file_table_len, uint32_t kind,
                                           uint32_t inode);

/* Writes a directory's 4 carried bytes to carried; zeros where refused. Answers 10.
 * Requires: sound tables. */
mukthiban_plain mukthiban_tested_tree_carried_dir(const uint8_t *dir_hash, size_t dir_hash_len,
                                                  const uint8_t *dir_table, size_t dir_table_len,
                                                  const uint8_t *file_hash, size_t file_hash_len,
                                                  const uint8_t *file_table, size_t file_table_len,
                                                  uint32_t inode, uint8_t carried[4]);

/* Writes a file's 20 carried bytes to carried; zeros where refused. Answers 10.
 * Requires: sound tables. */
mukthiban_plain mukthiban_tested_tree_carried_file(const uint8_t *dir_hash, size_t dir_hash_len,
                                                   const uint8_t *dir_table, size_t dir_table_len,
                                                   const uint8_t *file_hash, size_t file_hash_len,
                                                   const uint8_t *file_table, size_t file_table_len,
                                                   uint32_t inode, uint8_t carried[20]);

/* Sets a directory's 4 carried bytes. Answers 10.
 * Requires: sound tables. */
mukthiban_plain mukthiban_tested_tree_set_carried_dir(const uint8_t *dir_hash, size_t dir_hash_len,
                                                      uint8_t *dir_table, size_t dir_table_len,
                                                      const uint8_t *file_hash, size_t file_hash_len,
                                                      const uint8_t *file_table, size_t file_table_len,
                                                      uint32_t inode, const uint8_t carried[4]);

/* Sets a file's 20 carried bytes. Answers 10.
 * Requires: sound tables. */
mukthiban_plain mukthiban_tested_tree_set_carried_file(const uint8_t *dir_hash, size_t dir_hash_len,
                                                       const uint8_t *dir_table, size_t dir_table_len,
                                                       const uint8_t *file_hash, size_t file_hash_len,
                                                       uint8_t *file_table, size_t file_table_len,
                                                       uint32_t inode, const uint8_t carried[20]);

/* Opens a directory once more, for a reader or for the writer. Answers 10, 17 (no place, or the limit), 12.
 * Requires: sound tables, open records in order, and MUKTHIBAN_READER or MUKTHIBAN_WRITER as the kind. */
mukthiban_plain mukthiban_tested_tree_open_dir(const uint8_t *dir_hash, size_t dir_hash_len,
                                               const uint8_t *dir_table, size_t dir_table_len,
                                               const uint8_t *file_hash, size_t file_hash_len,
                                               const uint8_t *file_table, size_t file_table_len,
                                               uint32_t *opens, size_t opens_len, size_t *opened, uint32_t inode,
                                               uint32_t kind);

/* Opens a file once more, for a reader or for the writer. Answers 10, 17 (no place, or the limit), 12.
 * Requires: sound tables, open records in order, and MUKTHIBAN_READER or MUKTHIBAN_WRITER as the kind. */
mukthiban_plain mukthiban_tested_tree_open_file(const uint8_t *dir_hash, size_t dir_hash_len,
                                                const uint8_t *dir_table, size_t dir_table_len,
                                                const uint8_t *file_hash, size_t file_hash_len,
                                                const uint8_t *file_table, size_t file_table_len,
                                                uint32_t *opens, size_t opens_len, size_t *opened, uint32_t inode,
                                                uint32_t kind);

/* Gives back an open of a directory, a reader's or the writer's. Answers 10, 16.
 * Requires: sound tables, open records in order, and MUKTHIBAN_READER or MUKTHIBAN_WRITER as the kind. */
mukthiban_plain mukthiban_tested_tree_close_dir(const uint8_t *dir_hash, size_t dir_hash_len,
                                                const uint8_t *dir_table, size_t dir_table_len,
                                                const uint8_t *file_hash, size_t file_hash_len,
                                                const uint8_t *file_table, size_t file_table_len,
                                                uint32_t *opens, size_t opens_len, size_t *opened, uint32_t inode,
                                                uint32_t kind);

/* Gives back an open of a file, a reader's or the writer's. Answers 10, 16.
 * Requires: sound tables, open records in order, and MUKTHIBAN_READER or MUKTHIBAN_WRITER as the kind. */
mukthiban_plain mukthiban_tested_tree_close_file(const uint8_t *dir_hash, size_t dir_hash_len,
                                                 const uint8_t *dir_table, size_t dir_table_len,
                                                 const uint8_t *file_hash, size_t file_hash_len,
                                                 const uint8_t *file_table, size_t file_table_len,
                                                 uint32_t *opens, size_t opens_len, size_t *opened, uint32_t inode,
                                                 uint32_t kind);

#ifdef __cplusplus
}
#endif

#endif
