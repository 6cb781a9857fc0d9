/* The C interface of Mukthiban: the block table and the entry tables of a
 * saved-game volume, over memory that the caller lends.
 *
 * What every function here promises:
 *  - It may be called with any bytes, lengths and numbers. What does not fit is
 *    refused by a number (see MUKTHIBAN_DONE and the rest); nothing else is
 *    required of the caller but what C itself asks (next paragraph).
 *  - As it is proved it ends, and touches no memory but what it was lent.
 *  - A refusal changes no table, no data, no buffer, no list and no open record,
 *    and every other field of its answer is 0: also the place that carried
 *    bytes are read into, which is such a field. There are two exceptions:
 *    lookup's `compared` with MUKTHIBAN_NOT_FOUND is kept, and `entry` and
 *    `rule` with MUKTHIBAN_BROKEN_FAT say where the block table is broken.
 *  - Once sizes and work list have passed (numbers 1, 2 for a size, 3), the
 *    work places that the call names are 0 on return, whatever the answer. The
 *    places behind them stay. Before that the work list is untouched.
 *
 * What C must see to: a pointer is never NULL, also where its length is 0; it
 * is aligned for its type; what is lent without `const` overlaps nothing else
 * that is lent in the same call.
 *
 * A slice is a pointer and a length IN ELEMENTS: bytes for uint8_t, u32s for
 * uint32_t. Stored numbers are little-endian u32, whatever the machine.
 *
 * Names of parameters:
 *  table        the block table; n = table_len / 8 - 1 blocks, 1 to 1,000,000
 *  data         the blocks' bytes; data_len = n * block_len
 *  block_len    bytes in a block, 1 to 65,536. 512 and 4,096 are in use; with any
 *               other a volume can be read, and every call that would change
 *               its table or data answers 20
 *  work         room for the call's own use: n places for block calls; for tree
 *               calls the two rooms added (room: table length / entry width)
 *  first_block  a file's first block (a block number, from 0)
 *  firsts       some first blocks
 *  dir_hash, dir_table, file_hash, file_table
 *               the four tables of the tree; directory entries are 40 bytes
 *               wide, file entries 48; a bucket is 4 bytes
 *  opens        the open records of that call's own table (directories or
 *               files), packed: two places a record, an inode and its record,
 *               rising by inode, for opened inodes alone. A record is a u32: the
 *               top bit (MUKTHIBAN_HELD) says that a writer holds the inode,
 *               the low 31 bits count its readers. The list may have any length;
 *               its places past the records are never looked at, and stay
 *  opened       the number of records in opens: 0 where nothing is open. Open,
 *               close, make and delete change it. A list that claims more
 *               records than half its places, names inode 0, does not rise or
 *               holds a record of 0 is 2, with the sizes; one whose places are
 *               all taken is 17 where an inode is to be listed that is not
 *  kind         of an open: MUKTHIBAN_READER or MUKTHIBAN_WRITER
 *  inode        1 is the root directory; file inode 1 is an ordinary file
 *  parent       the inode of a directory
 *  name         16 bytes, all of them compared
 */
#ifndef MUKTHIBAN_H
#define MUKTHIBAN_H

#include "mukthiban_types.h"

#ifdef __cplusplus
extern "C" {
#endif

/* ---- The library ---- */

/* The version that was linked, as MUKTHIBAN_VERSION_NUMBER has that of the header. */
uint32_t mukthiban_version(void);

/* ---- The block table ---- */

/* Makes one free node of all n blocks. Entries between that node's own are left as they were. Answers 1, 2. */
mukthiban_plain mukthiban_fat_format(uint8_t *table, size_t table_len);

/* Tests whether the block table is sound, and counts. Answers 1, 2, 3, 4. */
mukthiban_tested mukthiban_fat_test(const uint8_t *table, size_t table_len,
                                    uint32_t *work, size_t work_len);

/* Writes the file's blocks to list, in chain order. Places of list past them stay. Answers 1, 2, 3, 4, 5, 8. */
mukthiban_opened mukthiban_fat_open_list(const uint8_t *table, size_t table_len,
                                         const uint8_t *data, size_t data_len, size_t block_len,
                                         uint32_t *work, size_t work_len,
                                         size_t first_block,
                                         uint32_t *list, size_t list_len);

/* Makes a file of block_count blocks from the front of the free chain. Answers 1, 2, 3, 4, 20, 2 (count 0), 6. */
mukthiban_created mukthiban_fat_create(uint8_t *table, size_t table_len,
                                       const uint8_t *data, size_t data_len, size_t block_len,
                                       uint32_t *work, size_t work_len,
                                       size_t block_count);

/* Grows or shrinks a file to block_count blocks; its first block stays. Answers 1, 2, 3, 4, 20, 5, 2 (count 0), 6. */
mukthiban_answered mukthiban_fat_resize(uint8_t *table, size_t table_len,
                                        const uint8_t *data, size_t data_len, size_t block_len,
                                        uint32_t *work, size_t work_len,
                                        size_t first_block, size_t block_count);

/* Gives a whole file back to the front of the free chain. Answers 1, 2, 3, 4, 20, 5. */
mukthiban_answered mukthiban_fat_delete(uint8_t *table, size_t table_len,
                                        const uint8_t *data, size_t data_len, size_t block_len,
                                        uint32_t *work, size_t work_len,
                                        size_t first_block);

/* Merges free neighbours: the free chain becomes the longest stretches of free blocks, rising, so that no two of its nodes
 * touch. Every file and the number of free blocks stay, and a second call changes nothing. Takes no data. Answers 1, 2, 3, 4,
 * 20. */
mukthiban_answered mukthiban_fat_merge(uint8_t *table, size_t table_len, size_t block_len,
                                       uint32_t *work, size_t work_len);

/* Reads buf_len bytes of the file from position pos into buf. Answers 1, 2, 3, 4, 5, 7. */
mukthiban_answered mukthiban_fat_read(const uint8_t *table, size_t table_len,
                                      const uint8_t *data, size_t data_len, size_t block_len,
                                      uint32_t *work, size_t work_len,
                                      size_t first_block, size_t pos,
                                      uint8_t *buf, size_t buf_len);

/* Writes buf's bytes to the file from position pos on. Answers 1, 2, 3, 4, 20, 5, 7. */
mukthiban_answered mukthiban_fat_write(const uint8_t *table, size_t table_len,
                                       uint8_t *data, size_t data_len, size_t block_len,
                                       uint32_t *work, size_t work_len,
                                       size_t first_block, size_t pos,
                                       const uint8_t *buf, size_t buf_len);

/* Reads buf_len bytes from position pos on of what a block list names, as mukthiban_fat_open_list gave it: block
 * list[k / block_len] has byte k. Takes no table and no work list; of the list's blocks only those that the bytes lie in are
 * looked at, so that a read costs nothing of the file's length. n is data_len / block_len here. Answers 1, 2, 7 (the list's
 * end), 2 (a block that the bytes lie in is n or more). */
mukthiban_plain mukthiban_fat_read_blocks(const uint8_t *data, size_t data_len, size_t block_len,
                                          const uint32_t *list, size_t list_len, size_t pos,
                                          uint8_t *buf, size_t buf_len);

/* Writes buf's bytes from position pos on into what a block list names, byte after byte: where the list names a block
 * twice, the later byte stays. Answers 1, 2, 20, then as mukthiban_fat_read_blocks. */
mukthiban_plain mukthiban_fat_write_blocks(uint8_t *data, size_t data_len, size_t block_len,
                                           const uint32_t *list, size_t list_len, size_t pos,
                                           const uint8_t *buf, size_t buf_len);

/* ---- Plans that make a file whole ----
 * A plan is a list of moves, two places each: a source block, then a target block. It is accepted for a file when its sources
 * are the file's blocks in file order, one move a block, and its targets are consecutive, rising and all free. */

/* Checks a plan for the file at first_block: is it accepted? Changes nothing. Answers 1, 2, 3, 4, 5, 2 (not accepted, an odd
 * number of places included). */
mukthiban_answered mukthiban_plan_check(const uint8_t *table, size_t table_len,
                                        const uint8_t *data, size_t data_len, size_t block_len,
                                        uint32_t *work, size_t work_len,
                                        size_t first_block,
                                        const uint32_t *plan, size_t plan_len);

/* Applies a plan: the file's bytes are copied to the targets, which become its one node, and its old nodes go to the front of
 * the free chain. Every other file stays. The file's first block is then first_block of the answer. Answers 1, 2, 3, 4, 20, 5,
 * 2 (not accepted), and then changes nothing. */
mukthiban_created mukthiban_plan_apply(uint8_t *table, size_t table_len,
                                       uint8_t *data, size_t data_len, size_t block_len,
                                       uint32_t *work, size_t work_len,
                                       size_t first_block,
                                       const uint32_t *plan, size_t plan_len);

/* Finds a plan for the file at first_block, to the lowest blocks of which enough are free in a row, and writes it to list.
 * Places of list past it stay. Such a plan is accepted as long as the table stays. Answers 1, 2, 3, 4, 5, 6 (nowhere are so
 * many free in a row), 8 (fewer than two places a block). */
mukthiban_planned mukthiban_plan_find(const uint8_t *table, size_t table_len,
                                      const uint8_t *data, size_t data_len, size_t block_len,
                                      uint32_t *work, size_t work_len,
                                      size_t first_block,
                                      uint32_t *list, size_t list_len);

/* ---- The free map ---- */

/* A map is lent u32 words, one bit a block, the lowest block in the lowest bit, set where the block is in the free chain;
 * bits past n are 0, and words past n's are neither looked at nor touched. A map under n bits (map_len below n / 32, rounded
 * up) is 3. Create, resize and delete with a map do what the call without one does and keep it: it always equals one built
 * afresh. They refuse a map that is not the table's: 4 with entry and rule 0, after the table's own 4. The calls without a
 * map that change the free chain (create, resize, delete, format, plan_apply, kiosk_create) leave a lent map behind: the
 * next call with that map answers 4, until it is built again. A merge leaves it as it should be. */

/* Builds the map of the table. Answers 1, 2, 3, 4. */
mukthiban_answered mukthiban_map_build(const uint8_t *table, size_t table_len,
                                       const uint8_t *data, size_t data_len, size_t block_len,
                                       uint32_t *work, size_t work_len,
                                       uint32_t *map, size_t map_len);

/* Makes a file, as mukthiban_fat_create. Answers 1, 2, 3, 4, 4 (map), 20, 2 (count 0), 6. */
mukthiban_created mukthiban_map_create(uint8_t *table, size_t table_len,
                                       const uint8_t *data, size_t data_len, size_t block_len,
                                       uint32_t *work, size_t work_len,
                                       uint32_t *map, size_t map_len,
                                       size_t block_count);

/* Grows or shrinks a file, as mukthiban_fat_resize. Answers 1, 2, 3, 4, 4 (map), 20, 5, 2 (count 0), 6. */
mukthiban_answered mukthiban_map_resize(uint8_t *table, size_t table_len,
                                        const uint8_t *data, size_t data_len, size_t block_len,
                                        uint32_t *work, size_t work_len,
                                        uint32_t *map, size_t map_len,
                                        size_t first_block, size_t block_count);

/* Gives a whole file back, as mukthiban_fat_delete. Answers 1, 2, 3, 4, 4 (map), 20, 5. */
mukthiban_answered mukthiban_map_delete(uint8_t *table, size_t table_len,
                                        const uint8_t *data, size_t data_len, size_t block_len,
                                        uint32_t *work, size_t work_len,
                                        uint32_t *map, size_t map_len,
                                        size_t first_block);

/* Counts the set bits of a map of n blocks from block a up to and without block b. It answers for the map that is given, and
 * reads the words of the stretch alone. Answers 2 (n), 3, 2 (a over b, or b over n). */
mukthiban_counted mukthiban_map_count(const uint32_t *map, size_t map_len, size_t n, size_t a, size_t b);

/* ---- The entry tables ---- */

/* Makes an empty tree: the root directory alone. dir_max (2 to 65,536) and file_max (1 to 65,536) are the
 * entries that the tables may hold, entry 0 included. Takes no work list. Answers 1, 2. */
mukthiban_plain mukthiban_tree_format(uint8_t *dir_hash, size_t dir_hash_len,
                                      uint8_t *dir_table, size_t dir_table_len, size_t dir_max,
                                      uint8_t *file_hash, size_t file_hash_len,
                                      uint8_t *file_table, size_t file_table_len, size_t file_max);

/* Tests whether the entry tables are sound. Answers 1, 2, 3, 9. */
mukthiban_plain mukthiban_tree_test(const uint8_t *dir_hash, size_t dir_hash_len,
                                    const uint8_t *dir_table, size_t dir_table_len,
                                    const uint8_t *file_hash, size_t file_hash_len,
                                    const uint8_t *file_table, size_t file_table_len,
                                    uint32_t *work, size_t work_len);

/* Finds the directory with that parent and name. The root is parent 0 and the zero name. Answers 1, 2, 3, 9, 10. */
mukthiban_found mukthiban_tree_lookup_dir(const uint8_t *dir_hash, size_t dir_hash_len,
                                          const uint8_t *dir_table, size_t dir_table_len,
                                          const uint8_t *file_hash, size_t file_hash_len,
                                          const uint8_t *file_table, size_t file_table_len,
                                          uint32_t *work, size_t work_len,
                                          uint32_t parent, const uint8_t name[16]);

/* Finds the file with that parent and name. Answers 1, 2, 3, 9, 10. */
mukthiban_found mukthiban_tree_lookup_file(const uint8_t *dir_hash, size_t dir_hash_len,
                                           const uint8_t *dir_table, size_t dir_table_len,
                                           const uint8_t *file_hash, size_t file_hash_len,
                                           const uint8_t *file_table, size_t file_table_len,
                                           uint32_t *work, size_t work_len,
                                           uint32_t parent, const uint8_t name[16]);

/* Makes a directory with those 4 carried bytes (its padding), held by its writer. opens: the directories'.
 * Answers 1, 2, 3, 9, 2 (name), 10 (parent), 11, 6, 17 (no place for the new inode). */
mukthiban_made mukthiban_tree_make_dir(uint8_t *dir_hash, size_t dir_hash_len,
                                       uint8_t *dir_table, size_t dir_table_len,
                                       const uint8_t *file_hash, size_t file_hash_len,
                                       const uint8_t *file_table, size_t file_table_len,
                                       uint32_t *work, size_t work_len,
                                       uint32_t *opens, size_t opens_len, size_t *opened,
                                       uint32_t parent, const uint8_t name[16], const uint8_t carried[4]);

/* Makes a file entry with those 20 carried bytes, held by its writer. opens: the files'.
 * Answers 1, 2, 3, 9, 2 (name), 10 (parent), 11, 6, 17 (no place for the new inode). */
mukthiban_made mukthiban_tree_make_file(const uint8_t *dir_hash, size_t dir_hash_len,
                                        uint8_t *dir_table, size_t dir_table_len,
                                        uint8_t *file_hash, size_t file_hash_len,
                                        uint8_t *file_table, size_t file_table_len,
                                        uint32_t *work, size_t work_len,
                                        uint32_t *opens, size_t opens_len, size_t *opened,
                                        uint32_t parent, const uint8_t name[16], const uint8_t carried[20]);

/* Gives a directory that a writer holds another parent and name (legal as for make; the name that it has is not judged);
 * inode, carried bytes, children and opens stay. Readers do not keep it off. opens: the directories'. Answers 1, 2, 3, 9,
 * 10 (subject), 16, 13, 2 (name), 10 (parent), 15, 11: never 6, since the entry keeps its place in the table. */
mukthiban_plain mukthiban_tree_rename_dir(uint8_t *dir_hash, size_t dir_hash_len,
                                          uint8_t *dir_table, size_t dir_table_len,
                                          const uint8_t *file_hash, size_t file_hash_len,
                                          const uint8_t *file_table, size_t file_table_len,
                                          uint32_t *work, size_t work_len,
                                          const uint32_t *opens, size_t opens_len, const size_t *opened,
                                          uint32_t inode, uint32_t parent, const uint8_t name[16]);

/* Gives a file that a writer holds another parent and name; inode, carried bytes and opens stay. opens: the files'.
 * Answers 1, 2, 3, 9, 10 (subject), 16, 2 (name), 10 (parent), 11: never 6. */
mukthiban_plain mukthiban_tree_rename_file(const uint8_t *dir_hash, size_t dir_hash_len,
                                           uint8_t *dir_table, size_t dir_table_len,
                                           uint8_t *file_hash, size_t file_hash_len,
                                           uint8_t *file_table, size_t file_table_len,
                                           uint32_t *work, size_t work_len,
                                           const uint32_t *opens, size_t opens_len, const size_t *opened,
                                           uint32_t inode, uint32_t parent, const uint8_t name[16]);

/* Deletes a directory without children, held by its writer and no reader; nothing of it is open then. opens: the
 * directories'.
 * Answers 1, 2, 3, 9, 10, 16, 12, 13, 14. */
mukthiban_plain mukthiban_tree_delete_dir(uint8_t *dir_hash, size_t dir_hash_len,
                                          uint8_t *dir_table, size_t dir_table_len,
                                          const uint8_t *file_hash, size_t file_hash_len,
                                          const uint8_t *file_table, size_t file_table_len,
                                          uint32_t *work, size_t work_len,
                                          uint32_t *opens, size_t opens_len, size_t *opened,
                                          uint32_t inode);

/* Deletes a file entry, held by its writer and no reader; nothing of it is open then. Its blocks are the caller's to
 * give back.
 * opens: the files'. Answers 1, 2, 3, 9, 10, 16, 12. */
mukthiban_plain mukthiban_tree_delete_file(const uint8_t *dir_hash, size_t dir_hash_len,
                                           uint8_t *dir_table, size_t dir_table_len,
                                           uint8_t *file_hash, size_t file_hash_len,
                                           uint8_t *file_table, size_t file_table_len,
                                           uint32_t *work, size_t work_len,
                                           uint32_t *opens, size_t opens_len, size_t *opened,
                                           uint32_t inode);

/* Writes the inodes of the directories in directory inode to list, in list order. Answers 1, 2, 3, 9, 10, 8. */
mukthiban_listed mukthiban_tree_list_dirs(const uint8_t *dir_hash, size_t dir_hash_len,
                                          const uint8_t *dir_table, size_t dir_table_len,
                                          const uint8_t *file_hash, size_t file_hash_len,
                                          const uint8_t *file_table, size_t file_table_len,
                                          uint32_t *work, size_t work_len,
                                          uint32_t inode, uint32_t *list, size_t list_len);

/* Writes the inodes of the files in directory inode to list, in list order. Answers 1, 2, 3, 9, 10, 8. */
mukthiban_listed mukthiban_tree_list_files(const uint8_t *dir_hash, size_t dir_hash_len,
                                           const uint8_t *dir_table, size_t dir_table_len,
                                           const uint8_t *file_hash, size_t file_hash_len,
                                           const uint8_t *file_table, size_t file_table_len,
                                           uint32_t *work, size_t work_len,
                                           uint32_t inode, uint32_t *list, size_t list_len);

/* Entries in all (maximum - 1) and entries still free, of both tables. Answers 1, 2, 3, 9. */
mukthiban_stat mukthiban_tree_stat(const uint8_t *dir_hash, size_t dir_hash_len,
                                   const uint8_t *dir_table, size_t dir_table_len,
                                   const uint8_t *file_hash, size_t file_hash_len,
                                   const uint8_t *file_table, size_t file_table_len,
                                   uint32_t *work, size_t work_len);

/* Whether an honest writer can have left the tables, by the orders of their lists: entries go to the front of their
 * bucket and of their parent's list at once, so what a link names was there earlier. Done with table 0: so it can be,
 * as far as the lists tell. Table 1, inode 1: the root is not the last of its bucket. Else the lowest directory
 * (table 1), or else the lowest file (table 2), from which links lead into a circle. No refusal: the tables are sound.
 * Answers 1, 2, 3, 9. */
mukthiban_aged mukthiban_tree_aged(const uint8_t *dir_hash, size_t dir_hash_len,
                                   const uint8_t *dir_table, size_t dir_table_len,
                                   const uint8_t *file_hash, size_t file_hash_len,
                                   const uint8_t *file_table, size_t file_table_len,
                                   uint32_t *work, size_t work_len);

/* Where the 16 name bytes of a live inode begin, in dir_table (kind 0) or file_table (kind 1). Another kind is
 * 2, judged with the sizes: after 1, before 3. Answers 1, 2, 3, 9, 10. */
mukthiban_named mukthiban_tree_name(const uint8_t *dir_hash, size_t dir_hash_len,
                                    const uint8_t *dir_table, size_t dir_table_len,
                                    const uint8_t *file_hash, size_t file_hash_len,
                                    const uint8_t *file_table, size_t file_table_len,
                                    uint32_t *work, size_t work_len,
                                    uint32_t kind, uint32_t inode);

/* Writes a directory's 4 carried bytes to carried; zeros where refused. Answers 1, 2, 3, 9, 10. */
mukthiban_plain mukthiban_tree_carried_dir(const uint8_t *dir_hash, size_t dir_hash_len,
                                           const uint8_t *dir_table, size_t dir_table_len,
                                           const uint8_t *file_hash, size_t file_hash_len,
                                           const uint8_t *file_table, size_t file_table_len,
                                           uint32_t *work, size_t work_len,
                                           uint32_t inode, uint8_t carried[4]);

/* Writes a file's 20 carried bytes to carried; zeros where refused. Answers 1, 2, 3, 9, 10. */
mukthiban_plain mukthiban_tree_carried_file(const uint8_t *dir_hash, size_t dir_hash_len,
                                            const uint8_t *dir_table, size_t dir_table_len,
                                            const uint8_t *file_hash, size_t file_hash_len,
                                            const uint8_t *file_table, size_t file_table_len,
                                            uint32_t *work, size_t work_len,
                                            uint32_t inode, uint8_t carried[20]);

/* Sets a directory's 4 carried bytes. Answers 1, 2, 3, 9, 10. */
mukthiban_plain mukthiban_tree_set_carried_dir(const uint8_t *dir_hash, size_t dir_hash_len,
                                               uint8_t *dir_table, size_t dir_table_len,
                                               const uint8_t *file_hash, size_t file_hash_len,
                                               const uint8_t *file_table, size_t file_table_len,
                                               uint32_t *work, size_t work_len,
                                               uint32_t inode, const uint8_t carried[4]);

/* Sets a file's 20 carried bytes. Answers 1, 2, 3, 9, 10. */
mukthiban_plain mukthiban_tree_set_carried_file(const uint8_t *dir_hash, size_t dir_hash_len,
                                                const uint8_t *dir_table, size_t dir_table_len,
                                                const uint8_t *file_hash, size_t file_hash_len,
                                                uint8_t *file_table, size_t file_table_len,
                                                uint32_t *work, size_t work_len,
                                                uint32_t inode, const uint8_t carried[20]);

/* Opens a directory once more, for a reader or for the writer. Another kind is 2, with the sizes. opens: the directories'.
 * Answers 1, 2, 3, 9, 10, 17 (no place, or the limit), 12. */
mukthiban_plain mukthiban_tree_open_dir(const uint8_t *dir_hash, size_t dir_hash_len,
                                        const uint8_t *dir_table, size_t dir_table_len,
                                        const uint8_t *file_hash, size_t file_hash_len,
                                        const uint8_t *file_table, size_t file_table_len,
                                        uint32_t *work, size_t work_len,
                                        uint32_t *opens, size_t opens_len, size_t *opened,
                                        uint32_t inode, uint32_t kind);

/* Opens a file once more, for a reader or for the writer. Another kind is 2, with the sizes. opens: the files'.
 * Answers 1, 2, 3, 9, 10, 17 (no place, or the limit), 12. */
mukthiban_plain mukthiban_tree_open_file(const uint8_t *dir_hash, size_t dir_hash_len,
                                         const uint8_t *dir_table, size_t dir_table_len,
                                         const uint8_t *file_hash, size_t file_hash_len,
                                         const uint8_t *file_table, size_t file_table_len,
                                         uint32_t *work, size_t work_len,
                                         uint32_t *opens, size_t opens_len, size_t *opened,
                                         uint32_t inode, uint32_t kind);

/* Gives back an open of a directory, a reader's or the writer's. Another kind is 2, with the sizes. opens: the directories'.
 * Answers 1, 2, 3, 9, 10, 16. */
mukthiban_plain mukthiban_tree_close_dir(const uint8_t *dir_hash, size_t dir_hash_len,
                                         const uint8_t *dir_table, size_t dir_table_len,
                                         const uint8_t *file_hash, size_t file_hash_len,
                                         const uint8_t *file_table, size_t file_table_len,
                                         uint32_t *work, size_t work_len,
                                         uint32_t *opens, size_t opens_len, size_t *opened,
                                         uint32_t inode, uint32_t kind);

/* Gives back an open of a file, a reader's or the writer's. Another kind is 2, with the sizes. opens: the files'.
 * Answers 1, 2, 3, 9, 10, 16. */
mukthiban_plain mukthiban_tree_close_file(const uint8_t *dir_hash, size_t dir_hash_len,
                                          const uint8_t *dir_table, size_t dir_table_len,
                                          const uint8_t *file_hash, size_t file_hash_len,
                                          const uint8_t *file_table, size_t file_table_len,
                                          uint32_t *work, size_t work_len,
                                          uint32_t *opens, size_t opens_len, size_t *opened,
                                          uint32_t inode, uint32_t kind);

/* ---- Both layers ---- */

/* Writes the findings to list, two places each: the kind, then the inode (1 to 3) or the first block (4). In the order
 * of inodes, and of one file in this order: 1, its block is no file chain's first; 2, a file of lower inode and size
 * above 0 names the same chain; 3, its size is over the chain's blocks x block_len. Then, by first block: 4, a chain
 * that no file names. The work list needs n places and as many as the two rooms. Answers 1, 2, 3, 4, 9, 8. */
mukthiban_audited mukthiban_volume_audit(const uint8_t *table, size_t table_len,
                                         const uint8_t *data, size_t data_len, size_t block_len,
                                         const uint8_t *dir_hash, size_t dir_hash_len,
                                         const uint8_t *dir_table, size_t dir_table_len,
                                         const uint8_t *file_hash, size_t file_hash_len,
                                         const uint8_t *file_table, size_t file_table_len,
                                         uint32_t *work, size_t work_len,
                                         uint32_t *list, size_t list_len);

/* ---- The demo kiosk ---- */

/* Whether the volume is in the kiosk's profile: broken is 0, or the first rule that is broken: 1, the audit finds nothing;
 * 2, at most 8,191 blocks; 3, no directory but the root; 4, at most 64 live files; 5, every chain but the free one a
 * single node; 6, file names of one or more of A to Z and 0 to 9, then zeros to the end. A broken rule is no refusal: the
 * answer is 0. The work list needs n places and as many as the two rooms. Answers 1, 2, 3, 4, 9. */
mukthiban_profiled mukthiban_kiosk_test(const uint8_t *table, size_t table_len,
                                        const uint8_t *data, size_t data_len, size_t block_len,
                                        const uint8_t *dir_hash, size_t dir_hash_len,
                                        const uint8_t *dir_table, size_t dir_table_len,
                                        const uint8_t *file_hash, size_t file_hash_len,
                                        const uint8_t *file_table, size_t file_table_len,
                                        uint32_t *work, size_t work_len);

/* Makes a file of block_count blocks in one node: the left part of the first node along the free chain that has so many.
 * What is left of that node stands in its place, and one taken whole leaves its neighbours linked. It leaves a lent map
 * behind. Answers 1, 2, 3, 4, 20, 2 (count 0), 6 (no free node has so many blocks). */
mukthiban_created mukthiban_kiosk_create(uint8_t *table, size_t table_len,
                                         const uint8_t *data, size_t data_len, size_t block_len,
                                         uint32_t *work, size_t work_len,
                                         size_t block_count);

/* ---- Salvage: tables of any bytes ---- */

/* Writes to list the blocks of the chain that first_block starts, as far as it can be followed, in its order: while each
 * node can be read, names back the one before it, and has no block that came before. Soundness is not asked for. Places
 * of list past them stay. entry and rule say why there are no more (mukthiban_salvaged). Answers 1, 2, 3, 5 (no node can
 * be read there), 8. */
mukthiban_salvaged mukthiban_salvage_chain(const uint8_t *table, size_t table_len,
                                           uint32_t *work, size_t work_len,
                                           size_t first_block,
                                           uint32_t *list, size_t list_len);

/* Writes to list, for each of firsts, what its chain is worth beside the others: MUKTHIBAN_CHAIN_WHOLE and so on. Places
 * of list past them stay. Answers 1, 2 (also for more than 1,000,000 firsts), 3, 8 (fewer places than firsts). */
mukthiban_plain mukthiban_salvage_shared(const uint8_t *table, size_t table_len,
                                         uint32_t *work, size_t work_len,
                                         const uint32_t *firsts, size_t firsts_len,
                                         uint32_t *list, size_t list_len);

/* Follows the chain of each of firsts, as mukthiban_salvage_chain does one, in one call that is linear in the blocks and
 * firsts. Writes three places of ends for each: how many blocks were followed (none where no node can be read there), and
 * the entry and the rule that say why there are no more; rule 7 with entry 0 where there is no such block; rule 9 where the
 * chains before it have more than 4n blocks together, so that it was not followed. Writes to list the blocks of all, one
 * chain behind the other, never more than 5n; count is how many. Places past them stay. Answers 1, 2 (also for more than
 * 1,000,000 firsts), 3, 8 (ends or list). */
mukthiban_listed mukthiban_salvage_chains(const uint8_t *table, size_t table_len,
                                          uint32_t *work, size_t work_len,
                                          const uint32_t *firsts, size_t firsts_len,
                                          size_t *ends, size_t ends_len,
                                          uint32_t *list, size_t list_len);

/* Writes to list the live directories of a directory table, in the order of their inodes: those below count and room that
 * the removed list, as far as it can be followed, does not name. No bucket and no list of children is looked at. Key and
 * record of an inode stand in the table. The work list needs a place for each entry of the room. Places of list past them
 * stay. Answers 1, 2, 3, 8. */
mukthiban_listed mukthiban_salvage_dirs(const uint8_t *table, size_t table_len,
                                        uint32_t *work, size_t work_len,
                                        uint32_t *list, size_t list_len);

/* The same of a file table. */
mukthiban_listed mukthiban_salvage_files(const uint8_t *table, size_t table_len,
                                         uint32_t *work, size_t work_len,
                                         uint32_t *list, size_t list_len);

/* Writes to list the directories from an inode up by parents, the inode itself first, as far as they can be followed in a
 * directory table: below count and room, over none that the removed list names, and over none twice. It leads to the root
 * where inode 1 is the last. Answers 1, 2, 3, 8. */
mukthiban_listed mukthiban_salvage_way(const uint8_t *table, size_t table_len,
                                       uint32_t *work, size_t work_len,
                                       uint32_t inode,
                                       uint32_t *list, size_t list_len);

#ifdef __cplusplus
}
#endif

#endif
