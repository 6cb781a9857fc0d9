/* Calls every inner call, on tables that were tested once, and holds its answer and every byte against the public call
 * on a copy. */
#include "mukthiban_tested.h"

#include <stdio.h>
#include <string.h>

static int failures = 0;

#define EXPECT(what)                                                  \
    do {                                                              \
        if (!(what)) {                                                \
            failures++;                                               \
            fprintf(stderr, "line %d: not so: %s\n", __LINE__, #what); \
        }                                                             \
    } while (0)

/* 6 blocks of 512 bytes, 4 directory entries, 4 file entries, 3 buckets each */
enum { BLOCKS = 6, LENGTH = 512, ENTRIES = 4, BUCKETS = 3 };

typedef struct {
    uint8_t table[8 * (BLOCKS + 1)], data[BLOCKS * LENGTH];
    uint8_t dir_hash[4 * BUCKETS], dir_table[40 * ENTRIES], file_hash[4 * BUCKETS], file_table[48 * ENTRIES];
    uint32_t dir_opens[2 * ENTRIES], file_opens[2 * ENTRIES], list[BLOCKS];
    size_t dirs_opened, files_opened;
    uint8_t buf[2 * LENGTH], four[4], twenty[20];
} volume;

/* The same volume twice: changed by the public calls, and by the inner ones. */
static volume a, b;
static uint32_t work[2 * ENTRIES];

#define TABLE(v) (v).table, sizeof (v).table
#define DATA(v) (v).data, sizeof (v).data, (size_t)LENGTH
#define TREE(v)                                                                                                  \
    (v).dir_hash, sizeof (v).dir_hash, (v).dir_table, sizeof (v).dir_table, (v).file_hash, sizeof (v).file_hash, \
        (v).file_table, sizeof (v).file_table
#define WORK work, (size_t)(2 * ENTRIES)
#define DIR_OPENS(v) (v).dir_opens, (size_t)(2 * ENTRIES), &(v).dirs_opened
#define FILE_OPENS(v) (v).file_opens, (size_t)(2 * ENTRIES), &(v).files_opened
#define LIST(v) (v).list, (size_t)BLOCKS

static const uint8_t one[16] = "one", two[16] = "two", three[16] = "three";
static const uint8_t four[4] = {1, 2, 3, 4}, twenty[20] = {9, 8, 7, 6};

/* Both answered that number, and hold the same bytes. */
#define SAME(number, x, y)                                    \
    do {                                                      \
        EXPECT((x).answer == (number));                       \
        EXPECT((y).answer == (number));                       \
        EXPECT(memcmp(&a, &b, sizeof a) == 0);                \
    } while (0)

static void create(uint32_t number, size_t count)
{
    mukthiban_created x = mukthiban_fat_create(TABLE(a), DATA(a), WORK, count);
    mukthiban_created y = mukthiban_tested_fat_create(TABLE(b), BLOCKS, LENGTH, count);
    SAME(number, x, y);
    EXPECT(x.first_block == y.first_block);
}

static void open_list(uint32_t number, size_t first, size_t places)
{
    mukthiban_opened x = mukthiban_fat_open_list(TABLE(a), DATA(a), WORK, first, a.list, places);
    mukthiban_opened y = mukthiban_tested_fat_open_list(TABLE(b), BLOCKS, first, b.list, places);
    SAME(number, x, y);
    EXPECT(x.count == y.count);
}

static void carry(uint32_t number, size_t first, size_t pos, size_t len)
{
    memset(a.buf, (int)pos, sizeof a.buf);
    memset(b.buf, (int)pos, sizeof b.buf);
    SAME(number, mukthiban_fat_write(TABLE(a), DATA(a), WORK, first, pos, a.buf, len),
         mukthiban_tested_fat_write(TABLE(b), BLOCKS, DATA(b), first, pos, b.buf, len));
    memset(a.buf, 0, sizeof a.buf);
    memset(b.buf, 0, sizeof b.buf);
    SAME(number, mukthiban_fat_read(TABLE(a), DATA(a), WORK, first, pos, a.buf, len),
         mukthiban_tested_fat_read(TABLE(b), BLOCKS, DATA(b), first, pos, b.buf, len));
    EXPECT(number != MUKTHIBAN_DONE || len == 0 || b.buf[len - 1] == (uint8_t)pos);
}

static void resize(uint32_t number, size_t first, size_t count)
{
    SAME(number, mukthiban_fat_resize(TABLE(a), DATA(a), WORK, first, count),
         mukthiban_tested_fat_resize(TABLE(b), BLOCKS, LENGTH, first, count));
}

static void blocks(void)
{
    EXPECT(mukthiban_fat_format(TABLE(a)).answer == MUKTHIBAN_DONE);
    EXPECT(mukthiban_fat_test(TABLE(a), WORK).answer == MUKTHIBAN_DONE);
    b = a;
    create(MUKTHIBAN_DONE, 2);
    create(MUKTHIBAN_DONE, 1);
    create(MUKTHIBAN_INVALID_VALUE, 0);
    create(MUKTHIBAN_NO_SPACE, 4);
    resize(MUKTHIBAN_DONE, 0, 4);
    resize(MUKTHIBAN_NOT_A_FILE, 1, 4);
    resize(MUKTHIBAN_INVALID_VALUE, 0, 0);
    resize(MUKTHIBAN_NO_SPACE, 0, 6);
    open_list(MUKTHIBAN_DONE, 0, BLOCKS);
    open_list(MUKTHIBAN_LIST_TOO_SHORT, 0, 3);
    open_list(MUKTHIBAN_NOT_A_FILE, BLOCKS, BLOCKS);
    carry(MUKTHIBAN_DONE, 0, 2 * LENGTH - 3, 7);
    carry(MUKTHIBAN_DONE, 0, 4 * LENGTH, 0);
    carry(MUKTHIBAN_OUT_OF_BOUND, 0, 4 * LENGTH - 1, 2);
    carry(MUKTHIBAN_NOT_A_FILE, 1, 0, 1);
    SAME(MUKTHIBAN_DONE, mukthiban_fat_delete(TABLE(a), DATA(a), WORK, 2),
         mukthiban_tested_fat_delete(TABLE(b), BLOCKS, LENGTH, 2));
    SAME(MUKTHIBAN_NOT_A_FILE, mukthiban_fat_delete(TABLE(a), DATA(a), WORK, 2),
         mukthiban_tested_fat_delete(TABLE(b), BLOCKS, LENGTH, 2));
    SAME(MUKTHIBAN_DONE, mukthiban_fat_delete(TABLE(a), DATA(a), WORK, 0),
         mukthiban_tested_fat_delete(TABLE(b), BLOCKS, LENGTH, 0));
    /* the free chain 0-1, 3-4, 2, 5 becomes one node; the public call has left the work list's places 0 */
    SAME(MUKTHIBAN_DONE, mukthiban_fat_merge(TABLE(a), LENGTH, WORK),
         mukthiban_tested_fat_merge(TABLE(b), BLOCKS, LENGTH, work, BLOCKS));
    EXPECT(a.table[4] == 1 && a.table[20] == BLOCKS);
}

/* The audit by both, with a list of so many places. The public call wants a work list of all rooms, and leaves it 0. */
static void audit(uint32_t number, size_t places)
{
    static uint32_t wide[BLOCKS + 2 * ENTRIES];
    memset(a.list, 0x33, sizeof a.list);
    memset(b.list, 0x33, sizeof b.list);
    mukthiban_audited x = mukthiban_volume_audit(TABLE(a), DATA(a), TREE(a), wide, BLOCKS + 2 * ENTRIES, a.list, places);
    mukthiban_audited y = mukthiban_tested_volume_audit(TABLE(b), BLOCKS, LENGTH, b.file_table, sizeof b.file_table, wide,
                                                        BLOCKS + ENTRIES, b.list, places);
    SAME(number, x, y);
    EXPECT(x.count == y.count);
    for (size_t i = 0; i < BLOCKS + 2 * ENTRIES; i++) EXPECT(wide[i] == 0);
}

static void find(uint32_t number, size_t first, size_t room)
{
    mukthiban_planned x = mukthiban_plan_find(TABLE(a), DATA(a), WORK, first, a.list, room);
    mukthiban_planned y = mukthiban_tested_plan_find(TABLE(b), BLOCKS, work, BLOCKS, first, b.list, room);
    SAME(number, x, y);
    EXPECT(x.count == y.count);
}

static void apply(uint32_t number, size_t first, const uint32_t *plan, size_t places)
{
    mukthiban_created x, y;

    SAME(number, mukthiban_plan_check(TABLE(a), DATA(a), WORK, first, plan, places),
         mukthiban_tested_plan_check(TABLE(b), BLOCKS, work, BLOCKS, first, plan, places));
    x = mukthiban_plan_apply(TABLE(a), DATA(a), WORK, first, plan, places);
    y = mukthiban_tested_plan_apply(TABLE(b), BLOCKS, DATA(b), work, BLOCKS, first, plan, places);
    SAME(number, x, y);
    EXPECT(x.first_block == y.first_block);
}

/* A file of blocks 0 and 2 beside one of block 1, and the free blocks 3 to 5. */
static void plans(void)
{
    uint32_t plan[4];

    EXPECT(mukthiban_fat_format(TABLE(a)).answer == MUKTHIBAN_DONE);
    b = a;
    create(MUKTHIBAN_DONE, 1);
    create(MUKTHIBAN_DONE, 1);
    SAME(MUKTHIBAN_DONE, mukthiban_fat_delete(TABLE(a), DATA(a), WORK, 0),
         mukthiban_tested_fat_delete(TABLE(b), BLOCKS, LENGTH, 0));
    create(MUKTHIBAN_DONE, 2);
    carry(MUKTHIBAN_DONE, 0, LENGTH - 3, 7);
    find(MUKTHIBAN_NOT_A_FILE, 3, BLOCKS);
    find(MUKTHIBAN_LIST_TOO_SHORT, 0, 3);
    find(MUKTHIBAN_DONE, 0, 4);
    memcpy(plan, a.list, sizeof plan);
    EXPECT(plan[0] == 0 && plan[1] == 3 && plan[2] == 2 && plan[3] == 4);
    apply(MUKTHIBAN_INVALID_VALUE, 0, plan, 3);
    apply(MUKTHIBAN_INVALID_VALUE, 1, plan, 4);
    apply(MUKTHIBAN_NOT_A_FILE, 2, plan, 4);
    apply(MUKTHIBAN_DONE, 0, plan, 4);
    /* the free chain is 0, 2, 5: nowhere two in a row */
    find(MUKTHIBAN_NO_SPACE, 3, BLOCKS);
    open_list(MUKTHIBAN_DONE, 3, BLOCKS);
    EXPECT(a.list[0] == 3 && a.list[1] == 4);
}

/* A block length that is not in use: both refuse what would change something. */
static void read_only(void)
{
    enum { OLD = LENGTH / 4 };
    uint8_t byte[1] = {4};

#define OLD_DATA(v) (v).data, (size_t)BLOCKS * OLD, (size_t)OLD
    SAME(MUKTHIBAN_READ_ONLY_VOLUME, mukthiban_fat_create(TABLE(a), OLD_DATA(a), WORK, 0),
         mukthiban_tested_fat_create(TABLE(b), BLOCKS, OLD, 0));
    SAME(MUKTHIBAN_READ_ONLY_VOLUME, mukthiban_fat_resize(TABLE(a), OLD_DATA(a), WORK, 9, 1),
         mukthiban_tested_fat_resize(TABLE(b), BLOCKS, OLD, 9, 1));
    SAME(MUKTHIBAN_READ_ONLY_VOLUME, mukthiban_fat_delete(TABLE(a), OLD_DATA(a), WORK, 9),
         mukthiban_tested_fat_delete(TABLE(b), BLOCKS, OLD, 9));
    SAME(MUKTHIBAN_READ_ONLY_VOLUME, mukthiban_fat_write(TABLE(a), OLD_DATA(a), WORK, 9, 0, byte, 1),
         mukthiban_tested_fat_write(TABLE(b), BLOCKS, OLD_DATA(b), 9, 0, byte, 1));
    SAME(MUKTHIBAN_READ_ONLY_VOLUME, mukthiban_fat_merge(TABLE(a), OLD, WORK),
         mukthiban_tested_fat_merge(TABLE(b), BLOCKS, OLD, work, BLOCKS));
    SAME(MUKTHIBAN_READ_ONLY_VOLUME, mukthiban_plan_apply(TABLE(a), OLD_DATA(a), WORK, 9, a.list, 2),
         mukthiban_tested_plan_apply(TABLE(b), BLOCKS, OLD_DATA(b), work, BLOCKS, 9, b.list, 2));
#undef OLD_DATA
}

static void made(uint32_t number, mukthiban_made x, mukthiban_made y)
{
    SAME(number, x, y);
    EXPECT(x.inode == y.inode);
}

static void found(uint32_t number, mukthiban_found x, mukthiban_found y)
{
    SAME(number, x, y);
    EXPECT(x.inode == y.inode && x.compared == y.compared);
}

static void listed(uint32_t number, mukthiban_listed x, mukthiban_listed y)
{
    SAME(number, x, y);
    EXPECT(x.count == y.count);
}

static void makes(void)
{
    made(MUKTHIBAN_DONE, mukthiban_tree_make_dir(TREE(a), WORK, DIR_OPENS(a), 1, one, four),
         mukthiban_tested_tree_make_dir(TREE(b), DIR_OPENS(b), 1, one, four));
    made(MUKTHIBAN_ALREADY_EXIST, mukthiban_tree_make_dir(TREE(a), WORK, DIR_OPENS(a), 1, one, four),
         mukthiban_tested_tree_make_dir(TREE(b), DIR_OPENS(b), 1, one, four));
    made(MUKTHIBAN_DONE, mukthiban_tree_make_file(TREE(a), WORK, FILE_OPENS(a), 2, two, twenty),
         mukthiban_tested_tree_make_file(TREE(b), FILE_OPENS(b), 2, two, twenty));
    made(MUKTHIBAN_NOT_FOUND, mukthiban_tree_make_file(TREE(a), WORK, FILE_OPENS(a), 3, two, twenty),
         mukthiban_tested_tree_make_file(TREE(b), FILE_OPENS(b), 3, two, twenty));
}

static void looks(void)
{
    mukthiban_stat x, y;
    mukthiban_named m, n;

    found(MUKTHIBAN_DONE, mukthiban_tree_lookup_dir(TREE(a), WORK, 1, one),
          mukthiban_tested_tree_lookup_dir(TREE(b), 1, one));
    found(MUKTHIBAN_NOT_FOUND, mukthiban_tree_lookup_file(TREE(a), WORK, 1, two),
          mukthiban_tested_tree_lookup_file(TREE(b), 1, two));
    listed(MUKTHIBAN_DONE, mukthiban_tree_list_dirs(TREE(a), WORK, 1, LIST(a)),
           mukthiban_tested_tree_list_dirs(TREE(b), 1, LIST(b)));
    listed(MUKTHIBAN_LIST_TOO_SHORT, mukthiban_tree_list_files(TREE(a), WORK, 2, a.list, 0),
           mukthiban_tested_tree_list_files(TREE(b), 2, b.list, 0));
    x = mukthiban_tree_stat(TREE(a), WORK);
    y = mukthiban_tested_tree_stat(TREE(b));
    SAME(MUKTHIBAN_DONE, x, y);
    EXPECT(x.dir_total == y.dir_total && x.dir_free == y.dir_free);
    EXPECT(x.file_total == y.file_total && x.file_free == y.file_free);
    m = mukthiban_tree_name(TREE(a), WORK, MUKTHIBAN_FILE, 1);
    n = mukthiban_tested_tree_name(TREE(b), MUKTHIBAN_FILE, 1);
    SAME(MUKTHIBAN_DONE, m, n);
    EXPECT(m.offset == n.offset && memcmp(b.file_table + n.offset, two, 16) == 0);
}

static void carried(void)
{
    SAME(MUKTHIBAN_DONE, mukthiban_tree_carried_dir(TREE(a), WORK, 2, a.four),
         mukthiban_tested_tree_carried_dir(TREE(b), 2, b.four));
    SAME(MUKTHIBAN_DONE, mukthiban_tree_carried_file(TREE(a), WORK, 1, a.twenty),
         mukthiban_tested_tree_carried_file(TREE(b), 1, b.twenty));
    EXPECT(memcmp(b.four, four, 4) == 0 && memcmp(b.twenty, twenty, 20) == 0);
    SAME(MUKTHIBAN_DONE, mukthiban_tree_set_carried_dir(TREE(a), WORK, 2, twenty),
         mukthiban_tested_tree_set_carried_dir(TREE(b), 2, twenty));
    SAME(MUKTHIBAN_NOT_FOUND, mukthiban_tree_set_carried_file(TREE(a), WORK, 2, twenty),
         mukthiban_tested_tree_set_carried_file(TREE(b), 2, twenty));
}

static void changes(void)
{
    SAME(MUKTHIBAN_INTO_ITSELF, mukthiban_tree_rename_dir(TREE(a), WORK, DIR_OPENS(a), 2, 2, three),
         mukthiban_tested_tree_rename_dir(TREE(b), DIR_OPENS(b), 2, 2, three));
    SAME(MUKTHIBAN_DONE, mukthiban_tree_rename_file(TREE(a), WORK, FILE_OPENS(a), 1, 1, three),
         mukthiban_tested_tree_rename_file(TREE(b), FILE_OPENS(b), 1, 1, three));
    SAME(MUKTHIBAN_DONE, mukthiban_tree_open_dir(TREE(a), WORK, DIR_OPENS(a), 2, MUKTHIBAN_READER),
         mukthiban_tested_tree_open_dir(TREE(b), DIR_OPENS(b), 2, MUKTHIBAN_READER));
    SAME(MUKTHIBAN_BUSY, mukthiban_tree_delete_dir(TREE(a), WORK, DIR_OPENS(a), 2),
         mukthiban_tested_tree_delete_dir(TREE(b), DIR_OPENS(b), 2));
    SAME(MUKTHIBAN_DONE, mukthiban_tree_close_dir(TREE(a), WORK, DIR_OPENS(a), 2, MUKTHIBAN_READER),
         mukthiban_tested_tree_close_dir(TREE(b), DIR_OPENS(b), 2, MUKTHIBAN_READER));
    SAME(MUKTHIBAN_DONE, mukthiban_tree_open_file(TREE(a), WORK, FILE_OPENS(a), 1, MUKTHIBAN_READER),
         mukthiban_tested_tree_open_file(TREE(b), FILE_OPENS(b), 1, MUKTHIBAN_READER));
    SAME(MUKTHIBAN_DONE, mukthiban_tree_close_file(TREE(a), WORK, FILE_OPENS(a), 1, MUKTHIBAN_READER),
         mukthiban_tested_tree_close_file(TREE(b), FILE_OPENS(b), 1, MUKTHIBAN_READER));
    SAME(MUKTHIBAN_DONE, mukthiban_tree_delete_file(TREE(a), WORK, FILE_OPENS(a), 1),
         mukthiban_tested_tree_delete_file(TREE(b), FILE_OPENS(b), 1));
}

/* There is no block 99: file 1 names no chain once it has a size. */
static void audits(void)
{
    static const uint8_t sized[20] = {0, 0, 0, 0, 99, 0, 0, 0, 5};
    audit(MUKTHIBAN_DONE, BLOCKS);
    SAME(MUKTHIBAN_DONE, mukthiban_tree_set_carried_file(TREE(a), WORK, 1, sized),
         mukthiban_tested_tree_set_carried_file(TREE(b), 1, sized));
    audit(MUKTHIBAN_DONE, BLOCKS);
    EXPECT(a.list[0] == 1 && a.list[1] == 1);
    audit(MUKTHIBAN_LIST_TOO_SHORT, 1);
}

static void tree(void)
{
    mukthiban_plain formatted =
        mukthiban_tree_format(a.dir_hash, sizeof a.dir_hash, a.dir_table, sizeof a.dir_table, ENTRIES, a.file_hash,
                              sizeof a.file_hash, a.file_table, sizeof a.file_table, ENTRIES);
    EXPECT(formatted.answer == MUKTHIBAN_DONE);
    EXPECT(mukthiban_tree_test(TREE(a), WORK).answer == MUKTHIBAN_DONE);
    b = a;
    makes();
    looks();
    carried();
    audits();
    changes();
}

int main(void)
{
    blocks();
    plans();
    read_only();
    tree();
    return failures == 0 ? 0 : 1;
}
