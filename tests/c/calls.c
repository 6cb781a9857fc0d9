/* Calls every function of the C interface, and holds the answers against docs/RULES.md. */
#include "mukthiban.h"
#include "mukthiban_text.h"

#include <stdio.h>
#include <string.h>

static int failures = 0;

#define EXPECT(what)                                                  \
    do {                                                              \
        if (!(what)) {                                                \
            failures++;                                               \
            fprintf(stderr, "line %d: not so: %s\n", __LINE__, #what); \
        }                                                             \
    } while (0)

/* 4 blocks of 512 bytes, 4 directory entries, 4 file entries, 5 buckets each */
enum { LENGTH = 512 };
static uint8_t table[8 * 5], data[LENGTH * 4];
static uint8_t dir_hash[4 * 5], dir_table[40 * 4], file_hash[4 * 5], file_table[48 * 4];
static uint32_t work[8], dir_opens[4], file_opens[4], list[4];
static size_t dirs_opened, files_opened;

#define FAT table, sizeof table
#define DATA data, sizeof data, (size_t)LENGTH
#define FOUR \
    dir_hash, sizeof dir_hash, dir_table, sizeof dir_table, file_hash, sizeof file_hash, file_table, sizeof file_table
#define WORK work, (size_t)8
#define DIR_OPENS dir_opens, (size_t)4, &dirs_opened
#define FILE_OPENS file_opens, (size_t)4, &files_opened
#define LIST list, (size_t)4

static const uint8_t zero_name[16];
static const uint8_t a[16] = {'a'}, b[16] = {'b'};
static const uint8_t four[4] = {1, 2, 3, 4};
static const uint8_t twenty[20] = {1, 2, 3, 4, 5, 6, 7, 8, 9, 10, 11, 12, 13, 14, 15, 16, 17, 18, 19, 20};

/* Reads and writes by the list that is open: blocks 0, 1 and 3, of which bytes 9, 8, 7, 6 lie over the second border. */
static void listed_blocks(size_t count)
{
    static const uint32_t twice[2] = {2, 2}, foreign[2] = {1, 4};
    uint8_t buf[4] = {0}, back[LENGTH + 1];

    EXPECT(mukthiban_fat_read_blocks(DATA, list, count, 2 * LENGTH - 2, buf, 4).answer == MUKTHIBAN_DONE);
    EXPECT(buf[0] == 9 && buf[1] == 8 && buf[2] == 7 && buf[3] == 6);
    EXPECT(mukthiban_fat_read_blocks(DATA, list, count, 3 * LENGTH, buf, 0).answer == MUKTHIBAN_DONE);
    EXPECT(mukthiban_fat_read_blocks(DATA, list, count, 3 * LENGTH - 3, buf, 4).answer == MUKTHIBAN_OUT_OF_BOUND);
    EXPECT(mukthiban_fat_read_blocks(DATA, list, count, SIZE_MAX, buf, 4).answer == MUKTHIBAN_OUT_OF_BOUND);
    EXPECT(mukthiban_fat_read_blocks(DATA, foreign, 2, LENGTH - 4, buf, 4).answer == MUKTHIBAN_DONE);
    EXPECT(mukthiban_fat_read_blocks(DATA, foreign, 2, LENGTH - 3, buf, 4).answer == MUKTHIBAN_INVALID_VALUE);
    EXPECT(mukthiban_fat_read_blocks(data, sizeof data - 1, LENGTH, list, count, 0, buf, 4).answer == MUKTHIBAN_SIZE_MISMATCH);
    EXPECT(mukthiban_fat_read_blocks(data, sizeof data, 0, list, count, 0, buf, 4).answer == MUKTHIBAN_SIZE_MISMATCH);
    EXPECT(mukthiban_fat_read_blocks(data, 0, LENGTH, list, count, 0, buf, 4).answer == MUKTHIBAN_INVALID_VALUE);

    memset(back, 5, sizeof back);
    back[LENGTH] = 6;
    EXPECT(mukthiban_fat_write_blocks(DATA, twice, 2, 0, back, sizeof back).answer == MUKTHIBAN_DONE);
    EXPECT(data[2 * LENGTH] == 6 && data[2 * LENGTH + 1] == 5 && data[3 * LENGTH - 1] == 5);
    EXPECT(mukthiban_fat_write_blocks(DATA, foreign, 2, LENGTH - 3, back, 4).answer == MUKTHIBAN_INVALID_VALUE);
    EXPECT(data[2 * LENGTH - 3] == 0 && data[2 * LENGTH - 2] == 9);
}

static void blocks(void)
{
    uint8_t buf[4] = {9, 8, 7, 6};
    mukthiban_tested tested;
    mukthiban_created created;
    mukthiban_opened opened;

    EXPECT(mukthiban_fat_format(table, 7).answer == MUKTHIBAN_SIZE_MISMATCH);
    EXPECT(mukthiban_fat_format(table, 8).answer == MUKTHIBAN_INVALID_VALUE);
    EXPECT(mukthiban_fat_format(FAT).answer == MUKTHIBAN_DONE);
    tested = mukthiban_fat_test(FAT, WORK);
    EXPECT(tested.answer == MUKTHIBAN_DONE && tested.free == 4 && tested.files == 0);
    EXPECT(mukthiban_fat_test(FAT, work, 3).answer == MUKTHIBAN_WORK_TOO_SHORT);

    created = mukthiban_fat_create(FAT, DATA, WORK, 2);
    EXPECT(created.answer == MUKTHIBAN_DONE && created.first_block == 0);
    created = mukthiban_fat_create(FAT, DATA, WORK, 1);
    EXPECT(created.answer == MUKTHIBAN_DONE && created.first_block == 2);
    created = mukthiban_fat_create(FAT, DATA, WORK, 2);
    EXPECT(created.answer == MUKTHIBAN_NO_SPACE && created.first_block == 0);

    EXPECT(mukthiban_fat_resize(FAT, DATA, WORK, 0, 3).answer == MUKTHIBAN_DONE);
    EXPECT(mukthiban_fat_resize(FAT, DATA, WORK, 1, 3).answer == MUKTHIBAN_NOT_A_FILE);
    opened = mukthiban_fat_open_list(FAT, DATA, WORK, 0, LIST);
    EXPECT(opened.answer == MUKTHIBAN_DONE && opened.count == 3);
    EXPECT(list[0] == 0 && list[1] == 1 && list[2] == 3);
    EXPECT(mukthiban_fat_open_list(FAT, DATA, WORK, 0, list, 2).answer == MUKTHIBAN_LIST_TOO_SHORT);

    EXPECT(mukthiban_fat_write(FAT, DATA, WORK, 0, 2 * LENGTH - 2, buf, 4).answer == MUKTHIBAN_DONE);
    EXPECT(data[2 * LENGTH - 2] == 9 && data[2 * LENGTH - 1] == 8);
    EXPECT(data[3 * LENGTH] == 7 && data[3 * LENGTH + 1] == 6);
    memset(buf, 0, sizeof buf);
    EXPECT(mukthiban_fat_read(FAT, DATA, WORK, 0, 2 * LENGTH - 2, buf, 4).answer == MUKTHIBAN_DONE);
    EXPECT(buf[0] == 9 && buf[3] == 6);
    EXPECT(mukthiban_fat_read(FAT, DATA, WORK, 0, 3 * LENGTH - 3, buf, 4).answer == MUKTHIBAN_OUT_OF_BOUND);

    listed_blocks(opened.count);

    EXPECT(mukthiban_fat_delete(FAT, DATA, WORK, 0).answer == MUKTHIBAN_DONE);
    tested = mukthiban_fat_test(FAT, WORK);
    EXPECT(tested.answer == MUKTHIBAN_DONE && tested.free == 3 && tested.files == 1);

    /* the free chain 2, 0-1, 3 becomes one node of four blocks */
    EXPECT(mukthiban_fat_delete(FAT, DATA, WORK, 2).answer == MUKTHIBAN_DONE);
    EXPECT(mukthiban_fat_merge(table, 7, LENGTH, WORK).answer == MUKTHIBAN_SIZE_MISMATCH);
    EXPECT(mukthiban_fat_merge(table, 8, LENGTH, WORK).answer == MUKTHIBAN_INVALID_VALUE);
    EXPECT(mukthiban_fat_merge(FAT, 0, WORK).answer == MUKTHIBAN_INVALID_VALUE);
    EXPECT(mukthiban_fat_merge(FAT, 65537, WORK).answer == MUKTHIBAN_INVALID_VALUE);
    EXPECT(mukthiban_fat_merge(FAT, LENGTH, work, 3).answer == MUKTHIBAN_WORK_TOO_SHORT);
    EXPECT(mukthiban_fat_merge(FAT, LENGTH + 1, WORK).answer == MUKTHIBAN_READ_ONLY_VOLUME);
    EXPECT(table[4] == 3);
    EXPECT(mukthiban_fat_merge(FAT, LENGTH, WORK).answer == MUKTHIBAN_DONE);
    EXPECT(table[4] == 1 && table[15] == 0x80 && table[20] == 4);
    table[0] = 1;
    EXPECT(mukthiban_fat_merge(FAT, LENGTH, WORK).answer == MUKTHIBAN_BROKEN_FAT);
    EXPECT(mukthiban_fat_delete(FAT, DATA, WORK, 2).answer == MUKTHIBAN_BROKEN_FAT);
}

/* A file of block 1, beside the free blocks 0, 2 and 3: planned, checked, moved, and grown until nothing is left in a row. */
static void plans(void)
{
    static const uint32_t to_three[2] = {1, 3}, foreign[2] = {0, 3}, used[2] = {1, 1};
    mukthiban_planned planned;
    mukthiban_created created;

    EXPECT(mukthiban_fat_format(FAT).answer == MUKTHIBAN_DONE);
    EXPECT(mukthiban_fat_create(FAT, DATA, WORK, 1).first_block == 0);
    EXPECT(mukthiban_fat_create(FAT, DATA, WORK, 1).first_block == 1);
    EXPECT(mukthiban_fat_delete(FAT, DATA, WORK, 0).answer == MUKTHIBAN_DONE);
    data[LENGTH] = 9;
    data[2 * LENGTH - 1] = 8;

    list[2] = 77;
    planned = mukthiban_plan_find(FAT, DATA, WORK, 1, LIST);
    EXPECT(planned.answer == MUKTHIBAN_DONE && planned.count == 1);
    EXPECT(list[0] == 1 && list[1] == 0 && list[2] == 77);
    EXPECT(mukthiban_plan_check(FAT, DATA, WORK, 1, list, 2).answer == MUKTHIBAN_DONE);
    EXPECT(mukthiban_plan_find(FAT, DATA, WORK, 1, list, 1).answer == MUKTHIBAN_LIST_TOO_SHORT);
    EXPECT(mukthiban_plan_find(FAT, DATA, WORK, 0, LIST).answer == MUKTHIBAN_NOT_A_FILE);
    EXPECT(mukthiban_plan_find(table, 7, DATA, WORK, 1, LIST).answer == MUKTHIBAN_SIZE_MISMATCH);
    EXPECT(mukthiban_plan_find(table, 8, data, 0, LENGTH, WORK, 1, LIST).answer == MUKTHIBAN_INVALID_VALUE);
    EXPECT(mukthiban_plan_find(FAT, DATA, work, 3, 1, LIST).answer == MUKTHIBAN_WORK_TOO_SHORT);

    EXPECT(mukthiban_plan_check(FAT, DATA, WORK, 1, to_three, 2).answer == MUKTHIBAN_DONE);
    EXPECT(mukthiban_plan_check(FAT, DATA, WORK, 1, to_three, 1).answer == MUKTHIBAN_INVALID_VALUE);
    EXPECT(mukthiban_plan_check(FAT, DATA, WORK, 1, foreign, 2).answer == MUKTHIBAN_INVALID_VALUE);
    EXPECT(mukthiban_plan_check(FAT, DATA, WORK, 1, used, 2).answer == MUKTHIBAN_INVALID_VALUE);
    EXPECT(mukthiban_plan_check(FAT, DATA, WORK, 2, to_three, 2).answer == MUKTHIBAN_NOT_A_FILE);
    EXPECT(mukthiban_plan_check(FAT, data, sizeof data - 1, LENGTH, WORK, 1, to_three, 2).answer == MUKTHIBAN_SIZE_MISMATCH);
    EXPECT(mukthiban_plan_check(FAT, DATA, work, 3, 1, to_three, 2).answer == MUKTHIBAN_WORK_TOO_SHORT);

    EXPECT(mukthiban_plan_apply(FAT, DATA, WORK, 1, used, 2).answer == MUKTHIBAN_INVALID_VALUE);
    EXPECT(mukthiban_plan_apply(FAT, DATA, WORK, 0, to_three, 2).answer == MUKTHIBAN_NOT_A_FILE);
    EXPECT(mukthiban_plan_apply(FAT, data, sizeof data - 1, LENGTH, WORK, 1, to_three, 2).answer == MUKTHIBAN_SIZE_MISMATCH);
    EXPECT(mukthiban_plan_apply(FAT, DATA, work, 3, 1, to_three, 2).answer == MUKTHIBAN_WORK_TOO_SHORT);
    created = mukthiban_plan_apply(FAT, DATA, WORK, 1, to_three, 2);
    EXPECT(created.answer == MUKTHIBAN_DONE && created.first_block == 3);
    EXPECT(data[3 * LENGTH] == 9 && data[4 * LENGTH - 1] == 8);
    /* the free chain is 1, 0, 2: the old block in front, block 3 cut out in its place */
    EXPECT(table[4] == 2);
    EXPECT(mukthiban_fat_resize(FAT, DATA, WORK, 3, 3).answer == MUKTHIBAN_DONE);
    EXPECT(mukthiban_fat_open_list(FAT, DATA, WORK, 3, LIST).count == 3);
    EXPECT(list[0] == 3 && list[1] == 1 && list[2] == 0);
    EXPECT(mukthiban_plan_find(FAT, DATA, WORK, 3, list, 0).answer == MUKTHIBAN_NO_SPACE);
}

/* A block length that is not in use: what would change something is refused, after soundness and before the call's own. */
static void read_only(void)
{
    enum { OLD = LENGTH / 2 };
    static const uint32_t first[1] = {0};
    uint8_t buf[1] = {3};
    mukthiban_created created;

    EXPECT(mukthiban_fat_format(FAT).answer == MUKTHIBAN_DONE);
    EXPECT(mukthiban_fat_create(FAT, DATA, WORK, 2).answer == MUKTHIBAN_DONE);
    created = mukthiban_fat_create(FAT, data, 4 * OLD, OLD, WORK, 0);
    EXPECT(created.answer == MUKTHIBAN_READ_ONLY_VOLUME && created.first_block == 0 && created.entry == 0);
    EXPECT(mukthiban_fat_resize(FAT, data, 4 * OLD, OLD, WORK, 0, 2).answer == MUKTHIBAN_READ_ONLY_VOLUME);
    EXPECT(mukthiban_fat_delete(FAT, data, 4 * OLD, OLD, WORK, 9).answer == MUKTHIBAN_READ_ONLY_VOLUME);
    EXPECT(mukthiban_fat_write(FAT, data, 4 * OLD, OLD, WORK, 0, 0, buf, 0).answer == MUKTHIBAN_READ_ONLY_VOLUME);
    EXPECT(mukthiban_fat_write_blocks(data, 4 * OLD, OLD, first, 1, 0, buf, 1).answer == MUKTHIBAN_READ_ONLY_VOLUME);
    EXPECT(mukthiban_fat_merge(FAT, OLD, WORK).answer == MUKTHIBAN_READ_ONLY_VOLUME);
    created = mukthiban_plan_apply(FAT, data, 4 * OLD, OLD, WORK, 9, LIST);
    EXPECT(created.answer == MUKTHIBAN_READ_ONLY_VOLUME && created.first_block == 0);
    EXPECT(mukthiban_plan_check(FAT, data, 4 * OLD, OLD, WORK, 0, LIST).answer == MUKTHIBAN_INVALID_VALUE);
    EXPECT(mukthiban_plan_find(FAT, data, 4 * OLD, OLD, WORK, 0, LIST).answer == MUKTHIBAN_DONE);
    EXPECT(mukthiban_fat_read(FAT, data, 4 * OLD, OLD, WORK, 0, 2 * OLD - 1, buf, 1).answer == MUKTHIBAN_DONE);
    EXPECT(mukthiban_fat_read_blocks(data, 4 * OLD, OLD, first, 1, 0, buf, 1).answer == MUKTHIBAN_DONE);
    EXPECT(mukthiban_fat_open_list(FAT, data, 4 * OLD, OLD, WORK, 0, LIST).answer == MUKTHIBAN_DONE);
    table[0] = 1;
    EXPECT(mukthiban_fat_create(FAT, data, 4 * OLD, OLD, WORK, 0).answer == MUKTHIBAN_BROKEN_FAT);
    EXPECT(mukthiban_fat_merge(FAT, OLD, WORK).answer == MUKTHIBAN_BROKEN_FAT);
}

/* A table is broken at that entry, by that rule, in every call that judges it; and no other number has them. */
static void broken_at(size_t entry, uint32_t rule)
{
    uint8_t buf[1] = {0};
    mukthiban_tested tested = mukthiban_fat_test(FAT, WORK);
    mukthiban_created created = mukthiban_fat_create(FAT, DATA, WORK, 1);
    mukthiban_opened opened = mukthiban_fat_open_list(FAT, DATA, WORK, 0, LIST);
    mukthiban_created applied = mukthiban_plan_apply(FAT, DATA, WORK, 0, LIST);
    mukthiban_planned planned = mukthiban_plan_find(FAT, DATA, WORK, 0, LIST);
    mukthiban_answered each[6];
    int i;

    each[0] = mukthiban_fat_resize(FAT, DATA, WORK, 0, 1);
    each[1] = mukthiban_fat_delete(FAT, DATA, WORK, 0);
    each[2] = mukthiban_fat_read(FAT, DATA, WORK, 0, 0, buf, 1);
    each[3] = mukthiban_fat_write(FAT, DATA, WORK, 0, 0, buf, 1);
    each[4] = mukthiban_fat_merge(FAT, LENGTH, WORK);
    each[5] = mukthiban_plan_check(FAT, DATA, WORK, 0, LIST);
    EXPECT(tested.answer == MUKTHIBAN_BROKEN_FAT && tested.entry == entry && tested.rule == rule);
    EXPECT(tested.free == 0 && tested.files == 0);
    EXPECT(created.answer == MUKTHIBAN_BROKEN_FAT && created.entry == entry && created.rule == rule);
    EXPECT(created.first_block == 0);
    EXPECT(opened.answer == MUKTHIBAN_BROKEN_FAT && opened.entry == entry && opened.rule == rule);
    EXPECT(opened.count == 0);
    EXPECT(applied.answer == MUKTHIBAN_BROKEN_FAT && applied.entry == entry && applied.rule == rule);
    EXPECT(applied.first_block == 0);
    EXPECT(planned.answer == MUKTHIBAN_BROKEN_FAT && planned.entry == entry && planned.rule == rule);
    EXPECT(planned.count == 0);
    for (i = 0; i < 6; i++)
        EXPECT(each[i].answer == MUKTHIBAN_BROKEN_FAT && each[i].entry == entry && each[i].rule == rule);
    tested = mukthiban_fat_test(FAT, work, 3);
    EXPECT(tested.answer == MUKTHIBAN_WORK_TOO_SHORT && tested.entry == 0 && tested.rule == 0);
}

/* The table of one free node of four blocks, with one byte in another way. */
static void broken_by(size_t at, uint8_t byte, size_t entry, uint32_t rule)
{
    mukthiban_tested tested;

    EXPECT(mukthiban_fat_format(FAT).answer == MUKTHIBAN_DONE);
    tested = mukthiban_fat_test(FAT, WORK);
    EXPECT(tested.answer == MUKTHIBAN_DONE && tested.entry == 0 && tested.rule == 0);
    table[at] = byte;
    broken_at(entry, rule);
}

static void broken(void)
{
    broken_by(8 + 3, 0, 1, MUKTHIBAN_START_FLAGS);
    broken_by(2 * 8, 2, 2, MUKTHIBAN_SECOND_FORM);
    broken_by(2 * 8 + 4, 5, 2, MUKTHIBAN_END_OVER);
    broken_by(4 * 8 + 4, 3, 4, MUKTHIBAN_END_DIFFERS);
    broken_by(0, 1, 0, MUKTHIBAN_HEAD);
    broken_by(8 + 4, 1, 1, MUKTHIBAN_LINKS);
    /* one block that says it is several */
    EXPECT(mukthiban_fat_format(table, 16).answer == MUKTHIBAN_DONE);
    table[8 + 7] = 0x80;
    EXPECT(mukthiban_fat_test(table, 16, WORK).entry == 1);
    EXPECT(mukthiban_fat_test(table, 16, WORK).rule == MUKTHIBAN_NO_SECOND);
}

/* A packed list that is not in order is refused with the sizes, and a full one by open; directory 1 is there, and nothing is open. */
static void packed(void)
{
    size_t opened = 2;
    uint32_t places[3] = {1, 1, 9};

    work[0] = 7;
    EXPECT(mukthiban_tree_open_dir(FOUR, WORK, places, 3, &opened, 1, 0).answer == MUKTHIBAN_INVALID_VALUE);
    opened = 1;
    places[0] = 0;
    EXPECT(mukthiban_tree_open_dir(FOUR, WORK, places, 3, &opened, 1, 0).answer == MUKTHIBAN_INVALID_VALUE);
    places[0] = 1;
    places[1] = 0;
    EXPECT(mukthiban_tree_open_dir(FOUR, WORK, places, 3, &opened, 1, 0).answer == MUKTHIBAN_INVALID_VALUE);
    EXPECT(work[0] == 7 && opened == 1 && places[2] == 9);
    places[0] = 2;
    places[1] = 5;
    EXPECT(mukthiban_tree_open_dir(FOUR, WORK, places, 3, &opened, 1, 0).answer == MUKTHIBAN_TOO_MANY_OPENS);
    places[0] = 1;
    EXPECT(mukthiban_tree_open_dir(FOUR, WORK, places, 3, &opened, 1, 0).answer == MUKTHIBAN_DONE);
    EXPECT(opened == 1 && places[0] == 1 && places[1] == 6 && places[2] == 9);
}

/* Readers and one writer, of directory 2 and file 1, which were made and have nothing else open. */
static void opened(void)
{
    EXPECT(mukthiban_tree_open_dir(FOUR, WORK, DIR_OPENS, 2, MUKTHIBAN_READER).answer == MUKTHIBAN_DONE);
    EXPECT(dirs_opened == 1 && dir_opens[0] == 2 && dir_opens[1] == MUKTHIBAN_HELD + 1);
    EXPECT(mukthiban_tree_open_dir(FOUR, WORK, DIR_OPENS, 2, MUKTHIBAN_WRITER).answer == MUKTHIBAN_BUSY);
    EXPECT(mukthiban_tree_rename_dir(FOUR, WORK, DIR_OPENS, 2, 1, a).answer == MUKTHIBAN_DONE);
    EXPECT(mukthiban_tree_delete_dir(FOUR, WORK, DIR_OPENS, 2).answer == MUKTHIBAN_BUSY);
    EXPECT(mukthiban_tree_close_dir(FOUR, WORK, DIR_OPENS, 2, MUKTHIBAN_WRITER).answer == MUKTHIBAN_DONE);
    EXPECT(dir_opens[0] == 2 && dir_opens[1] == 1);
    EXPECT(mukthiban_tree_delete_dir(FOUR, WORK, DIR_OPENS, 2).answer == MUKTHIBAN_NOT_OPEN);
    EXPECT(mukthiban_tree_rename_dir(FOUR, WORK, DIR_OPENS, 2, 1, b).answer == MUKTHIBAN_NOT_OPEN);
    EXPECT(mukthiban_tree_open_dir(FOUR, WORK, DIR_OPENS, 2, MUKTHIBAN_WRITER).answer == MUKTHIBAN_DONE);
    EXPECT(mukthiban_tree_close_dir(FOUR, WORK, DIR_OPENS, 2, MUKTHIBAN_READER).answer == MUKTHIBAN_DONE);
    EXPECT(mukthiban_tree_delete_dir(FOUR, WORK, DIR_OPENS, 2).answer == MUKTHIBAN_DONE && dirs_opened == 0);
    EXPECT(mukthiban_tree_delete_dir(FOUR, WORK, DIR_OPENS, 1).answer == MUKTHIBAN_NOT_OPEN);

    EXPECT(mukthiban_tree_close_file(FOUR, WORK, FILE_OPENS, 1, MUKTHIBAN_READER).answer == MUKTHIBAN_NOT_OPEN);
    EXPECT(mukthiban_tree_close_file(FOUR, WORK, FILE_OPENS, 1, MUKTHIBAN_WRITER).answer == MUKTHIBAN_DONE);
    EXPECT(files_opened == 0);
    EXPECT(mukthiban_tree_close_file(FOUR, WORK, FILE_OPENS, 1, MUKTHIBAN_WRITER).answer == MUKTHIBAN_NOT_OPEN);
    file_opens[0] = 1;
    file_opens[1] = MUKTHIBAN_HELD + MUKTHIBAN_MAX_OPENS - 1;
    files_opened = 1;
    EXPECT(mukthiban_tree_open_file(FOUR, WORK, FILE_OPENS, 1, MUKTHIBAN_READER).answer == MUKTHIBAN_TOO_MANY_OPENS);
    EXPECT(mukthiban_tree_open_file(FOUR, WORK, FILE_OPENS, 1, MUKTHIBAN_WRITER).answer == MUKTHIBAN_TOO_MANY_OPENS);
    files_opened = 0;
    work[0] = 7;
    EXPECT(mukthiban_tree_open_file(FOUR, WORK, FILE_OPENS, 1, 2).answer == MUKTHIBAN_INVALID_VALUE);
    EXPECT(mukthiban_tree_close_file(FOUR, WORK, FILE_OPENS, 1, 2).answer == MUKTHIBAN_INVALID_VALUE);
    EXPECT(mukthiban_tree_open_dir(FOUR, WORK, dir_opens, 0, &dirs_opened, 1, 2).answer == MUKTHIBAN_INVALID_VALUE);
    EXPECT(mukthiban_tree_close_dir(dir_hash, 3, dir_table, sizeof dir_table, file_hash, sizeof file_hash, file_table,
                                    sizeof file_table, WORK, DIR_OPENS, 1, 2)
               .answer == MUKTHIBAN_SIZE_MISMATCH);
    EXPECT(work[0] == 7 && files_opened == 0);
    EXPECT(mukthiban_tree_open_file(FOUR, WORK, FILE_OPENS, 1, MUKTHIBAN_WRITER).answer == MUKTHIBAN_DONE);
    EXPECT(files_opened == 1 && file_opens[0] == 1 && file_opens[1] == MUKTHIBAN_HELD);
    EXPECT(mukthiban_tree_delete_file(FOUR, WORK, FILE_OPENS, 1).answer == MUKTHIBAN_DONE && files_opened == 0);
    packed();
}

static void tree(void)
{
    uint8_t bytes4[4], bytes20[20];
    mukthiban_found found;
    mukthiban_made made;
    mukthiban_listed listed;
    mukthiban_stat stat;
    mukthiban_aged aged;
    mukthiban_named named;

    EXPECT(mukthiban_tree_format(dir_hash, sizeof dir_hash, dir_table, sizeof dir_table, 4, file_hash,
                                 sizeof file_hash, file_table, sizeof file_table, 4)
               .answer == MUKTHIBAN_DONE);
    EXPECT(mukthiban_tree_test(FOUR, WORK).answer == MUKTHIBAN_DONE);

    made = mukthiban_tree_make_dir(FOUR, WORK, DIR_OPENS, 1, a, four);
    EXPECT(made.answer == MUKTHIBAN_DONE && made.inode == 2 && dirs_opened == 1 && dir_opens[0] == 2 && dir_opens[1] == MUKTHIBAN_HELD);
    made = mukthiban_tree_make_file(FOUR, WORK, FILE_OPENS, 2, b, twenty);
    EXPECT(made.answer == MUKTHIBAN_DONE && made.inode == 1 && files_opened == 1 && file_opens[0] == 1 && file_opens[1] == MUKTHIBAN_HELD);
    EXPECT(mukthiban_tree_make_file(FOUR, WORK, FILE_OPENS, 2, b, twenty).answer == MUKTHIBAN_ALREADY_EXIST);
    EXPECT(mukthiban_tree_make_file(FOUR, WORK, FILE_OPENS, 3, b, twenty).answer == MUKTHIBAN_NOT_FOUND);

    found = mukthiban_tree_lookup_dir(FOUR, WORK, 1, a);
    EXPECT(found.answer == MUKTHIBAN_DONE && found.inode == 2 && found.compared == 1);
    found = mukthiban_tree_lookup_dir(FOUR, WORK, 0, zero_name);
    EXPECT(found.answer == MUKTHIBAN_DONE && found.inode == 1 && found.compared == 2);
    found = mukthiban_tree_lookup_file(FOUR, WORK, 2, b);
    EXPECT(found.answer == MUKTHIBAN_DONE && found.inode == 1 && found.compared == 1);
    EXPECT(mukthiban_tree_lookup_file(FOUR, WORK, 1, b).answer == MUKTHIBAN_NOT_FOUND);

    listed = mukthiban_tree_list_dirs(FOUR, WORK, 1, LIST);
    EXPECT(listed.answer == MUKTHIBAN_DONE && listed.count == 1 && list[0] == 2);
    listed = mukthiban_tree_list_files(FOUR, WORK, 2, LIST);
    EXPECT(listed.answer == MUKTHIBAN_DONE && listed.count == 1 && list[0] == 1);
    stat = mukthiban_tree_stat(FOUR, WORK);
    EXPECT(stat.answer == MUKTHIBAN_DONE && stat.dir_total == 3 && stat.dir_free == 1);
    EXPECT(stat.file_total == 3 && stat.file_free == 2);

    aged = mukthiban_tree_aged(FOUR, WORK);
    EXPECT(aged.answer == MUKTHIBAN_DONE && aged.table == 0 && aged.inode == 0);

    named = mukthiban_tree_name(FOUR, WORK, MUKTHIBAN_DIRECTORY, 2);
    EXPECT(named.answer == MUKTHIBAN_DONE && memcmp(dir_table + named.offset, a, 16) == 0);
    named = mukthiban_tree_name(FOUR, WORK, MUKTHIBAN_FILE, 1);
    EXPECT(named.answer == MUKTHIBAN_DONE && memcmp(file_table + named.offset, b, 16) == 0);
    EXPECT(mukthiban_tree_name(FOUR, WORK, MUKTHIBAN_FILE, 2).answer == MUKTHIBAN_NOT_FOUND);
    work[0] = 7;
    EXPECT(mukthiban_tree_name(FOUR, WORK, 2, 1).answer == MUKTHIBAN_INVALID_VALUE);
    EXPECT(mukthiban_tree_name(dir_hash, 3, dir_table, sizeof dir_table, file_hash, sizeof file_hash, file_table,
                               sizeof file_table, WORK, 2, 1)
               .answer == MUKTHIBAN_SIZE_MISMATCH);
    EXPECT(work[0] == 7);

    EXPECT(mukthiban_tree_carried_dir(FOUR, WORK, 2, bytes4).answer == MUKTHIBAN_DONE);
    EXPECT(memcmp(bytes4, four, 4) == 0);
    EXPECT(mukthiban_tree_carried_dir(FOUR, WORK, 3, bytes4).answer == MUKTHIBAN_NOT_FOUND && bytes4[0] == 0);
    EXPECT(mukthiban_tree_carried_file(FOUR, WORK, 1, bytes20).answer == MUKTHIBAN_DONE);
    EXPECT(memcmp(bytes20, twenty, 20) == 0);
    bytes4[3] = 77;
    EXPECT(mukthiban_tree_set_carried_dir(FOUR, WORK, 2, bytes4).answer == MUKTHIBAN_DONE);
    EXPECT(mukthiban_tree_carried_dir(FOUR, WORK, 2, bytes4).answer == MUKTHIBAN_DONE && bytes4[3] == 77);
    bytes20[19] = 77;
    EXPECT(mukthiban_tree_set_carried_file(FOUR, WORK, 1, bytes20).answer == MUKTHIBAN_DONE);
    EXPECT(mukthiban_tree_carried_file(FOUR, WORK, 1, bytes20).answer == MUKTHIBAN_DONE && bytes20[19] == 77);

    EXPECT(mukthiban_tree_rename_dir(FOUR, WORK, DIR_OPENS, 2, 2, b).answer == MUKTHIBAN_INTO_ITSELF);
    EXPECT(mukthiban_tree_rename_dir(FOUR, WORK, DIR_OPENS, 2, 1, b).answer == MUKTHIBAN_DONE);
    EXPECT(mukthiban_tree_rename_file(FOUR, WORK, FILE_OPENS, 1, 1, a).answer == MUKTHIBAN_DONE);
    opened();
    file_table[0] = 99;
    EXPECT(mukthiban_tree_test(FOUR, WORK).answer == MUKTHIBAN_BROKEN_TREE);
    EXPECT(mukthiban_tree_aged(FOUR, WORK).answer == MUKTHIBAN_BROKEN_TREE);
}

/* Six blocks, four files: the chain of blocks 0 and 1 has two of them, the chains from 2 and from 3 have none. */
enum { BLOCKS = 6, PLACES = BLOCKS + 4 + 5 };
static uint8_t fat[8 * (BLOCKS + 1)], bytes[LENGTH * BLOCKS], files[48 * 5];
static uint32_t places[PLACES], found[10];

#define FILES files, sizeof files
#define DIRS dir_hash, sizeof dir_hash, dir_table, sizeof dir_table
#define VOLUME fat, sizeof fat, bytes, sizeof bytes, (size_t)LENGTH
#define TABLES DIRS, file_hash, sizeof file_hash, FILES
#define FOUND found, (size_t)10

static void make(uint8_t letter, uint8_t block, uint32_t size)
{
    uint32_t opens[2] = {0};
    size_t opened = 0;
    uint8_t name[16] = {0}, carried[20] = {0};

    name[0] = letter;
    carried[4] = block;
    carried[8] = (uint8_t)size;
    carried[9] = (uint8_t)(size >> 8);
    EXPECT(mukthiban_tree_make_file(TABLES, places, PLACES, opens, 2, &opened, 1, name, carried).answer == MUKTHIBAN_DONE);
}

static void disagreeing(void)
{
    EXPECT(mukthiban_fat_format(fat, sizeof fat).answer == MUKTHIBAN_DONE);
    EXPECT(mukthiban_fat_create(VOLUME, places, PLACES, 2).first_block == 0);
    EXPECT(mukthiban_fat_create(VOLUME, places, PLACES, 1).first_block == 2);
    EXPECT(mukthiban_fat_create(VOLUME, places, PLACES, 1).first_block == 3);
    EXPECT(mukthiban_tree_format(DIRS, 4, file_hash, sizeof file_hash, FILES, 5).answer == MUKTHIBAN_DONE);
    make('a', 0, 2 * LENGTH);
    make('b', 0, 2 * LENGTH + 1);
    make('c', 4, 1); /* the free chain's first */
    make('d', 2, 0); /* of size 0: it names no chain */
}

/* Each refusal of the audit once, in the order of its rows; none writes to the list. */
static void audit_refused(void)
{
    mukthiban_audited audited;
    size_t i;

    memset(found, 7, sizeof found);
    places[0] = 7;
    EXPECT(mukthiban_volume_audit(fat, 7, bytes, sizeof bytes, LENGTH, TABLES, places, PLACES, FOUND).answer == MUKTHIBAN_SIZE_MISMATCH);
    EXPECT(mukthiban_volume_audit(fat, 8, bytes, 0, LENGTH, dir_hash, 3, dir_table, sizeof dir_table, file_hash,
                                  sizeof file_hash, FILES, places, PLACES, FOUND)
               .answer == MUKTHIBAN_SIZE_MISMATCH);
    EXPECT(mukthiban_volume_audit(fat, 8, bytes, 0, LENGTH, TABLES, places, PLACES, FOUND).answer == MUKTHIBAN_INVALID_VALUE);
    EXPECT(mukthiban_volume_audit(VOLUME, TABLES, places, PLACES - 1, FOUND).answer == MUKTHIBAN_WORK_TOO_SHORT);
    EXPECT(places[0] == 7);
    audited = mukthiban_volume_audit(VOLUME, TABLES, places, PLACES, found, 9);
    EXPECT(audited.answer == MUKTHIBAN_LIST_TOO_SHORT && audited.count == 0 && places[0] == 0);

    files[0] = 99;
    audited = mukthiban_volume_audit(VOLUME, TABLES, places, PLACES, found, 0);
    EXPECT(audited.answer == MUKTHIBAN_BROKEN_TREE && audited.count == 0 && audited.entry == 0 && audited.rule == 0);
    fat[0] = 1;
    audited = mukthiban_volume_audit(VOLUME, TABLES, places, PLACES, FOUND);
    EXPECT(audited.answer == MUKTHIBAN_BROKEN_FAT && audited.count == 0);
    EXPECT(audited.entry == 0 && audited.rule == MUKTHIBAN_HEAD);
    for (i = 0; i < 10; i++)
        EXPECT(found[i] == 0x07070707);
}

static void audit(void)
{
    static const uint32_t expected[10] = {2, 2, 3, 2, 1, 3, 4, 2, 4, 3};
    mukthiban_audited audited;

    disagreeing();
    audited = mukthiban_volume_audit(VOLUME, TABLES, places, PLACES, FOUND);
    EXPECT(audited.answer == MUKTHIBAN_DONE && audited.count == 5 && audited.entry == 0 && audited.rule == 0);
    EXPECT(memcmp(found, expected, sizeof found) == 0);
    audit_refused();
}

/* A chain, some chains and the entries of broken tables, and each refusal of these calls once. */
static void salvage(void)
{
    static const uint32_t firsts[3] = {0, 3, 0};
    uint32_t kinds[4] = {9, 9, 9, 9};
    size_t ends[7] = {9, 9, 9, 9, 9, 9, 9};
    mukthiban_salvaged followed;

    disagreeing();
    fat[0] = 1; /* the head has not its form */
    followed = mukthiban_salvage_chain(fat, sizeof fat, places, PLACES, 0, FOUND);
    EXPECT(followed.answer == MUKTHIBAN_DONE && followed.count == 2 && followed.entry == 0 && followed.rule == 0);
    EXPECT(found[0] == 0 && found[1] == 1 && places[0] == 0);
    EXPECT(mukthiban_salvage_chain(fat, 7, places, PLACES, 0, FOUND).answer == MUKTHIBAN_SIZE_MISMATCH);
    EXPECT(mukthiban_salvage_chain(fat, 8, places, PLACES, 0, FOUND).answer == MUKTHIBAN_INVALID_VALUE);
    EXPECT(mukthiban_salvage_chain(fat, sizeof fat, places, 0, 0, FOUND).answer == MUKTHIBAN_WORK_TOO_SHORT);
    EXPECT(mukthiban_salvage_chain(fat, sizeof fat, places, PLACES, SIZE_MAX, FOUND).answer == MUKTHIBAN_NOT_A_FILE);
    EXPECT(mukthiban_salvage_chain(fat, sizeof fat, places, PLACES, 0, found, 1).answer == MUKTHIBAN_LIST_TOO_SHORT);

    EXPECT(mukthiban_salvage_shared(fat, sizeof fat, places, PLACES, firsts, 3, kinds, 4).answer == MUKTHIBAN_DONE);
    EXPECT(kinds[0] == MUKTHIBAN_CHAIN_SHARED && kinds[1] == MUKTHIBAN_CHAIN_WHOLE);
    EXPECT(kinds[2] == MUKTHIBAN_CHAIN_SHARED && kinds[3] == 9);
    EXPECT(mukthiban_salvage_shared(fat, 7, places, PLACES, firsts, 3, kinds, 4).answer == MUKTHIBAN_SIZE_MISMATCH);
    EXPECT(mukthiban_salvage_shared(fat, 8, places, PLACES, firsts, 3, kinds, 4).answer == MUKTHIBAN_INVALID_VALUE);
    EXPECT(mukthiban_salvage_shared(fat, sizeof fat, places, 0, firsts, 3, kinds, 4).answer == MUKTHIBAN_WORK_TOO_SHORT);
    EXPECT(mukthiban_salvage_shared(fat, sizeof fat, places, PLACES, firsts, 3, kinds, 2).answer == MUKTHIBAN_LIST_TOO_SHORT);

    EXPECT(mukthiban_salvage_chains(fat, sizeof fat, places, PLACES, firsts, 2, ends, 7, FOUND).answer == MUKTHIBAN_DONE);
    EXPECT(ends[0] == 2 && ends[1] == 0 && ends[2] == 0 && ends[5] == 0 && ends[6] == 9 && found[0] == 0 && found[2] == 3);
    EXPECT(mukthiban_salvage_chains(fat, 7, places, PLACES, firsts, 2, ends, 7, FOUND).answer == MUKTHIBAN_SIZE_MISMATCH);
    EXPECT(mukthiban_salvage_chains(fat, 8, places, PLACES, firsts, 2, ends, 7, FOUND).answer == MUKTHIBAN_INVALID_VALUE);
    EXPECT(mukthiban_salvage_chains(fat, sizeof fat, places, 0, firsts, 2, ends, 7, FOUND).answer == MUKTHIBAN_WORK_TOO_SHORT);
    EXPECT(mukthiban_salvage_chains(fat, sizeof fat, places, PLACES, firsts, 2, ends, 5, FOUND).answer == MUKTHIBAN_LIST_TOO_SHORT);
    EXPECT(mukthiban_salvage_chains(fat, sizeof fat, places, PLACES, firsts, 2, ends, 7, found, 2).answer == MUKTHIBAN_LIST_TOO_SHORT);

    memset(file_hash, 9, sizeof file_hash); /* no bucket is looked at */
    EXPECT(mukthiban_salvage_files(FILES, places, PLACES, FOUND).count == 4 && found[0] == 1 && found[3] == 4);
    EXPECT(mukthiban_salvage_files(files, 47, places, PLACES, FOUND).answer == MUKTHIBAN_SIZE_MISMATCH);
    EXPECT(mukthiban_salvage_files(FILES, places, 1, FOUND).answer == MUKTHIBAN_WORK_TOO_SHORT);
    EXPECT(mukthiban_salvage_files(FILES, places, PLACES, found, 3).answer == MUKTHIBAN_LIST_TOO_SHORT);
    EXPECT(mukthiban_salvage_dirs(dir_table, sizeof dir_table, places, PLACES, FOUND).count == 1 && found[0] == 1);
    EXPECT(mukthiban_salvage_dirs(dir_table, 39, places, PLACES, FOUND).answer == MUKTHIBAN_SIZE_MISMATCH);
    EXPECT(mukthiban_salvage_way(dir_table, sizeof dir_table, places, PLACES, 1, FOUND).count == 1 && found[0] == 1);
    EXPECT(mukthiban_salvage_way(dir_table, sizeof dir_table, places, PLACES, 99, FOUND).count == 0);
    EXPECT(mukthiban_salvage_way(dir_table, sizeof dir_table, places, PLACES, 1, found, 0).answer == MUKTHIBAN_LIST_TOO_SHORT);
    EXPECT(mukthiban_salvage_way(dir_table, sizeof dir_table, places, 1, 1, FOUND).answer == MUKTHIBAN_WORK_TOO_SHORT);
    EXPECT(mukthiban_salvage_way(dir_table, 39, places, PLACES, 1, FOUND).answer == MUKTHIBAN_SIZE_MISMATCH);
}

static void texts(void)
{
    EXPECT(strcmp(mukthiban_text(MUKTHIBAN_DONE), "done") == 0);
    EXPECT(strcmp(mukthiban_text(MUKTHIBAN_NOT_EMPTY), "the directory is not empty") == 0);
    EXPECT(strcmp(mukthiban_text(UINT32_MAX), "not a number of mukthiban") == 0);
}

int main(void)
{
    EXPECT(mukthiban_version() == MUKTHIBAN_VERSION_NUMBER);
    texts();
    blocks();
    plans();
    read_only();
    broken();
    tree();
    audit();
    salvage();
    return failures == 0 ? 0 : 1;
}
