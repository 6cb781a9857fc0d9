/* Calls the kiosk's test and create and their inner calls, and holds the answers against docs/RULES.md. */
#include "mukthiban.h"
#include "mukthiban_tested.h"

#include <stdio.h>
#include <string.h>

static int failures = 0;

#define EXPECT(what)                                                  \
    do {                                                              \
        if (!(what)) {                                                \
            failures++;                                               \
            fprintf(stderr, "line %d: not so: %s\n", __LINE__, #what); \
        }                                                             \
    } while (0)

/* 8 blocks of 512 bytes, room for one directory beside the root and three files */
enum { LENGTH = 512, BLOCKS = 8, DIR_ROOM = 3, FILE_ROOM = 4, PLACES = BLOCKS + DIR_ROOM + FILE_ROOM };
static uint8_t table[8 * (BLOCKS + 1)], data[LENGTH * BLOCKS];
static uint8_t dir_hash[4 * 3], dir_table[40 * DIR_ROOM], file_hash[4 * 3], file_table[48 * FILE_ROOM];
static uint32_t work[PLACES];

#define FAT table, sizeof table
#define DATA data, sizeof data, (size_t)LENGTH
#define FOUR \
    dir_hash, sizeof dir_hash, dir_table, sizeof dir_table, file_hash, sizeof file_hash, file_table, sizeof file_table
#define WORK work, (size_t)PLACES

/* What the test answers, and the inner one, whose work list is zeros. */
static uint32_t broken(void)
{
    mukthiban_profiled said = mukthiban_kiosk_test(FAT, DATA, FOUR, WORK), inner;

    EXPECT(said.answer == MUKTHIBAN_DONE && said.entry == 0 && said.rule == 0);
    EXPECT(work[0] == 0 && work[PLACES - 1] == 0);
    inner = mukthiban_tested_kiosk_test(FAT, BLOCKS, LENGTH, dir_table, sizeof dir_table, file_table, sizeof file_table, WORK);
    EXPECT(inner.answer == MUKTHIBAN_DONE && inner.broken == said.broken);
    return said.broken;
}

/* A create by both calls: they leave the same table. */
static mukthiban_created create(size_t count)
{
    uint8_t other[sizeof table];
    mukthiban_created said, inner;

    memcpy(other, table, sizeof table);
    said = mukthiban_kiosk_create(FAT, DATA, WORK, count);
    inner = mukthiban_tested_kiosk_create(other, sizeof other, BLOCKS, LENGTH, count);
    EXPECT(said.answer == inner.answer && said.first_block == inner.first_block);
    EXPECT(memcmp(other, table, sizeof table) == 0);
    return said;
}

static uint32_t make(const char *text, uint8_t block, uint32_t size)
{
    uint32_t opens[2] = {0};
    size_t opened = 0;
    uint8_t name[16] = {0}, carried[20] = {0};
    mukthiban_made made;

    memcpy(name, text, strlen(text));
    carried[4] = block;
    carried[8] = (uint8_t)size;
    carried[9] = (uint8_t)(size >> 8);
    made = mukthiban_tree_make_file(FOUR, WORK, opens, 2, &opened, 1, name, carried);
    EXPECT(made.answer == MUKTHIBAN_DONE);
    return made.inode;
}

static void formatted(void)
{
    EXPECT(mukthiban_fat_format(FAT).answer == MUKTHIBAN_DONE);
    EXPECT(mukthiban_tree_format(dir_hash, sizeof dir_hash, dir_table, sizeof dir_table, DIR_ROOM, file_hash, sizeof file_hash,
                                 file_table, sizeof file_table, FILE_ROOM)
               .answer == MUKTHIBAN_DONE);
}

/* The first node along the chain that is long enough; what is left of it stands in its place. */
static void creates(void)
{
    mukthiban_created created;

    formatted();
    EXPECT(mukthiban_fat_create(FAT, DATA, WORK, 1).first_block == 0);
    EXPECT(mukthiban_fat_create(FAT, DATA, WORK, 3).first_block == 1);
    EXPECT(mukthiban_fat_create(FAT, DATA, WORK, 1).first_block == 4);
    EXPECT(mukthiban_fat_delete(FAT, DATA, WORK, 0).answer == MUKTHIBAN_DONE);
    EXPECT(mukthiban_fat_delete(FAT, DATA, WORK, 1).answer == MUKTHIBAN_DONE);
    /* the free chain is 1 to 3, 0, 5 to 7 */
    created = create(2);
    EXPECT(created.answer == MUKTHIBAN_DONE && created.first_block == 1 && table[4] == 4);
    EXPECT(create(3).first_block == 5); /* the last node, whole: block 3, then block 0 */
    EXPECT(create(2).answer == MUKTHIBAN_NO_SPACE); /* though two are free */
    EXPECT(create(0).answer == MUKTHIBAN_INVALID_VALUE);
    EXPECT(create(1).first_block == 3 && table[4] == 1);
    EXPECT(create(1).first_block == 0 && table[4] == 0);
    EXPECT(create(1).answer == MUKTHIBAN_NO_SPACE);
}

static void creates_refused(void)
{
    enum { OLD = LENGTH / 2 };
    mukthiban_created created;

    EXPECT(mukthiban_kiosk_create(table, 7, DATA, WORK, 1).answer == MUKTHIBAN_SIZE_MISMATCH);
    EXPECT(mukthiban_kiosk_create(table, 8, data, 0, LENGTH, WORK, 1).answer == MUKTHIBAN_INVALID_VALUE);
    EXPECT(mukthiban_kiosk_create(FAT, DATA, work, BLOCKS - 1, 1).answer == MUKTHIBAN_WORK_TOO_SHORT);
    EXPECT(mukthiban_kiosk_create(FAT, data, BLOCKS * OLD, OLD, WORK, 0).answer == MUKTHIBAN_READ_ONLY_VOLUME);
    EXPECT(mukthiban_tested_kiosk_create(FAT, BLOCKS, OLD, 0).answer == MUKTHIBAN_READ_ONLY_VOLUME);
    table[0] = 1;
    created = mukthiban_kiosk_create(FAT, data, BLOCKS * OLD, OLD, WORK, 0);
    EXPECT(created.answer == MUKTHIBAN_BROKEN_FAT && created.entry == 0 && created.rule == MUKTHIBAN_HEAD);
    EXPECT(created.first_block == 0);
}

/* In the profile, and each rule but those of size broken; a record makes a new chain fit. */
static void tests(void)
{
    static const uint8_t d[16] = {'D'}, padding[4] = {0};
    uint32_t opens[2] = {2, 0x80000000u}, dir_opens[2] = {0}; /* the writer of file 2 */
    size_t opened = 1, dirs_opened = 0;

    formatted();
    EXPECT(broken() == 0);
    EXPECT(create(2).first_block == 0);
    EXPECT(broken() == 1);
    EXPECT(make("SLOT1", 0, 2 * LENGTH) == 1);
    EXPECT(broken() == 0);
    EXPECT(make("a", 0, 0) == 2);
    EXPECT(broken() == 6);
    EXPECT(mukthiban_tree_delete_file(FOUR, WORK, opens, 2, &opened, 2).answer == MUKTHIBAN_DONE);
    EXPECT(broken() == 0); /* a removed file's name is not judged */
    EXPECT(create(1).first_block == 2);
    EXPECT(make("X", 2, 1) == 2);
    EXPECT(mukthiban_fat_resize(FAT, DATA, WORK, 0, 3).answer == MUKTHIBAN_DONE);
    EXPECT(broken() == 5);
    EXPECT(mukthiban_tree_make_dir(FOUR, WORK, dir_opens, 2, &dirs_opened, 1, d, padding).answer == MUKTHIBAN_DONE);
    EXPECT(broken() == 3);
    EXPECT(mukthiban_tree_delete_dir(FOUR, WORK, dir_opens, 2, &dirs_opened, 2).answer == MUKTHIBAN_DONE);
    EXPECT(broken() == 5);
    EXPECT(mukthiban_fat_resize(FAT, DATA, WORK, 0, 1).answer == MUKTHIBAN_DONE);
    EXPECT(broken() == 1); /* the size is over what the blocks hold */
}

static void tests_refused(void)
{
    mukthiban_profiled said;

    work[0] = 7;
    EXPECT(mukthiban_kiosk_test(table, 7, DATA, FOUR, WORK).answer == MUKTHIBAN_SIZE_MISMATCH);
    EXPECT(mukthiban_kiosk_test(table, 8, data, 0, LENGTH, FOUR, WORK).answer == MUKTHIBAN_INVALID_VALUE);
    EXPECT(mukthiban_kiosk_test(FAT, DATA, FOUR, work, PLACES - 1).answer == MUKTHIBAN_WORK_TOO_SHORT && work[0] == 7);
    file_table[0] = 99;
    said = mukthiban_kiosk_test(FAT, DATA, FOUR, WORK);
    EXPECT(said.answer == MUKTHIBAN_BROKEN_TREE && said.broken == 0 && said.entry == 0 && work[0] == 0);
    table[0] = 1;
    said = mukthiban_kiosk_test(FAT, DATA, FOUR, WORK);
    EXPECT(said.answer == MUKTHIBAN_BROKEN_FAT && said.broken == 0 && said.entry == 0 && said.rule == MUKTHIBAN_HEAD);
}

int main(void)
{
    creates();
    creates_refused();
    tests();
    tests_refused();
    return failures == 0 ? 0 : 1;
}
