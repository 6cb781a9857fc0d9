/* Calls every function of the free map, and holds answers, table and map against docs/RULES.md. */
#include "mukthiban.h"
#include "mukthiban_tested.h"

#include <stdio.h>
#include <string.h>

static int failures = 0;

#define EXPECT(what)                                                  \
    do {                                                              \
        if (!(what)) {                                                \
            failures++;                                               \
            fprintf(stderr, "line %d: not so: %s\n", __LINE__, #what); \
        }                                                             \
    } while (0)

/* 40 blocks of 512 bytes: a map of two words, with one behind it */
enum { BLOCKS = 40, LENGTH = 512, WORDS = 2 };
static uint8_t table[8 * (BLOCKS + 1)], data[LENGTH * BLOCKS];
static uint32_t work[BLOCKS], map[WORDS + 1];

#define FAT table, sizeof table
#define DATA data, sizeof data, (size_t)LENGTH
#define WORK work, (size_t)BLOCKS
#define MAP map, (size_t)(WORDS + 1)

/* The map is so, and the word behind it as it was. */
static int is(uint32_t low, uint32_t high)
{
    return map[0] == low && map[1] == high && map[2] == 0x07070707;
}

static void kept(void)
{
    mukthiban_created file;

    memset(map, 7, sizeof map);
    EXPECT(mukthiban_fat_format(FAT).answer == MUKTHIBAN_DONE);
    EXPECT(mukthiban_map_build(FAT, DATA, WORK, MAP).answer == MUKTHIBAN_DONE && is(0xFFFFFFFF, 0xFF));
    file = mukthiban_map_create(FAT, DATA, WORK, MAP, 3);
    EXPECT(file.answer == MUKTHIBAN_DONE && file.first_block == 0 && is(0xFFFFFFF8, 0xFF));
    file = mukthiban_map_create(FAT, DATA, WORK, MAP, 30);
    EXPECT(file.answer == MUKTHIBAN_DONE && file.first_block == 3 && is(0, 0xFE));
    EXPECT(mukthiban_map_delete(FAT, DATA, WORK, MAP, 0).answer == MUKTHIBAN_DONE && is(7, 0xFE));
    EXPECT(mukthiban_map_resize(FAT, DATA, WORK, MAP, 3, 34).answer == MUKTHIBAN_DONE && is(0, 0xFC));
    EXPECT(mukthiban_map_resize(FAT, DATA, WORK, MAP, 3, 20).answer == MUKTHIBAN_DONE && is(0xFF800007, 0xFF));
    EXPECT(mukthiban_map_resize(FAT, DATA, WORK, MAP, 3, 20).answer == MUKTHIBAN_DONE && is(0xFF800007, 0xFF));
}

static void refused(void)
{
    mukthiban_created file;

    EXPECT(mukthiban_map_build(table, 7, DATA, WORK, MAP).answer == MUKTHIBAN_SIZE_MISMATCH);
    EXPECT(mukthiban_map_build(table, 8, data, 0, LENGTH, WORK, MAP).answer == MUKTHIBAN_INVALID_VALUE);
    EXPECT(mukthiban_map_build(FAT, DATA, WORK, map, WORDS - 1).answer == MUKTHIBAN_WORK_TOO_SHORT);
    EXPECT(mukthiban_map_build(FAT, DATA, work, BLOCKS - 1, MAP).answer == MUKTHIBAN_WORK_TOO_SHORT);
    work[0] = 5;
    EXPECT(mukthiban_map_create(table, 7, DATA, WORK, map, 0, 1).answer == MUKTHIBAN_SIZE_MISMATCH);
    EXPECT(mukthiban_map_create(table, 8, data, 0, LENGTH, WORK, MAP, 1).answer == MUKTHIBAN_INVALID_VALUE);
    EXPECT(mukthiban_map_create(FAT, DATA, WORK, map, 1, 1).answer == MUKTHIBAN_WORK_TOO_SHORT && work[0] == 5);
    EXPECT(mukthiban_map_create(FAT, DATA, WORK, MAP, 0).answer == MUKTHIBAN_INVALID_VALUE && work[0] == 0);
    EXPECT(mukthiban_map_create(FAT, DATA, WORK, MAP, 21).answer == MUKTHIBAN_NO_SPACE);
    EXPECT(mukthiban_map_resize(FAT, DATA, WORK, MAP, 4, 1).answer == MUKTHIBAN_NOT_A_FILE);
    EXPECT(mukthiban_map_resize(FAT, DATA, WORK, MAP, 3, 0).answer == MUKTHIBAN_INVALID_VALUE);
    EXPECT(mukthiban_map_resize(FAT, DATA, WORK, MAP, 3, 41).answer == MUKTHIBAN_NO_SPACE);
    EXPECT(mukthiban_map_delete(FAT, DATA, WORK, MAP, 0).answer == MUKTHIBAN_NOT_A_FILE);
    EXPECT(mukthiban_map_create(FAT, data, BLOCKS * 4, 4, WORK, MAP, 0).answer == MUKTHIBAN_READ_ONLY_VOLUME);
    EXPECT(mukthiban_map_resize(FAT, data, BLOCKS * 4, 4, WORK, MAP, 4, 0).answer == MUKTHIBAN_READ_ONLY_VOLUME);
    EXPECT(mukthiban_map_delete(FAT, data, BLOCKS * 4, 4, WORK, MAP, 4).answer == MUKTHIBAN_READ_ONLY_VOLUME);
    EXPECT(is(0xFF800007, 0xFF));

    /* one bit wrong, one block for another, an unused bit: each before 20 and the call's own */
    map[0] ^= 1;
    file = mukthiban_map_create(FAT, data, BLOCKS * 4, 4, WORK, MAP, 0);
    EXPECT(file.answer == MUKTHIBAN_BROKEN_FAT && file.first_block == 0 && file.entry == 0 && file.rule == 0);
    map[0] ^= 1 << 3;
    EXPECT(mukthiban_map_resize(FAT, DATA, WORK, MAP, 3, 20).answer == MUKTHIBAN_BROKEN_FAT);
    map[0] ^= 1 << 3 ^ 1;
    map[1] ^= 1 << 8;
    EXPECT(mukthiban_map_delete(FAT, DATA, WORK, MAP, 3).answer == MUKTHIBAN_BROKEN_FAT);
    map[1] ^= 1 << 8;

    /* the table's own 4 comes first, with its place */
    table[0] = 1;
    map[0] ^= 1;
    file = mukthiban_map_create(FAT, DATA, WORK, MAP, 1);
    EXPECT(file.answer == MUKTHIBAN_BROKEN_FAT && file.entry == 0 && file.rule == MUKTHIBAN_HEAD);
    EXPECT(mukthiban_map_build(FAT, DATA, WORK, MAP).answer == MUKTHIBAN_BROKEN_FAT);
    table[0] = 0;
    map[0] ^= 1;
    EXPECT(is(0xFF800007, 0xFF));
}

static void counted(void)
{
    mukthiban_counted all = mukthiban_map_count(MAP, BLOCKS, 0, BLOCKS);

    EXPECT(all.answer == MUKTHIBAN_DONE && all.free == 20);
    EXPECT(mukthiban_map_count(MAP, BLOCKS, 2, 24).free == 2);
    EXPECT(mukthiban_map_count(MAP, BLOCKS, 3, 23).free == 0);
    EXPECT(mukthiban_map_count(MAP, BLOCKS, 31, 33).free == 2);
    EXPECT(mukthiban_map_count(MAP, BLOCKS, 40, 40).answer == MUKTHIBAN_DONE);
    EXPECT(mukthiban_map_count(MAP, 0, 0, 0).answer == MUKTHIBAN_INVALID_VALUE);
    EXPECT(mukthiban_map_count(MAP, 1000001, 0, 0).answer == MUKTHIBAN_INVALID_VALUE);
    EXPECT(mukthiban_map_count(MAP, 97, 1, 0).answer == MUKTHIBAN_WORK_TOO_SHORT);
    EXPECT(mukthiban_map_count(MAP, BLOCKS, 2, 1).answer == MUKTHIBAN_INVALID_VALUE);
    EXPECT(mukthiban_map_count(MAP, BLOCKS, 0, 41).answer == MUKTHIBAN_INVALID_VALUE);
}

/* The inner calls do the same to another table and map. */
static void tested(void)
{
    static uint8_t other[sizeof table];
    uint32_t words[WORDS];
    mukthiban_created file;

    memcpy(other, table, sizeof table);
    EXPECT(mukthiban_tested_map_build(other, sizeof other, BLOCKS, words, WORDS).answer == MUKTHIBAN_DONE);
    EXPECT(memcmp(words, map, sizeof words) == 0);
#define SAME() EXPECT(memcmp(other, table, sizeof table) == 0 && memcmp(words, map, sizeof words) == 0)
    file = mukthiban_tested_map_create(other, sizeof other, BLOCKS, LENGTH, words, WORDS, 12);
    EXPECT(file.answer == MUKTHIBAN_DONE && mukthiban_map_create(FAT, DATA, WORK, MAP, 12).first_block == file.first_block);
    SAME();
    EXPECT(mukthiban_tested_map_resize(other, sizeof other, BLOCKS, LENGTH, words, WORDS, 3, 1).answer == MUKTHIBAN_DONE);
    EXPECT(mukthiban_map_resize(FAT, DATA, WORK, MAP, 3, 1).answer == MUKTHIBAN_DONE);
    SAME();
    EXPECT(mukthiban_tested_map_delete(other, sizeof other, BLOCKS, LENGTH, words, WORDS, 3).answer == MUKTHIBAN_DONE);
    EXPECT(mukthiban_map_delete(FAT, DATA, WORK, MAP, 3).answer == MUKTHIBAN_DONE);
    SAME();
    EXPECT(mukthiban_tested_map_delete(other, sizeof other, BLOCKS, 4, words, WORDS, 3).answer == MUKTHIBAN_READ_ONLY_VOLUME);
    SAME();
#undef SAME
}

/* A call without the map leaves it behind, until it is built again. */
static void left_behind(void)
{
    EXPECT(mukthiban_fat_create(FAT, DATA, WORK, 1).answer == MUKTHIBAN_DONE);
    EXPECT(mukthiban_map_create(FAT, DATA, WORK, MAP, 1).answer == MUKTHIBAN_BROKEN_FAT);
    EXPECT(mukthiban_map_build(FAT, DATA, WORK, MAP).answer == MUKTHIBAN_DONE);
    EXPECT(mukthiban_fat_merge(FAT, LENGTH, WORK).answer == MUKTHIBAN_DONE);
    EXPECT(mukthiban_map_create(FAT, DATA, WORK, MAP, 1).answer == MUKTHIBAN_DONE);
}

int main(void)
{
    kept();
    refused();
    counted();
    tested();
    left_behind();
    return failures == 0 ? 0 : 1;
}
