/* Calls every function beside the free map and the map of first blocks, and holds answers, table and maps against docs/RULES.md. */
#include "mukthiban.h"
#include "mukthiban_tested.h"

#include <stdio.h>
#include <string.h>

static int failures = 0;

#define EXPECT(what)                                                  \
    do {                                                              \
        if (!(what)) {                                                \
            failures++;                                               \
            fprintf(stderr, "line %d: not so: %s\n", __LINE__, #what); \
        }                                                             \
    } while (0)

/* 40 blocks of 512 bytes: maps of two words */
enum { BLOCKS = 40, LENGTH = 512, WORDS = 2 };
static uint8_t table[8 * (BLOCKS + 1)], data[LENGTH * BLOCKS];
static uint32_t map[WORDS], firsts[WORDS];

#define FAT table, sizeof table, (size_t)BLOCKS
#define DATA data, sizeof data
#define MAPS map, (size_t)WORDS, firsts, (size_t)WORDS
#define FIRSTS firsts, (size_t)WORDS

/* The maps are so, and equal to maps built afresh. */
static int are(uint32_t low, uint32_t high, uint32_t first_low, uint32_t first_high)
{
    uint32_t free_now[WORDS] = {7, 7}, firsts_now[WORDS] = {7, 7};

    EXPECT(mukthiban_tested_map_build(FAT, free_now, WORDS).answer == MUKTHIBAN_DONE);
    EXPECT(mukthiban_tested_first_build(FAT, firsts_now, WORDS).answer == MUKTHIBAN_DONE);
    return map[0] == low && map[1] == high && firsts[0] == first_low && firsts[1] == first_high
        && memcmp(map, free_now, sizeof map) == 0 && memcmp(firsts, firsts_now, sizeof firsts) == 0;
}

static void kept(void)
{
    mukthiban_created file;

    memset(firsts, 7, sizeof firsts);
    EXPECT(mukthiban_fat_format(table, sizeof table).answer == MUKTHIBAN_DONE);
    EXPECT(mukthiban_tested_map_build(FAT, map, WORDS).answer == MUKTHIBAN_DONE);
    EXPECT(mukthiban_tested_first_build(FAT, FIRSTS).answer == MUKTHIBAN_DONE && are(0xFFFFFFFF, 0xFF, 0, 0));
    file = mukthiban_tested_first_create(FAT, LENGTH, MAPS, 3);
    EXPECT(file.answer == MUKTHIBAN_DONE && file.first_block == 0 && are(0xFFFFFFF8, 0xFF, 1, 0));
    file = mukthiban_tested_first_create(FAT, LENGTH, MAPS, 30);
    EXPECT(file.answer == MUKTHIBAN_DONE && file.first_block == 3 && are(0, 0xFE, 9, 0));
    file = mukthiban_tested_first_create(FAT, LENGTH, MAPS, 1);
    EXPECT(file.answer == MUKTHIBAN_DONE && file.first_block == 33 && are(0, 0xFC, 9, 2));
    EXPECT(mukthiban_tested_first_delete(FAT, LENGTH, MAPS, 0).answer == MUKTHIBAN_DONE && are(7, 0xFC, 8, 2));
    EXPECT(mukthiban_tested_first_resize(FAT, LENGTH, MAPS, 3, 34).answer == MUKTHIBAN_DONE && are(0, 0xF8, 8, 2));
    EXPECT(mukthiban_tested_first_resize(FAT, LENGTH, MAPS, 3, 20).answer == MUKTHIBAN_DONE && are(0xFF800007, 0xFD, 8, 2));
}

/* A refusal leaves both maps; a block that begins no file is NotAFile: one inside a file, a free one, one past the end. */
static void refused(void)
{
    uint32_t list[BLOCKS];
    uint8_t buf[4] = {0};
    size_t none[] = {4, 0, 23, 33 + 1, BLOCKS, (size_t)-1}, i;

    EXPECT(mukthiban_tested_first_create(FAT, LENGTH, MAPS, 0).answer == MUKTHIBAN_INVALID_VALUE);
    EXPECT(mukthiban_tested_first_create(FAT, LENGTH, MAPS, 20).answer == MUKTHIBAN_NO_SPACE);
    EXPECT(mukthiban_tested_first_create(FAT, 4, MAPS, 1).answer == MUKTHIBAN_READ_ONLY_VOLUME);
    EXPECT(mukthiban_tested_first_resize(FAT, LENGTH, MAPS, 3, 0).answer == MUKTHIBAN_INVALID_VALUE);
    EXPECT(mukthiban_tested_first_resize(FAT, LENGTH, MAPS, 3, 40).answer == MUKTHIBAN_NO_SPACE);
    EXPECT(mukthiban_tested_first_resize(FAT, 4, MAPS, 3, 1).answer == MUKTHIBAN_READ_ONLY_VOLUME);
    EXPECT(mukthiban_tested_first_delete(FAT, 4, MAPS, 3).answer == MUKTHIBAN_READ_ONLY_VOLUME);
    for (i = 0; i < sizeof none / sizeof *none; i++) {
        EXPECT(mukthiban_tested_first_resize(FAT, LENGTH, MAPS, none[i], 1).answer == MUKTHIBAN_NOT_A_FILE);
        EXPECT(mukthiban_tested_first_delete(FAT, LENGTH, MAPS, none[i]).answer == MUKTHIBAN_NOT_A_FILE);
        EXPECT(mukthiban_tested_first_open_list(FAT, FIRSTS, none[i], list, BLOCKS).answer == MUKTHIBAN_NOT_A_FILE);
        EXPECT(mukthiban_tested_first_read(FAT, FIRSTS, DATA, LENGTH, none[i], 0, buf, 4).answer == MUKTHIBAN_NOT_A_FILE);
        EXPECT(mukthiban_tested_first_write(FAT, FIRSTS, DATA, LENGTH, none[i], 0, buf, 4).answer == MUKTHIBAN_NOT_A_FILE);
    }
    EXPECT(mukthiban_tested_first_open_list(FAT, FIRSTS, 3, list, 19).answer == MUKTHIBAN_LIST_TOO_SHORT);
    EXPECT(mukthiban_tested_first_read(FAT, FIRSTS, DATA, LENGTH, 3, 20 * LENGTH - 3, buf, 4).answer == MUKTHIBAN_OUT_OF_BOUND);
    EXPECT(mukthiban_tested_first_write(FAT, FIRSTS, DATA, LENGTH, 3, 20 * LENGTH - 3, buf, 4).answer == MUKTHIBAN_OUT_OF_BOUND);
    EXPECT(are(0xFF800007, 0xFD, 8, 2));
}

static void used(void)
{
    uint32_t list[BLOCKS];
    uint8_t text[] = "saved", back[sizeof text] = {0};
    mukthiban_opened listed = mukthiban_tested_first_open_list(FAT, FIRSTS, 3, list, BLOCKS);

    EXPECT(listed.answer == MUKTHIBAN_DONE && listed.count == 20 && list[0] == 3 && list[19] == 22);
    EXPECT(mukthiban_tested_first_write(FAT, FIRSTS, DATA, LENGTH, 3, 510, text, sizeof text).answer == MUKTHIBAN_DONE);
    EXPECT(memcmp(data + 3 * LENGTH + 510, text, sizeof text) == 0);
    EXPECT(mukthiban_tested_first_read(FAT, FIRSTS, DATA, LENGTH, 3, 510, back, sizeof back).answer == MUKTHIBAN_DONE);
    EXPECT(memcmp(back, text, sizeof text) == 0);
}

int main(void)
{
    kept();
    refused();
    used();
    return failures == 0 ? 0 : 1;
}
