/* The way in: test the block table once, open a file's block list once, and then read as often as one likes.
 *
 *     way_in FOLDER FIRST_BLOCK
 *
 * FOLDER holds a volume's fat.bin, data.bin and block_len; the bytes of the file that begins at FIRST_BLOCK go to
 * standard output, all of its blocks.
 */
#include <mukthiban.h>
#include <mukthiban_text.h>

#include <stdio.h>
#include <stdlib.h>
#include <string.h>

static void give_up(const char *about, const char *why)
{
    fprintf(stderr, "way_in: %s: %s\n", about, why);
    exit(1);
}

/* A call's number, if it is not Done, ends the program with its text. */
static void must(const char *call, uint32_t answer)
{
    if (answer != MUKTHIBAN_DONE)
        give_up(call, mukthiban_text(answer));
}

/* The whole of a file, with a zero behind it. */
static uint8_t *load(const char *folder, const char *name, size_t *len)
{
    char path[4096];
    FILE *file;
    uint8_t *bytes;
    long size;

    if ((size_t)snprintf(path, sizeof path, "%s/%s", folder, name) >= sizeof path)
        give_up(folder, "the path is too long");
    file = fopen(path, "rb");
    if (file == NULL || fseek(file, 0, SEEK_END) != 0 || (size = ftell(file)) < 0 || fseek(file, 0, SEEK_SET) != 0)
        give_up(path, "can't be read");
    *len = (size_t)size;
    bytes = malloc(*len + 1);
    if (bytes == NULL || fread(bytes, 1, *len, file) != *len)
        give_up(path, "can't be read");
    bytes[*len] = 0;
    fclose(file);
    return bytes;
}

int main(int argc, char **argv)
{
    size_t table_len, data_len, text_len, n, first, block_len, i;
    uint8_t *table, *data, *text, *buf;
    uint32_t *work, *list;
    mukthiban_opened opened;

    if (argc != 3)
        give_up("usage", "way_in FOLDER FIRST_BLOCK");
    table = load(argv[1], "fat.bin", &table_len);
    data = load(argv[1], "data.bin", &data_len);
    text = load(argv[1], "block_len", &text_len);
    block_len = strtoul((char *)text, NULL, 10);
    first = strtoul(argv[2], NULL, 10);
    n = table_len < 8 ? 0 : table_len / 8 - 1;
    if (n > MUKTHIBAN_MAX_BLOCKS)
        n = MUKTHIBAN_MAX_BLOCKS;
    work = calloc(n + 1, sizeof *work);
    list = calloc(n + 1, sizeof *list);
    if (work == NULL || list == NULL)
        give_up(argv[1], "there is too little memory");

    /* Once: this call tests the table, judges the sizes, and writes the file's blocks to the list. */
    opened = mukthiban_fat_open_list(table, table_len, data, data_len, block_len, work, n, first, list, n);
    must("open list", opened.answer);

    /* As often as one likes, from any byte on: a read by the list tests no table, and costs nothing of the file's length. */
    buf = malloc(block_len);
    if (buf == NULL)
        give_up(argv[1], "there is too little memory");
    for (i = 0; i < opened.count; i++) {
        must("read", mukthiban_fat_read_blocks(data, data_len, block_len, list, opened.count, i * block_len, buf, block_len).answer);
        fwrite(buf, 1, block_len, stdout);
    }
    free(buf);
    free(list);
    free(work);
    free(text);
    free(data);
    free(table);
    return fflush(stdout) == 0 ? 0 : 1;
}
