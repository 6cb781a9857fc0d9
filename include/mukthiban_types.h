/* What the calls of Mukthiban are about: version, limits, the numbers that a
 * call can answer, and the answers. mukthiban.h has the calls. */
#ifndef MUKTHIBAN_TYPES_H
#define MUKTHIBAN_TYPES_H

#include <stddef.h>
#include <stdint.h>

#define MUKTHIBAN_VERSION_MAJOR 0
#define MUKTHIBAN_VERSION_MINOR 2
#define MUKTHIBAN_VERSION_PATCH 0
#define MUKTHIBAN_VERSION "0.2.0"
#define MUKTHIBAN_VERSION_NUMBER \
    (MUKTHIBAN_VERSION_MAJOR * 65536 + MUKTHIBAN_VERSION_MINOR * 256 + MUKTHIBAN_VERSION_PATCH)

/* Widths and limits. */
#define MUKTHIBAN_ROOT 1u               /* the root directory's inode */
#define MUKTHIBAN_NAME_LENGTH 16        /* bytes of a name */
#define MUKTHIBAN_DIR_WIDTH 40          /* bytes of a directory entry */
#define MUKTHIBAN_FILE_WIDTH 48         /* bytes of a file entry */
#define MUKTHIBAN_DIR_CARRIED 4         /* carried bytes of a directory */
#define MUKTHIBAN_FILE_CARRIED 20       /* carried bytes of a file */
#define MUKTHIBAN_MAX_BLOCKS 1000000    /* blocks of a block table */
#define MUKTHIBAN_MAX_BLOCK_LENGTH 65536 /* bytes in a block */
#define MUKTHIBAN_MAX_BUCKETS 65536     /* hash buckets of a table */
#define MUKTHIBAN_MAX_ENTRIES 65536     /* entries of an entry table, entry 0 included */
#define MUKTHIBAN_MAX_OPENS 65535u      /* opens of one inode, readers and writer together */
#define MUKTHIBAN_HELD 0x80000000u      /* the top bit of an open record: a writer holds the inode */

/* The numbers that a call can answer; mukthiban_text.h has a text for each. */
enum {
    MUKTHIBAN_DONE = 0,
    MUKTHIBAN_SIZE_MISMATCH = 1,  /* a length that fits no table, or does not fit the others */
    MUKTHIBAN_INVALID_VALUE = 2,  /* a size, a number or a kind outside its bounds; open records that are not in order;
                                   * 0 blocks asked for; a new name that is not legal; a plan that is not accepted */
    MUKTHIBAN_WORK_TOO_SHORT = 3, /* the work list has too few places, or a map too few bits */
    MUKTHIBAN_BROKEN_FAT = 4,     /* the block table is not sound, or a free map is not the table's */
    MUKTHIBAN_NOT_A_FILE = 5,     /* the block is no file's first block */
    MUKTHIBAN_NO_SPACE = 6,       /* too few free blocks (for the kiosk's create in one node, for a plan in a row), or
                                   * no free entry */
    MUKTHIBAN_OUT_OF_BOUND = 7,   /* position plus length passes the file's end */
    MUKTHIBAN_LIST_TOO_SHORT = 8, /* the lent list can't hold the whole answer */
    MUKTHIBAN_BROKEN_TREE = 9,    /* the entry tables are not sound */
    MUKTHIBAN_NOT_FOUND = 10,     /* no live entry with that inode or key */
    MUKTHIBAN_ALREADY_EXIST = 11, /* another live entry of that table has the key */
    MUKTHIBAN_BUSY = 12,          /* a second writer, or delete while readers remain */
    MUKTHIBAN_DELETING_ROOT = 13, /* delete or rename of directory 1 */
    MUKTHIBAN_NOT_EMPTY = 14,     /* delete of a directory with children */
    MUKTHIBAN_INTO_ITSELF = 15,   /* a directory moved to itself or below itself */
    MUKTHIBAN_NOT_OPEN = 16,      /* close of what is not held; delete or rename without the writer */
    MUKTHIBAN_TOO_MANY_OPENS = 17, /* open at 65,535 opens or more; open or make where the list of open records is full */
    MUKTHIBAN_READ_ONLY_VOLUME = 20 /* a change with a block length other than 512 and 4,096 */
};

/* The kinds of mukthiban_tree_name. */
enum { MUKTHIBAN_DIRECTORY = 0, MUKTHIBAN_FILE = 1 };

/* The kinds of an open: many readers, and one writer. */
enum { MUKTHIBAN_READER = 0, MUKTHIBAN_WRITER = 1 };

/* The rules that a broken block table breaks, in the order in which they are
 * looked for, and the entry that is blamed (entry 0 is the head, entry b + 1
 * belongs to block b). The nodes are walked from block 0 on, and the first that
 * can't be read is answered, by the first of 1 to 5; then 6; then 7. */
enum {
    MUKTHIBAN_START_FLAGS = 1,    /* a node's first entry: flag and index of its previous, or neither */
    MUKTHIBAN_NO_SECOND = 2,      /* its first entry: it says several blocks, and there is one */
    MUKTHIBAN_SECOND_FORM = 3,    /* its second entry has not its form */
    MUKTHIBAN_END_OVER = 4,       /* its second entry: the end is past the table's */
    MUKTHIBAN_END_DIFFERS = 5,    /* its last entry does not hold what the second holds */
    MUKTHIBAN_HEAD = 6,           /* entry 0: its form, or it names what is no chain's first node */
    MUKTHIBAN_LINKS = 7           /* the first entry of the lowest node that a link of it does not name back, or in a ring */
};

/* What is told of a chain beside others, by mukthiban_salvage_shared. */
enum {
    MUKTHIBAN_CHAIN_WHOLE = 0,    /* whole, and no other whole chain of the list has a block of it */
    MUKTHIBAN_CHAIN_CUT = 1,      /* not whole */
    MUKTHIBAN_CHAIN_SHARED = 2,   /* whole, but another has a block of it too, or it is named twice */
    MUKTHIBAN_CHAIN_UNJUDGED = 3  /* not followed: those before it in the list have over 4n blocks together */
};

/* Answers: the number first, then the call's own fields; those of the block
 * calls that judge a table end with entry and rule, which are 0 unless the number
 * is MUKTHIBAN_BROKEN_FAT and then say where it is broken. Those of block calls and
 * those of tree calls are separate types. */

/* Format, read and write by a list, mukthiban_salvage_shared, and every tree call that gives nothing else. */
typedef struct {
    uint32_t answer;
} mukthiban_plain;

/* A block call that gives nothing else. */
typedef struct {
    uint32_t answer;
    size_t entry;
    uint32_t rule;
} mukthiban_answered;

/* The test of the block table: its free blocks, and its files (chains other than the free one). */
typedef struct {
    uint32_t answer;
    size_t free;
    size_t files;
    size_t entry;
    uint32_t rule;
} mukthiban_tested;

/* Create and the kiosk's create: the new file's first block. An applied plan: the file's first block from then on. */
typedef struct {
    uint32_t answer;
    size_t first_block;
    size_t entry;
    uint32_t rule;
} mukthiban_created;

/* Open list: how many places of the lent list hold the file's blocks. */
typedef struct {
    uint32_t answer;
    size_t count;
    size_t entry;
    uint32_t rule;
} mukthiban_opened;

/* Audit: how many findings there are; the lent list holds two places for each. */
typedef struct {
    uint32_t answer;
    size_t count;
    size_t entry;
    uint32_t rule;
} mukthiban_audited;

/* Find of a plan: how many moves it has; the lent list holds two places for each. */
typedef struct {
    uint32_t answer;
    size_t count;
    size_t entry;
    uint32_t rule;
} mukthiban_planned;

/* The kiosk's test: 0 in the profile, else the first of its rules 1 to 6 that is broken. */
typedef struct {
    uint32_t answer;
    uint32_t broken;
    size_t entry;
    uint32_t rule;
} mukthiban_profiled;

/* Stretch query: how many bits of the stretch are set. It judges no block table, so it has no entry and no rule. */
typedef struct {
    uint32_t answer;
    size_t free;
} mukthiban_counted;

/* A chain of a table of any bytes: how many places of the lent list hold its blocks, and why there are no more. Rule 0
 * and entry 0: the chain is whole. Rules 1 to 5 and the entry: where the next node can't be read. Rule 7: the entry's
 * node names a next that is no block, does not name it back, or has a block that came before. Rule 8: the first node,
 * whose entry it is, has a previous. */
typedef struct {
    uint32_t answer;
    size_t count;
    size_t entry;
    uint32_t rule;
} mukthiban_salvaged;

/* Listing: how many places of the lent list hold the directory's children. Salvage but of one chain: how many hold blocks or
 * inodes. */
typedef struct {
    uint32_t answer;
    size_t count;
} mukthiban_listed;

/* Make: the new entry's inode. */
typedef struct {
    uint32_t answer;
    uint32_t inode;
} mukthiban_made;

/* Lookup: the entry's inode, and how many entries of its bucket were compared:
 * the match's place from 1, or the bucket's length with MUKTHIBAN_NOT_FOUND. */
typedef struct {
    uint32_t answer;
    uint32_t inode;
    uint32_t compared;
} mukthiban_found;

/* Stat: entries in all and entries still free, of directories and of files. */
typedef struct {
    uint32_t answer;
    size_t dir_total;
    size_t dir_free;
    size_t file_total;
    size_t file_free;
} mukthiban_stat;

/* Aged: a table (1 directories, 2 files) and an inode of it whose links no honest writer can have left; 0 and 0 where the
 * lists tell of none. */
typedef struct {
    uint32_t answer;
    uint32_t table;
    uint32_t inode;
} mukthiban_aged;

/* Name: where the 16 bytes begin in the table that the kind selects. */
typedef struct {
    uint32_t answer;
    size_t offset;
} mukthiban_named;

#endif
