/* A text for each number that a call can answer. */
#ifndef MUKTHIBAN_TEXT_H
#define MUKTHIBAN_TEXT_H

#include "mukthiban_types.h"

/* What a number means, in one plain sentence; "not a number of mukthiban" for any other. */
static inline const char *mukthiban_text(uint32_t answer)
{
    switch (answer) {
    case MUKTHIBAN_DONE:
        return "done";
    case MUKTHIBAN_SIZE_MISMATCH:
        return "a table, the hash buckets or the data have a length that does not fit";
    case MUKTHIBAN_INVALID_VALUE:
        return "a size or a number is outside its bounds, no blocks were asked for, or a new name is not legal";
    case MUKTHIBAN_WORK_TOO_SHORT:
        return "the work list or the map has too few places";
    case MUKTHIBAN_BROKEN_FAT:
        return "the block table is not sound: its chains can't be trusted";
    case MUKTHIBAN_NOT_A_FILE:
        return "the block is not the first block of a file";
    case MUKTHIBAN_NO_SPACE:
        return "too few free blocks, or no free entry";
    case MUKTHIBAN_OUT_OF_BOUND:
        return "the position plus the length passes the end of the file";
    case MUKTHIBAN_LIST_TOO_SHORT:
        return "the list is too short for the whole answer";
    case MUKTHIBAN_BROKEN_TREE:
        return "the entry tables are not sound: directories and files can't be trusted";
    case MUKTHIBAN_NOT_FOUND:
        return "there is no live entry with that inode or name";
    case MUKTHIBAN_ALREADY_EXIST:
        return "another entry has that name already";
    case MUKTHIBAN_BUSY:
        return "a writer holds it already, or readers remain";
    case MUKTHIBAN_DELETING_ROOT:
        return "the root directory can't be deleted or renamed";
    case MUKTHIBAN_NOT_EMPTY:
        return "the directory is not empty";
    case MUKTHIBAN_INTO_ITSELF:
        return "a directory can't be moved into itself or below itself";
    case MUKTHIBAN_NOT_OPEN:
        return "the open that this needs is not held";
    case MUKTHIBAN_TOO_MANY_OPENS:
        return "it is opened 65,535 times already, or the list of open records is full";
    case MUKTHIBAN_READ_ONLY_VOLUME:
        return "blocks of this length are no longer in use: the volume can be read and not be changed";
    default:
        return "not a number of mukthiban";
    }
}

#endif
