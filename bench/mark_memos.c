/* The memo file of a table whose last field is its one memo field: the text of each cell is found in the old file, looked over, and
 * written anew in the records' order, from block 1 on, each with two end marks after it. */

#include "mark.h"

#include <string.h>

enum { BLOCK = 512, CELL = 10, MOST_TEXT = 65535, END = 0x1a, VERSION_AT = 16, VERSION = 3 };

/* The number in a cell; 0 where it is blank. */
static uint64_t block_number(const unsigned char *cell)
{
    uint64_t number = 0;
    unsigned at = 0;
    while (at < CELL && cell[at] == ' ')
        at++;
    for (; at < CELL && cell[at] >= '0' && cell[at] <= '9'; at++)
        number = number * 10 + cell[at] - '0';
    while (at < CELL && cell[at] == ' ')
        at++;
    if (at < CELL)
        fail("a memo field has no number");
    return number;
}

/* Writes a text and what fills its last block, and answers how many blocks these are. */
static uint32_t put_text(FILE *file, const unsigned char *text, size_t length)
{
    static const unsigned char rest[2 * BLOCK] = { END, END };
    size_t all = (length + 2 + BLOCK - 1) / BLOCK * BLOCK;
    put(file, text, length);
    put(file, rest, all - length);
    return all / BLOCK;
}

void rewrite_memos(struct table *table, const char *old, const char *new)
{
    struct bytes memos = read_file(old);
    unsigned char header[BLOCK] = { 0 };
    uint32_t next = 1;
    FILE *file = new_file(new);
    put(file, header, BLOCK);
    for (uint32_t number = 1; number <= table->records; number++) {
        unsigned char *cell = table->file.at + table->header + (size_t)number * table->width - CELL;
        uint64_t first = block_number(cell) * BLOCK;
        char digits[CELL + 1];
        if (!first)
            continue;
        if (first >= memos.length)
            fail("a memo outside its file");
        const unsigned char *text = memos.at + first, *end = memchr(text, END, memos.length - first);
        size_t length = end ? (size_t)(end - text) : memos.length - first;
        if (length > MOST_TEXT)
            fail("a memo is too long");
        snprintf(digits, sizeof digits, "%*u", CELL, next);
        memcpy(cell, digits, CELL);
        next += put_text(file, text, length);
    }
    put_u32(header, next);
    header[VERSION_AT] = VERSION;
    rewind(file);
    put(file, header, BLOCK);
    end_file(file);
}
