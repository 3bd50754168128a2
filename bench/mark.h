/* What the parts of the mark share: bytes of files, a table, and an index. */

#ifndef MARK_H
#define MARK_H

#include <stdint.h>
#include <stdio.h>

struct bytes {
    unsigned char *at;
    size_t length;
};

struct table {
    struct bytes file;
    uint32_t records;
    unsigned header, width;
};

/* The pairs of an index in order, as the numbers of their records: a key stands in its record, at an offset. */
struct index {
    const char *text;
    unsigned key, size, offset;
    uint32_t *numbers, count;
};

/* Where a field stands in a record, its width and its kind. */
struct field {
    unsigned offset, width;
    char kind;
};

/* Says why on standard error, and ends the program. */
void fail(const char *why);

/* Memory, or the end of the program. */
void *room(size_t bytes);

uint32_t u32(const unsigned char *at);
void put_u32(unsigned char *at, uint32_t number);

struct bytes read_file(const char *path);
FILE *new_file(const char *path);
void put(FILE *file, const void *bytes, size_t length);
void end_file(FILE *file);

/* The field of a name of some length. */
struct field field_of(const struct table *table, const char *name, size_t length);

/* The key of a record, in the record. */
unsigned char *record_key(const struct table *table, const struct index *index, uint32_t number);

/* The first eight bytes of a key from an offset on, as one number. */
uint64_t front_of(const unsigned char *key, unsigned from, unsigned length);

/* Performs the commands of a script on a table and its indexes, and writes the answers. */
void run_script(struct table *table, struct index *indexes, unsigned count, const char *script, const char *answers);

/* Writes the memo file anew, of a table whose last field is its one memo field, and the numbers of its blocks into the records. */
void rewrite_memos(struct table *table, const char *old, const char *new);

#endif
