/* A mark to measure by: reads a table and indexes on character fields, looks over both, and writes them anew, as the server
 * does where its scripts are empty. By hand, with no care for damaged files' names or want of memory.
 *
 *     mark [--reindex | --script SCRIPT ANSWERS | --memos OLD.DBT NEW.DBT] OLD.DBF NEW.DBF [OLD.NDX NEW.NDX]...
 *
 * What is checked: the headers, each page of an index read once and inside the file, each key the one of its record, each record
 * once, and the order of keys and record numbers. With --reindex only the headers of the indexes are read, and their pairs are
 * those of the table, sorted. With --script the commands of a script are performed before all is written (mark_script.c), and with
 * --memos the texts of a memo field are written anew (mark_memos.c). What is written has the date 1987-03-15, so it is the server's,
 * byte by byte.
 */

#include "mark.h"

#include <stdlib.h>
#include <string.h>

enum { PAGE = 512, FIELD = 32, MOST_LEVELS = 32, BUFFER = 65536, WITH_MEMOS = 0x83 };

void fail(const char *why)
{
    fprintf(stderr, "mark: %s\n", why);
    exit(2);
}

void *room(size_t bytes)
{
    void *at = malloc(bytes ? bytes : 1);
    if (!at)
        fail("no memory");
    return at;
}

static unsigned u16(const unsigned char *at)
{
    return at[0] | at[1] << 8;
}

uint32_t u32(const unsigned char *at)
{
    return at[0] | at[1] << 8 | at[2] << 16 | (uint32_t)at[3] << 24;
}

static void put_u16(unsigned char *at, unsigned number)
{
    at[0] = number & 255;
    at[1] = number >> 8;
}

void put_u32(unsigned char *at, uint32_t number)
{
    put_u16(at, number & 65535);
    put_u16(at + 2, number >> 16);
}

struct bytes read_file(const char *path)
{
    FILE *file = fopen(path, "rb");
    if (!file || fseek(file, 0, SEEK_END))
        fail("a file can't be read");
    struct bytes bytes = { 0, (size_t)ftell(file) };
    rewind(file);
    bytes.at = room(bytes.length);
    if (fread(bytes.at, 1, bytes.length, file) != bytes.length)
        fail("a file can't be read");
    fclose(file);
    return bytes;
}

FILE *new_file(const char *path)
{
    FILE *file = fopen(path, "wb");
    if (!file)
        fail("a file can't be written");
    setvbuf(file, 0, _IOFBF, BUFFER);
    return file;
}

void put(FILE *file, const void *bytes, size_t length)
{
    if (fwrite(bytes, 1, length, file) != length)
        fail("a file can't be written");
}

void end_file(FILE *file)
{
    if (fclose(file))
        fail("a file can't be written");
}

static struct table read_table(const char *path)
{
    struct table table = { read_file(path), 0, 0, 0 };
    unsigned char *at = table.file.at;
    if (table.file.length < 65 || (at[0] != 3 && at[0] != WITH_MEMOS))
        fail("no table");
    table.records = u32(at + 4);
    table.header = u16(at + 8);
    table.width = u16(at + 10);
    if (table.header < 65 || table.header + (uint64_t)table.records * table.width > table.file.length)
        fail("a table is cut");
    return table;
}

static void write_table(const struct table *table, const char *path)
{
    static const unsigned char date[3] = { 87, 3, 15 }, mark = 0x1a;
    FILE *file = new_file(path);
    memcpy(table->file.at + 1, date, 3);
    put_u32(table->file.at + 4, table->records);
    put(file, table->file.at, table->header + (size_t)table->records * table->width);
    put(file, &mark, 1);
    end_file(file);
}

struct field field_of(const struct table *table, const char *name, size_t length)
{
    struct field found = { 1, 0, 0 };
    for (unsigned at = FIELD; at + FIELD < table->header; at += FIELD) {
        const unsigned char *field = table->file.at + at;
        found.width = field[16];
        found.kind = field[11];
        if (length < 11 && !memcmp(field, name, length) && !field[length])
            return found;
        found.offset += found.width;
    }
    fail("no such field");
    return found;
}

unsigned char *record_key(const struct table *table, const struct index *index, uint32_t number)
{
    return table->file.at + table->header + (size_t)(number - 1) * table->width + index->offset;
}

/* What is known while an index's pages are walked. */
struct walk {
    const struct table *table;
    struct index *index;
    struct bytes file;
    unsigned char *seen_page, *seen_record;
};

static void take_leaf(struct walk *walk, const unsigned char *page, uint32_t keys)
{
    struct index *index = walk->index;
    for (uint32_t i = 0; i < keys; i++) {
        const unsigned char *pair = page + 4 + i * index->size;
        uint32_t number = u32(pair + 4);
        if (number < 1 || number > walk->table->records || walk->seen_record[number]++)
            fail("a record that is not there, or twice");
        if (memcmp(pair + 8, record_key(walk->table, index, number), index->key))
            fail("another key than the record's");
        index->numbers[index->count++] = number;
    }
}

/* Pages below a page, in order. A page whose first pointer is not 0 is an inner one. */
static void walk_page(struct walk *walk, uint32_t number, unsigned depth)
{
    struct index *index = walk->index;
    if (depth > MOST_LEVELS || number < 1 || (number + 1ull) * PAGE > walk->file.length || walk->seen_page[number]++)
        fail("a page outside, or twice");
    const unsigned char *page = walk->file.at + (size_t)number * PAGE;
    uint32_t keys = u32(page);
    if (keys > (PAGE - 8) / index->size)
        fail("too many keys of a page");
    if (u32(page + 4) == 0) {
        take_leaf(walk, page, keys);
        return;
    }
    for (uint32_t i = 0; i <= keys; i++)
        walk_page(walk, u32(page + 4 + i * index->size), depth + 1);
}

static void check_order(const struct table *table, const struct index *index)
{
    for (uint32_t i = 1; i < index->count; i++) {
        uint32_t left = index->numbers[i - 1], right = index->numbers[i];
        int order = memcmp(record_key(table, index, left), record_key(table, index, right), index->key);
        if (order > 0 || (order == 0 && left > right))
            fail("pairs out of order");
    }
}

/* What an index's header says, and room for its pairs. */
static struct index read_header(const struct table *table, const struct bytes *file)
{
    struct index index = { 0 };
    const unsigned char *header = file->at;
    if (file->length < PAGE || u16(header + 16) || header[23])
        fail("no index");
    index.text = strndup((const char *)header + 24, PAGE - 24);
    index.key = u16(header + 12);
    index.size = u16(header + 18);
    if (index.key < 1 || index.key > 100 || index.size < index.key + 8 || index.size > PAGE - 8)
        fail("no index");
    struct field field = field_of(table, index.text, strlen(index.text));
    if (field.kind != 'C' || field.width != index.key)
        fail("an index on another field");
    index.offset = field.offset;
    index.numbers = room((size_t)table->records * 4);
    return index;
}

static struct index read_index(const struct table *table, const char *path)
{
    struct bytes file = read_file(path);
    struct index index = read_header(table, &file);
    struct walk walk = { table, &index, file, 0, 0 };
    const unsigned char *header = file.at;
    walk.seen_page = calloc(walk.file.length / PAGE + 1, 1);
    walk.seen_record = calloc((size_t)table->records + 1, 1);
    if (!walk.seen_page || !walk.seen_record)
        fail("no memory");
    walk_page(&walk, u32(header), 0);
    if (index.count != table->records)
        fail("a record without a key");
    check_order(table, &index);
    free(walk.seen_page);
    free(walk.seen_record);
    free(walk.file.at);
    return index;
}

/* A record that is sorted by its key: eight bytes of the key as one number, those after what all keys have in common. */
struct entry {
    uint64_t front;
    uint32_t number;
};

/* The index whose equal fronts are compared, for qsort. */
static const struct table *sorted_table;
static const struct index *sorted_index;

static int by_key(const void *left, const void *right)
{
    const struct entry *a = left, *b = right;
    const unsigned char *key = record_key(sorted_table, sorted_index, a->number);
    int order = memcmp(key, record_key(sorted_table, sorted_index, b->number), sorted_index->key);
    return order ? order : a->number < b->number ? -1 : 1;
}

/* How many bytes all keys begin with alike. */
static unsigned common_front(const struct table *table, const struct index *index)
{
    unsigned common = index->key;
    for (uint32_t number = 2; number <= table->records && common; number++) {
        const unsigned char *first = record_key(table, index, 1), *key = record_key(table, index, number);
        unsigned alike = 0;
        while (alike < common && first[alike] == key[alike])
            alike++;
        common = alike;
    }
    return common;
}

uint64_t front_of(const unsigned char *key, unsigned from, unsigned length)
{
    uint64_t front = 0;
    for (unsigned i = 0; i < 8; i++)
        front = front << 8 | (from + i < length ? key[from + i] : 0);
    return front;
}

/* Sorts by the fronts, byte by byte from the last one on, where `differing` has a bit of the byte. Answers which of the two lists has the
 * entries then. */
static struct entry *sort_by_fronts(struct entry *entries, struct entry *others, uint32_t count, uint64_t differing)
{
    for (unsigned shift = 0; shift < 64; shift += 8) {
        uint32_t place[257] = { 0 };
        if (!(differing >> shift & 255))
            continue;
        for (uint32_t i = 0; i < count; i++)
            place[(entries[i].front >> shift & 255) + 1]++;
        for (unsigned byte = 1; byte < 257; byte++)
            place[byte] += place[byte - 1];
        for (uint32_t i = 0; i < count; i++)
            others[place[entries[i].front >> shift & 255]++] = entries[i];
        struct entry *sorted = others;
        others = entries;
        entries = sorted;
    }
    return entries;
}

/* Sorts the runs of one front by the whole keys. */
static void sort_runs(struct entry *entries, uint32_t count)
{
    for (uint32_t first = 0, end; first < count; first = end) {
        for (end = first + 1; end < count && entries[end].front == entries[first].front;)
            end++;
        if (end - first > 1)
            qsort(entries + first, end - first, sizeof *entries, by_key);
    }
}

/* An index whose pairs are those of the table. */
static struct index make_index(const struct table *table, const char *path)
{
    struct bytes file = read_file(path);
    struct index index = read_header(table, &file);
    uint32_t count = table->records;
    unsigned common = common_front(table, &index);
    struct entry *entries = room(count * sizeof *entries), *others = room(count * sizeof *others);
    uint64_t differing = 0;
    for (uint32_t i = 0; i < count; i++) {
        entries[i].front = front_of(record_key(table, &index, i + 1), common, index.key);
        entries[i].number = i + 1;
        differing |= entries[i].front ^ entries[0].front;
    }
    struct entry *sorted = sort_by_fronts(entries, others, count, differing);
    sorted_table = table;
    sorted_index = &index;
    if (common + 8 < index.key)
        sort_runs(sorted, count);
    for (uint32_t i = 0; i < count; i++)
        index.numbers[i] = sorted[i].number;
    index.count = count;
    free(entries);
    free(others);
    free(file.at);
    return index;
}

static void put_pair(unsigned char *at, const struct table *table, const struct index *index, uint32_t child, uint32_t number, uint32_t of)
{
    put_u32(at, child);
    put_u32(at + 4, number);
    memcpy(at + 8, record_key(table, index, of), index->key);
}

/* Writes the pages above `count` ones from page `first` on; `last` has the last record under each, and then of each new page. */
static uint32_t write_level(FILE *file, const struct table *table, const struct index *index, uint32_t first, uint32_t *last, uint32_t count)
{
    unsigned size = 4 * ((index->key + 11) / 4), most = (PAGE - 8) / size;
    uint32_t pages = 0;
    for (uint32_t at = 0; at < count;) {
        unsigned char page[PAGE] = { 0 };
        uint32_t left = count - at, children = left == most + 2 ? most : left < most + 1 ? left : most + 1;
        put_u32(page, children - 1);
        for (uint32_t i = 0; i + 1 < children; i++)
            put_pair(page + 4 + i * size, table, index, first + at + i, 0, last[at + i]);
        put_u32(page + 4 + (children - 1) * size, first + at + children - 1);
        put(file, page, PAGE);
        at += children;
        last[pages++] = last[at - 1];
    }
    return pages;
}

static uint32_t write_leaves(FILE *file, const struct table *table, const struct index *index, uint32_t *last)
{
    unsigned size = 4 * ((index->key + 11) / 4), most = (PAGE - 8) / size;
    uint32_t pages = 0, at = 0;
    do {
        unsigned char page[PAGE] = { 0 };
        uint32_t count = index->count - at < most ? index->count - at : most;
        put_u32(page, count);
        for (uint32_t i = 0; i < count; i++)
            put_pair(page + 4 + i * size, table, index, 0, index->numbers[at + i], index->numbers[at + i]);
        put(file, page, PAGE);
        at += count;
        last[pages++] = count ? index->numbers[at - 1] : 0;
    } while (at < index->count);
    return pages;
}

static void write_index(const struct table *table, const struct index *index, const char *path)
{
    unsigned size = 4 * ((index->key + 11) / 4);
    unsigned char header[PAGE] = { 0 };
    FILE *file = new_file(path);
    uint32_t *last = room(((size_t)index->count + 1) * 4);
    put(file, header, PAGE);
    uint32_t first = 1, count = write_leaves(file, table, index, last);
    while (count > 1) {
        uint32_t above = write_level(file, table, index, first, last, count);
        first += count;
        count = above;
    }
    put_u32(header, first);
    put_u32(header + 4, first + 1);
    put_u16(header + 12, index->key);
    put_u16(header + 14, (PAGE - 8) / size);
    put_u16(header + 18, size);
    memcpy(header + 24, index->text, strlen(index->text));
    rewind(file);
    put(file, header, PAGE);
    end_file(file);
    free(last);
}

int main(int words, char **word)
{
    int makes = words > 1 && !strcmp(word[1], "--reindex"), runs = words > 3 && !strcmp(word[1], "--script");
    int reads_memos = words > 3 && !strcmp(word[1], "--memos");
    char **path = word + 1 + makes + 3 * (runs || reads_memos);
    int paths = words - (int)(path - word);
    if (paths < 2 || paths % 2)
        fail("usage: mark [--reindex | --script SCRIPT ANSWERS | --memos OLD.DBT NEW.DBT] OLD.DBF NEW.DBF [OLD.NDX NEW.NDX]...");
    struct table table = read_table(path[0]);
    unsigned count = paths / 2 - 1;
    struct index *indexes = room(count * sizeof *indexes);
    for (unsigned i = 0; i < count; i++)
        indexes[i] = makes ? make_index(&table, path[2 + 2 * i]) : read_index(&table, path[2 + 2 * i]);
    if (runs)
        run_script(&table, indexes, count, word[2], word[3]);
    if (reads_memos)
        rewrite_memos(&table, word[2], word[3]);
    write_table(&table, path[1]);
    for (unsigned i = 0; i < count; i++)
        write_index(&table, &indexes[i], path[3 + 2 * i]);
    return 0;
}
