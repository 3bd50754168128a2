/* The commands of a script by hand: USE, GO, SKIP, SKIP -1, SEEK, APPEND BLANK and REPLACE of a text or a number that fits, of one
 * station, without locks and journal. The first index is the order. A move that comes to an end, and any other line, ends the
 * program: the scripts that it is measured by have none. */

#define _GNU_SOURCE
#include "mark.h"

#include <stdlib.h>
#include <string.h>

enum { ENTRIES = 64 };

/* Entries of an index in order: the front of the key, and the record's number. */
struct block {
    unsigned count;
    uint64_t fronts[ENTRIES];
    uint32_t numbers[ENTRIES];
};

/* An index that is changed: its blocks in order, and the front of the first entry of each. */
struct order {
    const struct table *table;
    struct index *index;
    struct block **blocks;
    uint64_t *firsts;
    uint32_t count, room;
};

/* An entry that is looked for. Of entries of one front the whole keys are compared, and of one key the numbers. */
struct entry {
    uint64_t front;
    const unsigned char *key;
    uint32_t number;
};

/* Where an entry stands, or would. */
struct place {
    uint32_t block;
    unsigned entry;
};

struct run {
    struct table *table;
    struct order *orders;
    unsigned count;
    size_t room;
    uint32_t at;
};

/* Whether an entry of a block stands before the one that is looked for. */
static int stands_before(const struct order *order, const struct block *block, unsigned at, const struct entry *entry)
{
    if (block->fronts[at] != entry->front)
        return block->fronts[at] < entry->front;
    int rest = memcmp(record_key(order->table, order->index, block->numbers[at]), entry->key, order->index->key);
    return rest < 0 || (rest == 0 && block->numbers[at] < entry->number);
}

/* Whether a block's first entry does. Most often its front says so, and the block is not looked at. */
static int begins_before(const struct order *order, uint32_t at, const struct entry *entry)
{
    if (order->firsts[at] != entry->front)
        return order->firsts[at] < entry->front;
    return stands_before(order, order->blocks[at], 0, entry);
}

static struct place place_of(const struct order *order, const struct entry *entry)
{
    uint32_t low = 0, high = order->count;
    while (high - low > 1) {
        uint32_t middle = low + (high - low) / 2;
        if (begins_before(order, middle, entry))
            low = middle;
        else
            high = middle;
    }
    const struct block *block = order->blocks[low];
    unsigned first = 0, end = block->count;
    while (first < end) {
        unsigned middle = (first + end) / 2;
        if (stands_before(order, block, middle, entry))
            first = middle + 1;
        else
            end = middle;
    }
    return (struct place){ low, first };
}

static struct entry entry_of(const struct order *order, uint32_t number)
{
    const unsigned char *key = record_key(order->table, order->index, number);
    return (struct entry){ front_of(key, 0, order->index->key), key, number };
}

/* Puts the upper half of a full block into one of its own, after it. */
static void split(struct order *order, uint32_t at)
{
    struct block *left = order->blocks[at], *right = room(sizeof *right);
    if (order->count == order->room) {
        order->room += order->room / 2 + 8;
        order->blocks = realloc(order->blocks, order->room * sizeof *order->blocks);
        order->firsts = realloc(order->firsts, order->room * sizeof *order->firsts);
        if (!order->blocks || !order->firsts)
            fail("no memory");
    }
    left->count = ENTRIES / 2;
    right->count = ENTRIES - ENTRIES / 2;
    memcpy(right->fronts, left->fronts + left->count, right->count * sizeof *right->fronts);
    memcpy(right->numbers, left->numbers + left->count, right->count * sizeof *right->numbers);
    memmove(order->blocks + at + 2, order->blocks + at + 1, (order->count - at - 1) * sizeof *order->blocks);
    memmove(order->firsts + at + 2, order->firsts + at + 1, (order->count - at - 1) * sizeof *order->firsts);
    order->blocks[at + 1] = right;
    order->firsts[at + 1] = right->fronts[0];
    order->count++;
}

static void insert(struct order *order, uint32_t number)
{
    struct entry entry = entry_of(order, number);
    struct place place = place_of(order, &entry);
    if (order->blocks[place.block]->count == ENTRIES) {
        split(order, place.block);
        place = place_of(order, &entry);
    }
    struct block *block = order->blocks[place.block];
    unsigned after = block->count - place.entry;
    memmove(block->fronts + place.entry + 1, block->fronts + place.entry, after * sizeof *block->fronts);
    memmove(block->numbers + place.entry + 1, block->numbers + place.entry, after * sizeof *block->numbers);
    block->fronts[place.entry] = entry.front;
    block->numbers[place.entry] = number;
    block->count++;
    order->firsts[place.block] = block->fronts[0];
}

/* Takes the entry of a record out. A block that is empty then goes, but for the last one. */
static void erase(struct order *order, uint32_t number)
{
    struct entry entry = entry_of(order, number);
    struct place place = place_of(order, &entry);
    if (place.entry == order->blocks[place.block]->count) {
        place.block++;
        place.entry = 0;
    }
    struct block *block = order->blocks[place.block];
    unsigned after = --block->count - place.entry;
    memmove(block->fronts + place.entry, block->fronts + place.entry + 1, after * sizeof *block->fronts);
    memmove(block->numbers + place.entry, block->numbers + place.entry + 1, after * sizeof *block->numbers);
    if (block->count || order->count == 1) {
        order->firsts[place.block] = block->fronts[0];
        return;
    }
    free(block);
    order->count--;
    memmove(order->blocks + place.block, order->blocks + place.block + 1, (order->count - place.block) * sizeof *order->blocks);
    memmove(order->firsts + place.block, order->firsts + place.block + 1, (order->count - place.block) * sizeof *order->firsts);
}

/* The record at a place, or at the first one after its block where that ends there. */
static uint32_t record_at(const struct order *order, struct place place)
{
    if (place.entry == order->blocks[place.block]->count) {
        place.block++;
        place.entry = 0;
    }
    if (place.block == order->count || !order->blocks[place.block]->count)
        fail("a move to the end");
    return order->blocks[place.block]->numbers[place.entry];
}

static uint32_t record_after(const struct order *order, uint32_t number)
{
    struct entry entry = entry_of(order, number);
    entry.number++;
    return record_at(order, place_of(order, &entry));
}

static uint32_t record_before(const struct order *order, uint32_t number)
{
    struct entry entry = entry_of(order, number);
    struct place place = place_of(order, &entry);
    if (place.entry == 0) {
        if (place.block == 0)
            fail("a move to the beginning");
        place.block--;
        place.entry = order->blocks[place.block]->count;
    }
    return order->blocks[place.block]->numbers[place.entry - 1];
}

static struct order make_order(const struct table *table, struct index *index)
{
    struct order order = { table, index, 0, 0, 0, index->count / (ENTRIES * 3 / 4) + 2 };
    order.blocks = room(order.room * sizeof *order.blocks);
    order.firsts = room(order.room * sizeof *order.firsts);
    for (uint32_t first = 0; first < index->count || first == 0; first += ENTRIES * 3 / 4) {
        struct block *block = room(sizeof *block);
        block->count = 0;
        block->fronts[0] = 0;
        while (block->count < ENTRIES * 3 / 4 && first + block->count < index->count) {
            uint32_t number = index->numbers[first + block->count];
            block->fronts[block->count] = entry_of(&order, number).front;
            block->numbers[block->count++] = number;
        }
        order.blocks[order.count] = block;
        order.firsts[order.count++] = block->fronts[0];
    }
    return order;
}

/* The index's pairs are those of the order. */
static void end_order(const struct order *order, uint32_t records)
{
    struct index *index = order->index;
    free(index->numbers);
    index->numbers = room((size_t)records * sizeof *index->numbers);
    index->count = 0;
    for (uint32_t at = 0; at < order->count; at++) {
        memcpy(index->numbers + index->count, order->blocks[at]->numbers, order->blocks[at]->count * sizeof *index->numbers);
        index->count += order->blocks[at]->count;
    }
}

static unsigned char *record(const struct run *run)
{
    if (run->at < 1 || run->at > run->table->records)
        fail("no record");
    return run->table->file.at + run->table->header + (size_t)(run->at - 1) * run->table->width;
}

static void append_blank(struct run *run)
{
    struct table *table = run->table;
    size_t end = table->header + (size_t)table->records * table->width;
    if (end + table->width > run->room) {
        run->room += run->room / 8 + table->width;
        table->file.at = realloc(table->file.at, run->room);
        if (!table->file.at)
            fail("no memory");
    }
    memset(table->file.at + end, ' ', table->width);
    run->at = ++table->records;
    for (unsigned i = 0; i < run->count; i++)
        insert(&run->orders[i], run->at);
}

/* The cell of a value: a text before blanks, a number after them. */
static void put_value(unsigned char *cell, const struct field *field, const char *value, size_t length)
{
    int quoted = *value == '"';
    value += quoted;
    length -= 2 * quoted;
    if (length > field->width)
        fail("a value that is too wide");
    memset(cell, ' ', field->width);
    memcpy(field->kind == 'C' ? cell : cell + field->width - length, value, length);
}

static void replace(struct run *run, const char *line, const char *end)
{
    const char *with = memmem(line, end - line, " WITH ", 6);
    if (!with)
        fail("a line that is none of these commands");
    struct field field = field_of(run->table, line, with - line);
    unsigned char *cell = record(run) + field.offset;
    for (unsigned i = 0; i < run->count; i++)
        if (run->orders[i].index->offset == field.offset)
            erase(&run->orders[i], run->at);
    put_value(cell, &field, with + 6, end - with - 6);
    for (unsigned i = 0; i < run->count; i++)
        if (run->orders[i].index->offset == field.offset)
            insert(&run->orders[i], run->at);
}

/* To the first record whose key begins with the text. */
static void seek(struct run *run, const char *text, size_t length)
{
    const struct order *order = run->orders;
    unsigned char key[256] = { 0 };
    if (!run->count || length > order->index->key)
        fail("no such key");
    memcpy(key, text, length);
    struct entry entry = { front_of(key, 0, order->index->key), key, 0 };
    run->at = record_at(order, place_of(order, &entry));
    if (memcmp(record_key(run->table, order->index, run->at), text, length))
        fail("no such key");
}

static int begins(const char *line, const char *end, const char *word)
{
    size_t length = strlen(word);
    return (size_t)(end - line) >= length && !memcmp(line, word, length);
}

static void perform(struct run *run, const char *line, const char *end)
{
    struct entry lowest = { 0, (const unsigned char[256]){ 0 }, 0 };
    if (begins(line, end, "REPLACE "))
        replace(run, line + 8, end);
    else if (begins(line, end, "SEEK \""))
        seek(run, line + 6, end - line - 7);
    else if (begins(line, end, "SKIP -1"))
        run->at = run->count ? record_before(run->orders, run->at) : run->at - 1;
    else if (begins(line, end, "SKIP"))
        run->at = run->count ? record_after(run->orders, run->at) : run->at + 1;
    else if (begins(line, end, "APPEND BLANK"))
        append_blank(run);
    else if (begins(line, end, "GO "))
        run->at = strtoul(line + 3, 0, 10);
    else if (begins(line, end, "USE "))
        run->at = run->count ? record_at(run->orders, place_of(run->orders, &lowest)) : 1;
    else
        fail("a line that is none of these commands");
}

void run_script(struct table *table, struct index *indexes, unsigned count, const char *script, const char *answers)
{
    struct bytes text = read_file(script);
    FILE *file = new_file(answers);
    struct run run = { table, room(count * sizeof *run.orders), count, table->file.length, 0 };
    for (unsigned i = 0; i < count; i++)
        run.orders[i] = make_order(table, &indexes[i]);
    const char *line = (const char *)text.at, *last = line + text.length;
    while (line < last) {
        const char *end = memchr(line, '\n', last - line);
        if (!end)
            fail("a line without its end");
        perform(&run, line, end);
        put(file, "OK\n", 3);
        line = end + 1;
    }
    end_file(file);
    for (unsigned i = 0; i < count; i++)
        end_order(&run.orders[i], table->records);
}
