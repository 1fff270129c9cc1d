/*
 * Two clinics on the shared stock log, over the C interface. Each has a log of its own and a directory of its own, which says what its
 * objects are; the directory goes first in every call on that log. Shown are directories with a fault, hosted and declared sets by
 * place, ids and keys at their edges, and what a call says of a log that is handed with another directory.
 * examples/run compiles it, runs it and compares what it prints with examples/clinics.expected.
 */
#include "stocklog.h"

#include <stdio.h>
#include <string.h>

enum { SLOTS = 8, CELLS = 16, RECORDS = 4 };

/* The east clinic: stock by shelf, the next order's number, and batches by a key of any size. Ids may be far apart. */
#define SHELVES UINT32_C(10)
#define NEXT_ORDER UINT32_C(20)
#define BATCHES UINT32_C(2147483647)
#define LAST_BATCH UINT32_C(4294967294)

/* The west clinic: chairs and machines. */
#define CHAIRS UINT32_C(1)
#define MACHINES UINT32_C(1000)

struct clinic {
    const char *name;
    uint8_t dir[RECORDS * STOCKLOG_RECORD_SIZE];
    size_t dir_len;
    uint8_t log[SLOTS * STOCKLOG_SLOT_SIZE];
    uint64_t tail;
};

/* ---- bytes, most significant first ---- */

static size_t number(uint8_t *bytes, size_t at, uint64_t value, int width)
{
    while (width-- > 0)
        bytes[at++] = (uint8_t)(value >> (8 * width));
    return at;
}

/* The record of one more object. */
static void lists(struct clinic *c, uint32_t id, uint32_t highest, int kind, int marked)
{
    size_t at = c->dir_len;
    at = number(c->dir, at, 0x4F42, 2);
    at = number(c->dir, at, 0, 2);
    at = number(c->dir, at, id, 4);
    at = number(c->dir, at, highest, 4);
    at = number(c->dir, at, (uint64_t)kind, 1);
    at = number(c->dir, at, (uint64_t)marked, 1);
    c->dir_len = number(c->dir, at, 0, 2);
}

static void shown(const char *what, uint32_t result, const uint64_t out[4])
{
    if (result == STOCKLOG_DONE)
        printf("%s: done\n", what);
    else if (result == STOCKLOG_DIRECTORY)
        printf("%s: refused 15, place %llu of the directory\n", what, (unsigned long long)out[3]);
    else if (result == STOCKLOG_BAD_ENTRY)
        printf("%s: refused 2 at %llu\n", what, (unsigned long long)out[3]);
    else
        printf("%s: refused %lu\n", what, (unsigned long)result);
}

/* ---- appends ---- */

static uint32_t put(struct clinic *c, uint32_t transaction, uint32_t object, uint32_t key, uint32_t value)
{
    uint8_t item[STOCKLOG_ITEM_SIZE];
    uint64_t out[4];
    uint32_t result;
    size_t at = number(item, 0, object, 4);
    at = number(item, at, key, 4);
    at = number(item, at, STOCKLOG_PUT, 4);
    at = number(item, at, value, 4);
    result = stocklog_append_update(c->dir, c->dir_len, c->log, sizeof c->log, c->tail, transaction, item, at, out);
    printf("%s: put (%lu, %lu) %lu: ", c->name, (unsigned long)object, (unsigned long)key, (unsigned long)value);
    if (result == STOCKLOG_DONE) {
        printf("offset %llu\n", (unsigned long long)c->tail);
        c->tail = out[0];
    } else {
        printf("refused %lu\n", (unsigned long)result);
    }
    return result;
}

static void commit(struct clinic *c, uint32_t transaction, uint32_t object, uint32_t key, uint64_t version)
{
    uint8_t item[STOCKLOG_ITEM_SIZE];
    uint64_t out[4];
    size_t at = number(item, 0, object, 4);
    at = number(item, at, key, 4);
    at = number(item, at, version, 8);
    if (stocklog_append_commit(c->dir, c->dir_len, c->log, sizeof c->log, c->tail, transaction, item, at, 0, 0, out) ==
        STOCKLOG_DONE) {
        printf("%s: transaction %lu commits: offset %llu\n", c->name, (unsigned long)transaction,
               (unsigned long long)c->tail);
        c->tail = out[0];
    }
}

/* ---- replicas ---- */

struct replica {
    uint64_t hosted, position, count;
    uint8_t table[CELLS * STOCKLOG_CELL_SIZE];
};

static void keep(struct replica *r, const uint64_t out[4])
{
    r->hosted = out[0];
    r->position = out[1];
    r->count = out[2];
}

/* Opens a replica of a set of places, and plays it to the tail. */
static void follow(const struct clinic *c, struct replica *r, uint64_t hosted)
{
    uint64_t out[4];
    uint32_t result = stocklog_open_fresh(c->dir, c->dir_len, hosted, out);
    printf("%s, hosted set %llu: ", c->name, (unsigned long long)hosted);
    if (result != STOCKLOG_DONE) {
        printf("refused %lu\n", (unsigned long)result);
        return;
    }
    keep(r, out);
    result = stocklog_play(c->dir, c->dir_len, c->log, sizeof c->log, c->tail, r->hosted, r->position, r->count,
                           r->table, sizeof r->table, c->tail, out);
    keep(r, out);
    printf("%s at %llu, cells %llu\n", result == STOCKLOG_DONE ? "played" : result == STOCKLOG_WAITING ? "waits" : "refused",
           (unsigned long long)r->position, (unsigned long long)r->count);
}

/* What is owed to a replica of a set of places; where something is, the decision is given, for the transaction went through. */
static void settle(struct clinic *c, uint64_t hosted)
{
    uint64_t out[4];
    uint32_t result = stocklog_owed(c->dir, c->dir_len, c->log, sizeof c->log, c->tail, &hosted, 1, out);
    printf("%s, to hosted set %llu: ", c->name, (unsigned long long)hosted);
    if (result != STOCKLOG_DONE) {
        printf("refused %lu\n", (unsigned long)result);
    } else if (out[0] == 0) {
        printf("nothing is owed\n");
    } else {
        printf("a decision is owed for %llu", (unsigned long long)out[1]);
        result = stocklog_append_decision(c->dir, c->dir_len, c->log, sizeof c->log, c->tail, out[1], STOCKLOG_COMMITTED, out);
        if (result == STOCKLOG_DONE) {
            printf(", and made at %llu\n", (unsigned long long)c->tail);
            c->tail = out[0];
        } else {
            printf(", refused %lu\n", (unsigned long)result);
        }
    }
}

static void show(const struct clinic *c, const struct replica *r, uint32_t object, uint32_t key)
{
    uint64_t out[4];
    uint32_t result = stocklog_read_cell(c->dir, c->dir_len, r->hosted, r->position, r->count, r->table, sizeof r->table,
                                         object, key, out);
    printf("%s shows (%lu, %lu): ", c->name, (unsigned long)object, (unsigned long)key);
    if (result != STOCKLOG_DONE)
        printf("refused %lu\n", (unsigned long)result);
    else if (out[0] == STOCKLOG_HOLDS)
        printf("%llu, version %llu\n", (unsigned long long)out[1], (unsigned long long)out[2]);
    else
        printf("%s\n", out[0] == STOCKLOG_REMOVED ? "removed" : "never written");
}

static void audit(const struct clinic *c)
{
    static uint8_t scratch[CELLS * STOCKLOG_CELL_SIZE];
    uint64_t out[4];
    uint32_t result =
        stocklog_audit(c->dir, c->dir_len, c->log, sizeof c->log, c->tail, scratch, sizeof scratch, out);
    if (result == STOCKLOG_DONE)
        printf("%s: the audit passes, hosted set %llu, cells %llu\n", c->name, (unsigned long long)out[0],
               (unsigned long long)out[2]);
    else
        shown(c->name, result, out);
}

/* Directories that break the rules, each with the place that is told. */
static void faults(const struct clinic *c)
{
    uint8_t wrong[RECORDS * STOCKLOG_RECORD_SIZE];
    uint64_t out[4];
    memcpy(wrong, c->dir, sizeof wrong);
    shown("no record at all", stocklog_open_fresh(NULL, 0, 1, out), out);
    shown("the last record cut", stocklog_open_fresh(wrong, c->dir_len - 1, 1, out), out);
    memcpy(wrong, c->dir + STOCKLOG_RECORD_SIZE, STOCKLOG_RECORD_SIZE);
    memcpy(wrong + STOCKLOG_RECORD_SIZE, c->dir, STOCKLOG_RECORD_SIZE);
    shown("two records changed about", stocklog_open_fresh(wrong, c->dir_len, 1, out), out);
    memcpy(wrong, c->dir, sizeof wrong);
    wrong[12] = 3;
    shown("a kind that is none", stocklog_check(wrong, c->dir_len, c->log, 1, c->tail, out), out);
}

int main(void)
{
    static struct clinic east = {"east", {0}, 0, {0}, 0}, west = {"west", {0}, 0, {0}, 0};
    static struct replica orders, batches, numbers, chairs;
    uint64_t out[4];

    lists(&east, SHELVES, 99, STOCKLOG_MAP, 0);
    lists(&east, NEXT_ORDER, 0, STOCKLOG_REGISTER, 1);
    lists(&east, BATCHES, LAST_BATCH, STOCKLOG_MAP, 0);
    lists(&west, CHAIRS, 11, STOCKLOG_MAP, 0);
    lists(&west, MACHINES, 0, STOCKLOG_MAP, 1);

    faults(&east);

    /* Counts in the east. The highest key of the highest id is a cell; the key after it is none, and neither is object 1. */
    put(&east, 0, SHELVES, 7, 40);
    put(&east, 0, BATCHES, LAST_BATCH, 5);
    put(&east, 0, BATCHES, UINT32_C(4294967295), 5);
    put(&east, 0, CHAIRS, 0, 1);

    /* An order in the east: it reads the shelf, and sets the number that a register holds. */
    put(&east, 1, NEXT_ORDER, 0, 301);
    commit(&east, 1, SHELVES, 7, 1);

    /* The west's objects are others, at other places. */
    put(&west, 0, CHAIRS, 11, 2);
    put(&west, 0, MACHINES, 0, 9);
    put(&west, 0, SHELVES, 7, 40);

    /* Bit k of a hosted set is the object at place k: 3 is shelves and next order, 4 is batches. The east has no place 3. */
    follow(&east, &orders, 3);
    show(&east, &orders, NEXT_ORDER, 0);
    show(&east, &orders, BATCHES, LAST_BATCH);
    follow(&east, &batches, 4);
    show(&east, &batches, BATCHES, LAST_BATCH);
    follow(&east, &batches, 8);

    /* Who hosts the order's number alone does not see the shelf that was read, and waits until the decision is there. */
    follow(&east, &numbers, 2);
    settle(&east, 1);
    settle(&east, 3);
    settle(&east, 8);
    settle(&east, 2);
    settle(&east, 2);
    follow(&east, &numbers, 2);
    show(&east, &numbers, NEXT_ORDER, 0);
    follow(&west, &chairs, 1);
    show(&west, &chairs, CHAIRS, 11);

    audit(&east);
    audit(&west);

    /* A log keeps one directory for life: with another it is not a good log. */
    shown("the east's log by the west's directory",
          stocklog_check(west.dir, west.dir_len, east.log, sizeof east.log, east.tail, out), out);
    return 0;
}
