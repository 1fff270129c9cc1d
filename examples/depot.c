/*
 * A depot's day on the shared stock log, over the C interface: plain updates, two transactions that read the same cell, replicas of a
 * van and of a planner that wait for decision records and go on when all that is owed to them is paid, a checkpoint, a client that sends
 * an offset for a version, and the audit.
 * examples/run compiles it, runs it and compares what it prints with examples/depot.expected.
 */
#include "stocklog.h"

#include <stdio.h>
#include <string.h>

enum { SLOTS = 16, CELLS = 32, NORTH = 2, VAN = 4, ORDERS = 5, PRICES = 7, FILTER = 7 };

/* The directory of the eight objects, which goes first in every call. Its places are the ids less 1. */
#define DEPOTS stocklog_eight, sizeof stocklog_eight
enum { ALL = 0xff, VAN_ALONE = 1 << (VAN - 1), ORDERS_ALONE = 1 << (ORDERS - 1) };

/* What the replicas beside the depot's own host: the van its stock, the planner the orders. Decisions are owed to these sets. */
static const uint64_t declared[] = {VAN_ALONE, ORDERS_ALONE};
enum { DECLARED = sizeof declared / sizeof declared[0] };

static uint8_t log_bytes[SLOTS * STOCKLOG_SLOT_SIZE];
static uint64_t tail = 0;

/* ---- items: 16 bytes each, most significant byte first ---- */

struct items {
    uint8_t bytes[STOCKLOG_MOST_ITEMS * STOCKLOG_ITEM_SIZE];
    size_t len;
};

static void number(struct items *items, uint64_t value, int bytes)
{
    while (bytes-- > 0)
        items->bytes[items->len++] = (uint8_t)(value >> (8 * bytes));
}

static void put(struct items *items, uint32_t object, uint32_t key, uint32_t value)
{
    number(items, object, 4);
    number(items, key, 4);
    number(items, STOCKLOG_PUT, 4);
    number(items, value, 4);
}

static void seen(struct items *items, uint32_t object, uint32_t key, uint64_t version)
{
    number(items, object, 4);
    number(items, key, 4);
    number(items, version, 8);
}

/* ---- appends: each goes on from the tail that the last one answered ---- */

static void appended(const char *what, uint32_t result, const uint64_t out[4])
{
    if (result == STOCKLOG_DONE) {
        printf("%s: offset %llu\n", what, (unsigned long long)tail);
        tail = out[0];
    } else if (result == STOCKLOG_ASTRAY) {
        printf("%s: refused %lu, read %llu\n", what, (unsigned long)result, (unsigned long long)out[3]);
    } else {
        printf("%s: refused %lu\n", what, (unsigned long)result);
    }
}

static void update(const char *what, uint32_t transaction, const struct items *items)
{
    uint64_t out[4];
    uint32_t result = stocklog_append_update(DEPOTS, log_bytes, sizeof log_bytes, tail, transaction,
                                             items->bytes, items->len, out);
    appended(what, result, out);
}

static void commit(const char *what, uint32_t transaction, const struct items *reads)
{
    uint64_t out[4];
    uint32_t result = stocklog_append_commit(DEPOTS, log_bytes, sizeof log_bytes, tail, transaction,
                                             reads->bytes, reads->len, 0, 0, out);
    appended(what, result, out);
}

/* ---- replicas: the record is three numbers that the caller keeps, the table is the caller's memory ---- */

struct replica {
    uint64_t hosted, position, count;
    uint8_t table[CELLS * STOCKLOG_CELL_SIZE];
};

static void keep(struct replica *r, const uint64_t out[4])
{
    r->hosted = out[0];
    r->position = out[1];
    r->count = out[2];
}

static void open_fresh(struct replica *r, uint64_t hosted)
{
    uint64_t out[4];
    if (stocklog_open_fresh(DEPOTS, hosted, out) == STOCKLOG_DONE)
        keep(r, out);
}

/* Plays to the tail. Whatever the answer, out has the record to go on with. */
static void play(const char *whose, struct replica *r)
{
    uint64_t out[4];
    uint32_t result = stocklog_play(DEPOTS, log_bytes, sizeof log_bytes, tail, r->hosted, r->position, r->count,
                                    r->table, sizeof r->table, tail, out);
    const char *said = result == STOCKLOG_DONE ? "done" : result == STOCKLOG_WAITING ? "waits" : "refused";
    keep(r, out);
    printf("%s plays: %s at %llu, cells %llu\n", whose, said, (unsigned long long)r->position, (unsigned long long)r->count);
}

static void show(const char *whose, const struct replica *r, uint32_t object, uint32_t key)
{
    uint64_t out[4];
    uint32_t result =
        stocklog_read_cell(DEPOTS, r->hosted, r->position, r->count, r->table, sizeof r->table, object, key, out);
    printf("%s shows (%lu, %lu): ", whose, (unsigned long)object, (unsigned long)key);
    if (result != STOCKLOG_DONE)
        printf("refused %lu\n", (unsigned long)result);
    else if (out[0] == STOCKLOG_NEVER_WRITTEN)
        printf("never written\n");
    else if (out[0] == STOCKLOG_REMOVED)
        printf("removed, version %llu\n", (unsigned long long)out[2]);
    else
        printf("%llu, version %llu\n", (unsigned long long)out[1], (unsigned long long)out[2]);
}

/* Whether a commit record owes a decision to one of the sets, and the offset of the lowest that does. */
static int owed(const uint64_t *sets, size_t count, uint64_t *offset)
{
    uint64_t out[4];
    uint32_t result = stocklog_owed(DEPOTS, log_bytes, sizeof log_bytes, tail, sets, count, out);
    printf("sets declared: %lu, ", (unsigned long)count);
    if (result != STOCKLOG_DONE)
        printf("refused %lu\n", (unsigned long)result);
    else if (out[0] == 0)
        printf("no decision is owed\n");
    else
        printf("a decision is owed for the commit record at %llu\n", (unsigned long long)out[1]);
    *offset = out[1];
    return result == STOCKLOG_DONE && out[0] == 1;
}

/* The outcome of a commit record whose transaction writes the north depot's filters: a replica of all objects that has just played it
   shows its version there, or an older one. */
static uint32_t outcome(uint64_t commit_record)
{
    static struct replica all;
    uint64_t out[4];
    open_fresh(&all, ALL);
    stocklog_play(DEPOTS, log_bytes, sizeof log_bytes, tail, all.hosted, all.position, all.count, all.table, sizeof all.table,
                  commit_record + 1, out);
    keep(&all, out);
    stocklog_read_cell(DEPOTS, all.hosted, all.position, all.count, all.table, sizeof all.table, NORTH, FILTER, out);
    return out[2] == commit_record + 1 ? STOCKLOG_COMMITTED : STOCKLOG_ABORTED;
}

/* Pays all that is owed to the declared sets, the lowest first. */
static void pay(void)
{
    uint64_t commit_record, out[4];
    while (owed(declared, DECLARED, &commit_record)) {
        uint32_t said = outcome(commit_record);
        uint32_t result = stocklog_append_decision(DEPOTS, log_bytes, sizeof log_bytes, tail, commit_record, said, out);
        appended(said == STOCKLOG_COMMITTED ? "the depot decides: committed" : "the depot decides: aborted", result, out);
        if (result != STOCKLOG_DONE)
            return;
    }
}

static void audit(const char *what, const uint8_t *log, uint64_t upto)
{
    static uint8_t scratch[CELLS * STOCKLOG_CELL_SIZE];
    uint64_t out[4];
    uint32_t result = stocklog_audit(DEPOTS, log, SLOTS * STOCKLOG_SLOT_SIZE, upto, scratch, sizeof scratch, out);
    if (result == STOCKLOG_DONE)
        printf("%s: passes, cells %llu, at %llu\n", what, (unsigned long long)out[2], (unsigned long long)out[1]);
    else
        printf("%s: refused %lu at %llu\n", what, (unsigned long)result, (unsigned long long)out[3]);
}

static void entry(uint64_t offset)
{
    static const char *const kinds[] = {"none", "update", "commit", "decision", "checkpoint"};
    uint64_t info[8], out[4];
    uint32_t place;
    if (stocklog_entry(DEPOTS, log_bytes, sizeof log_bytes, tail, offset, info) != STOCKLOG_DONE)
        return;
    printf("entry %llu: %s, number %llu, %llu items", (unsigned long long)offset, kinds[info[0]],
           (unsigned long long)info[1], (unsigned long long)info[4]);
    for (place = 0; place < info[2]; place++)
        if (stocklog_header(DEPOTS, log_bytes, sizeof log_bytes, tail, offset, place, out) == STOCKLOG_DONE)
            printf(", object %llu back %llu", (unsigned long long)out[0], (unsigned long long)(out[2] >> 48));
    stocklog_items(DEPOTS, log_bytes, sizeof log_bytes, tail, offset, out);
    printf(", items at byte %llu\n", (unsigned long long)out[0]);
}

static void stream(uint32_t object)
{
    uint64_t out[4];
    uint64_t reader = 0;
    uint32_t list[SLOTS];
    printf("entries of object %lu:", (unsigned long)object);
    while (stocklog_stream_next(DEPOTS, log_bytes, sizeof log_bytes, tail, object, reader, out) == STOCKLOG_DONE && out[0] == 1) {
        printf(" %llu", (unsigned long long)out[1]);
        reader = out[2];
    }
    if (stocklog_stream_list(DEPOTS, log_bytes, sizeof log_bytes, tail, object, list, SLOTS, out) == STOCKLOG_DONE)
        printf(", %llu by the list\n", (unsigned long long)out[0]);
}

/* The log with one decision more, which is not true. */
static void liar(uint64_t commit_record)
{
    static uint8_t copy[sizeof log_bytes];
    uint64_t out[4];
    memcpy(copy, log_bytes, sizeof copy);
    if (stocklog_append_decision(DEPOTS, copy, sizeof copy, tail, commit_record, STOCKLOG_ABORTED, out) == STOCKLOG_DONE)
        audit("with a false decision, the audit", copy, out[0]);
}

int main(void)
{
    static struct replica depot, van, planner, second;
    struct items morning = {{0}, 0}, moves = {{0}, 0}, orders = {{0}, 0}, read9 = {{0}, 0}, read10 = {{0}, 0};
    struct items returns = {{0}, 0}, wrong = {{0}, 0}, right = {{0}, 0};
    uint64_t out[4], first_commit, last_commit, checkpoint, offset;

    /* The morning's counts: 43 filters in the north depot, 6 in the van; price list 12. */
    put(&morning, NORTH, FILTER, 43);
    put(&morning, VAN, FILTER, 6);
    put(&morning, PRICES, 0, 12);
    update("counts", 0, &morning);

    /* Transaction 9 moves a filter to the van; transaction 10 takes three for an order. Both saw the 43, at version 1. */
    put(&moves, NORTH, FILTER, 42);
    put(&moves, VAN, FILTER, 7);
    update("transaction 9 sets aside", 9, &moves);
    put(&orders, NORTH, FILTER, 40);
    put(&orders, ORDERS, FILTER, 3);
    update("transaction 10 sets aside", 10, &orders);
    seen(&read9, NORTH, FILTER, 1);
    seen(&read9, VAN, FILTER, 1);
    first_commit = tail;
    commit("transaction 9 commits", 9, &read9);
    seen(&read10, NORTH, FILTER, 1);
    commit("transaction 10 commits", 10, &read10);
    update("transaction 9 once more", 9, &moves);

    /* The depot hosts all eight objects and decides by its own cells: 9 went through, so 10 read a stale count. */
    open_fresh(&depot, ALL);
    play("the depot", &depot);
    show("the depot", &depot, NORTH, FILTER);
    show("the depot", &depot, ORDERS, FILTER);

    /* The van hosts its own stock alone. It cannot judge transaction 9, which read the north depot's cell too: it waits. */
    open_fresh(&van, VAN_ALONE);
    play("the van", &van);
    show("the van", &van, VAN, FILTER);
    show("the van", &van, NORTH, FILTER);

    /* The planner hosts the orders alone, and waits at transaction 10, which read the north depot's cell. */
    open_fresh(&planner, ORDERS_ALONE);
    play("the planner", &planner);

    /* Nothing is owed to nobody, nor to who hosts all. To the van the first commit record owes a decision, to the planner the second;
       the depot pays both, and neither is left waiting. */
    owed(declared, 0, &offset);
    owed(&depot.hosted, 1, &offset);
    pay();
    play("the van", &van);
    show("the van", &van, VAN, FILTER);
    play("the planner", &planner);
    show("the planner", &planner, ORDERS, FILTER);

    /* The evening: a checkpoint of the van's stock, from which a second van starts. */
    play("the depot", &depot);
    checkpoint = tail;
    appended("checkpoint",
             stocklog_append_checkpoint(DEPOTS, log_bytes, sizeof log_bytes, tail, depot.hosted, depot.position, depot.count,
                                        depot.table, sizeof depot.table, VAN, out),
             out);
    if (stocklog_open_checkpoint(DEPOTS, log_bytes, sizeof log_bytes, tail, checkpoint,
                                 second.table, sizeof second.table, out) == STOCKLOG_DONE)
        keep(&second, out);
    show("the second van", &second, VAN, FILTER);

    /* Transaction 11 brings the van's filter back. For the van's cell its client sends the offset of the entry that changed it, 3, and
       not the version that the depot shows, 4. It is told which read is at fault, from 0, and sends the version. */
    put(&returns, NORTH, FILTER, 43);
    put(&returns, VAN, FILTER, 6);
    update("transaction 11 sets aside", 11, &returns);
    show("the depot", &depot, VAN, FILTER);
    seen(&wrong, NORTH, FILTER, 4);
    seen(&wrong, VAN, FILTER, 3);
    commit("transaction 11 commits with an offset", 11, &wrong);
    seen(&right, NORTH, FILTER, 4);
    seen(&right, VAN, FILTER, 4);
    last_commit = tail;
    commit("transaction 11 commits", 11, &right);
    play("the depot", &depot);
    show("the depot", &depot, VAN, FILTER);

    /* What the log has, and whether every decision and checkpoint is as played. */
    entry(first_commit);
    stream(VAN);
    audit("the audit", log_bytes, tail);
    liar(last_commit);
    return 0;
}
