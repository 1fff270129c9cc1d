/*
 * A delivery after its order, over the C interface: the commit record of a delivery names the number of its order, and so it commits only
 * once the order has. Shown are a delivery that waits for nobody, one that comes too early, one that names two orders, numbers that may
 * not be named, what a planner who hosts everything decides alone, and the decision that is owed to a van that does not.
 * examples/run compiles it, runs it and compares what it prints with examples/delivery.expected.
 */
#include "stocklog.h"

#include <stdio.h>

enum { SLOTS = 24, CELLS = 16, VAN = 4, ORDERS = 5 };

/* The directory of the eight objects, which goes first in every call. Its places are the ids less 1. */
#define DEPOTS stocklog_eight, sizeof stocklog_eight
enum { EVERYTHING = 255, OF_THE_VAN = 1 << (VAN - 1) | 1 << (ORDERS - 1) };

static uint8_t log_bytes[SLOTS * STOCKLOG_SLOT_SIZE];
static uint64_t tail = 0;

static size_t number(uint8_t *bytes, size_t at, uint64_t value, int width)
{
    while (width-- > 0)
        bytes[at++] = (uint8_t)(value >> (8 * width));
    return at;
}

/* ---- appends ---- */

static void appended(const char *what, uint32_t result, const uint64_t out[4])
{
    if (result == STOCKLOG_DONE) {
        printf("%s: offset %llu\n", what, (unsigned long long)tail);
        tail = out[0];
    } else {
        printf("%s: refused %lu\n", what, (unsigned long)result);
    }
}

static void put(const char *what, uint32_t transaction, uint32_t object, uint32_t key, uint32_t value)
{
    uint8_t item[STOCKLOG_ITEM_SIZE];
    uint64_t out[4];
    size_t at = number(item, 0, object, 4);
    at = number(item, at, key, 4);
    at = number(item, at, STOCKLOG_PUT, 4);
    at = number(item, at, value, 4);
    appended(what, stocklog_append_update(DEPOTS, log_bytes, sizeof log_bytes, tail, transaction, item, at, out), out);
}

/* A commit without reads, after one or two other numbers; 0 stands for none. */
static void commit(const char *what, uint32_t transaction, uint32_t first, uint32_t second)
{
    uint64_t out[4];
    uint32_t result = stocklog_append_commit(DEPOTS, log_bytes, sizeof log_bytes, tail, transaction, NULL, 0, first,
                                             second, out);
    appended(what, result, out);
}

static void decide(const char *what, uint64_t offset, uint32_t outcome)
{
    uint64_t out[4];
    uint32_t result =
        stocklog_append_decision(DEPOTS, log_bytes, sizeof log_bytes, tail, offset, outcome, out);
    appended(what, result, out);
}

/* ---- replicas ---- */

struct replica {
    const char *name;
    uint64_t hosted, position, count;
    uint8_t table[CELLS * STOCKLOG_CELL_SIZE];
};

static void open_fresh(struct replica *r, const char *name, uint64_t hosted)
{
    uint64_t out[4];
    r->name = name;
    if (stocklog_open_fresh(DEPOTS, hosted, out) == STOCKLOG_DONE) {
        r->hosted = out[0];
        r->position = out[1];
        r->count = out[2];
    }
}

static void play(struct replica *r)
{
    uint64_t out[4];
    uint32_t result = stocklog_play(DEPOTS, log_bytes, sizeof log_bytes, tail, r->hosted, r->position, r->count,
                                    r->table, sizeof r->table, tail, out);
    r->hosted = out[0];
    r->position = out[1];
    r->count = out[2];
    if (result == STOCKLOG_WAITING)
        printf("%s waits at %llu\n", r->name, (unsigned long long)r->position);
    else
        printf("%s: result %lu, at %llu\n", r->name, (unsigned long)result, (unsigned long long)r->position);
}

static void show(const struct replica *r, uint32_t object, uint32_t key)
{
    uint64_t out[4];
    stocklog_read_cell(DEPOTS, r->hosted, r->position, r->count, r->table, sizeof r->table, object, key, out);
    printf("%s: (%lu, %lu) ", r->name, (unsigned long)object, (unsigned long)key);
    if (out[0] == STOCKLOG_HOLDS)
        printf("holds %llu, version %llu\n", (unsigned long long)out[1], (unsigned long long)out[2]);
    else
        printf("was never written\n");
}

/* What is owed to the van; each debt is paid with the outcome that a replica of everything has found. */
static int owed(uint64_t *offset)
{
    static const uint64_t declared[] = {OF_THE_VAN};
    uint64_t out[4];
    stocklog_owed(DEPOTS, log_bytes, sizeof log_bytes, tail, declared, 1, out);
    if (out[0] == 0)
        printf("nothing is owed to the van\n");
    else
        printf("owed to the van: a decision for %llu\n", (unsigned long long)out[1]);
    *offset = out[1];
    return out[0] == 1;
}

static void named(uint64_t offset)
{
    uint64_t out[8];
    stocklog_entry(DEPOTS, log_bytes, sizeof log_bytes, tail, offset, out);
    printf("entry %llu: kind %llu, number %llu, names %llu and %llu\n", (unsigned long long)offset,
           (unsigned long long)out[0], (unsigned long long)out[1], (unsigned long long)out[5],
           (unsigned long long)out[6]);
}

int main(void)
{
    static struct replica planner, van;
    static uint8_t scratch[CELLS * STOCKLOG_CELL_SIZE];
    uint64_t offset, out[4];
    uint32_t result;

    /* Order 9 of six filters, and its delivery, number 10. */
    put("order 9", 9, ORDERS, 1, 6);
    commit("order 9 commits", 9, 0, 0);
    put("delivery 10", 10, VAN, 2, 6);
    commit("delivery 10 after order 9", 10, 9, 0);
    named(3);

    open_fresh(&planner, "planner", EVERYTHING);
    open_fresh(&van, "van", OF_THE_VAN);
    play(&planner);
    show(&planner, VAN, 2);
    /* The van hosts all that is read and written here, but not every object: it does not know what number 9 did elsewhere. */
    play(&van);
    if (owed(&offset))
        decide("delivery 10 committed", offset, STOCKLOG_COMMITTED);
    play(&van);
    show(&van, VAN, 2);

    /* Delivery 12 comes before its order 11 has committed: it aborts, and delivery 13 is made after that. */
    put("order 11", 11, ORDERS, 3, 4);
    put("delivery 12", 12, VAN, 3, 4);
    commit("delivery 12 after order 11", 12, 11, 0);
    commit("order 11 commits", 11, 0, 0);
    put("delivery 13", 13, VAN, 4, 4);
    commit("delivery 13 after orders 9 and 11", 13, 9, 11);
    put("delivery 14", 14, VAN, 5, 1);
    commit("delivery 14 after delivery 12", 14, 12, 0);
    play(&planner);
    show(&planner, VAN, 3);
    show(&planner, VAN, 4);
    show(&planner, VAN, 5);

    /* What may not be named: a second number without a first, two that do not ascend, the commit's own. */
    put("delivery 15", 15, VAN, 6, 1);
    commit("after none and 9", 15, 0, 9);
    commit("after 9 and 9", 15, 9, 9);
    commit("after 11 and 9", 15, 11, 9);
    commit("after itself", 15, 15, 0);
    /* An order that nobody made may be named; the delivery aborts. */
    commit("after 77", 15, 77, 0);

    /* The debts are paid with what the planner found: of these the one at 10 committed. The audit, which hosts everything too, agrees. */
    play(&planner);
    while (owed(&offset)) {
        uint32_t outcome = offset == 10 ? STOCKLOG_COMMITTED : STOCKLOG_ABORTED;
        decide(outcome == STOCKLOG_COMMITTED ? "it committed" : "it aborted", offset, outcome);
    }
    play(&van);
    show(&van, VAN, 3);
    show(&van, VAN, 4);
    result = stocklog_audit(DEPOTS, log_bytes, sizeof log_bytes, tail, scratch, sizeof scratch, out);
    printf("audit: result %lu, at %llu\n", (unsigned long)result, (unsigned long long)out[1]);
    return 0;
}
