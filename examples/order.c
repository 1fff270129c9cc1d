/*
 * What an order costs, over the C interface: a clinic's order is put together in the log, a replica of the orders plays it, and the list
 * of prices is handed over with it. Shown are lines that are lowered from a quantity on, a half cent that goes upward, a key without a
 * price, lists that break their rules, and a total of more than 64 bits.
 * examples/run compiles it, runs it and compares what it prints with examples/order.expected.
 */
#include "stocklog.h"

#include <stdio.h>
#include <string.h>

enum { SLOTS = 8, CELLS = 512, PRICES = 512, ORDERS = 5, NEXT_ORDER = 6, PRICE_LIST = 7 };

/* Items of the order, by key. */
enum { FILTERS = 7, TUBES = 12, LABELS = 30, GLOVES = 31 };

/* The directory of the eight objects, which goes first in every call. Its places are the ids less 1. */
#define DEPOTS stocklog_eight, sizeof stocklog_eight
enum { ORDERS_AND_NUMBERS = 1 << (ORDERS - 1) | 1 << (NEXT_ORDER - 1) | 1 << (PRICE_LIST - 1) };

static uint8_t log_bytes[SLOTS * STOCKLOG_SLOT_SIZE];
static uint64_t tail = 0;

/* ---- bytes, most significant first ---- */

struct bytes {
    uint8_t at[PRICES * STOCKLOG_PRICE_SIZE];
    size_t len;
};

static void number(struct bytes *b, uint64_t value, int width)
{
    while (width-- > 0)
        b->at[b->len++] = (uint8_t)(value >> (8 * width));
}

static void item(struct bytes *b, uint32_t object, uint32_t key, uint32_t operation, uint32_t value)
{
    number(b, object, 4);
    number(b, key, 4);
    number(b, operation, 4);
    number(b, value, 4);
}

/* From so many pieces on, so much is taken off the whole line. */
static void price(struct bytes *b, uint32_t key, uint32_t cents, uint32_t from, uint32_t percent)
{
    number(b, 0x5052, 2);
    number(b, 0, 2);
    number(b, key, 4);
    number(b, cents, 4);
    number(b, from, 4);
    number(b, percent, 4);
}

/* ---- the replica ---- */

struct replica {
    uint64_t hosted, position, count;
    uint8_t table[CELLS * STOCKLOG_CELL_SIZE];
};

static void append(const char *what, const struct bytes *items)
{
    uint64_t out[4];
    uint32_t result =
        stocklog_append_update(DEPOTS, log_bytes, sizeof log_bytes, tail, 0, items->at, items->len, out);
    if (result == STOCKLOG_DONE) {
        printf("%s: offset %llu\n", what, (unsigned long long)tail);
        tail = out[0];
    } else {
        printf("%s: refused %lu\n", what, (unsigned long)result);
    }
}

static void play(struct replica *r)
{
    uint64_t out[4];
    stocklog_play(DEPOTS, log_bytes, sizeof log_bytes, tail, r->hosted, r->position, r->count, r->table, sizeof r->table,
                  tail, out);
    r->hosted = out[0];
    r->position = out[1];
    r->count = out[2];
}

/* The total in cents is out[0] * 2^64 + out[1]. */
static void cost(const char *what, const struct replica *r, uint32_t object, const struct bytes *prices)
{
    uint64_t out[4];
    uint32_t result = stocklog_price(DEPOTS, r->hosted, r->position, r->count, r->table, sizeof r->table, object,
                                     prices->at, prices->len, out);
    if (result == STOCKLOG_NO_PRICE)
        printf("%s: refused 19, no price for key %llu\n", what, (unsigned long long)out[3]);
    else if (result != STOCKLOG_DONE)
        printf("%s: refused %lu\n", what, (unsigned long)result);
    else if (out[0] == 0)
        printf("%s: %llu.%02u\n", what, (unsigned long long)(out[1] / 100), (unsigned)(out[1] % 100));
    else
        printf("%s: high part %llu, low part %llu cents\n", what, (unsigned long long)out[0], (unsigned long long)out[1]);
}

/* 430 cells of as many pieces as a cell can hold, at the highest price. */
static void largest(void)
{
    static struct replica stock;
    static struct bytes rows, prices;
    uint32_t key;
    for (key = 0; key < 430; key++) {
        size_t at = key * (size_t)STOCKLOG_CELL_SIZE;
        rows.len = 0;
        number(&rows, ORDERS, 4);
        number(&rows, key, 4);
        number(&rows, UINT32_MAX, 4);
        number(&rows, 1, 4);
        number(&rows, 1, 8);
        memcpy(stock.table + at, rows.at, rows.len);
        price(&prices, key, 9999999, 0, 0);
    }
    stock.hosted = (uint64_t)1 << (ORDERS - 1);
    stock.count = 430;
    cost("430 of the largest lines", &stock, ORDERS, &prices);
}

int main(void)
{
    static struct replica orders;
    static struct bytes first, later, list, cut, short_list, disordered, too_much;
    uint64_t out[4];

    /* The order: 3 filters, 5 tubes, 1 label, 2 boxes of gloves, which are taken off it again. */
    item(&first, ORDERS, FILTERS, STOCKLOG_PUT, 3);
    item(&first, ORDERS, TUBES, STOCKLOG_PUT, 5);
    item(&first, ORDERS, LABELS, STOCKLOG_PUT, 1);
    item(&first, ORDERS, GLOVES, STOCKLOG_PUT, 2);
    item(&first, PRICE_LIST, 0, STOCKLOG_PUT, 12);
    append("the order", &first);
    if (stocklog_open_fresh(DEPOTS, ORDERS_AND_NUMBERS, out) != STOCKLOG_DONE)
        return 1;
    orders.hosted = out[0];
    play(&orders);

    /* Filters: 3.33, and a tenth off from 3 on: 8.991 is 8.99. Tubes: 0.01, and half off always: 2.5 cents are 3. Labels: 0.40. */
    price(&list, 1, 100, 0, 0);
    price(&list, FILTERS, 333, 3, 10);
    price(&list, TUBES, 1, 0, 50);
    price(&list, LABELS, 40, 100, 25);
    cost("without a price for gloves", &orders, ORDERS, &list);
    item(&later, ORDERS, GLOVES, STOCKLOG_REMOVE, 0);
    append("gloves removed", &later);
    play(&orders);
    cost("the order costs", &orders, ORDERS, &list);

    /* One filter fewer is below the break quantity: 6.66. */
    later.len = 0;
    item(&later, ORDERS, FILTERS, STOCKLOG_PUT, 2);
    append("two filters", &later);
    play(&orders);
    cost("the order costs", &orders, ORDERS, &list);

    /* The lowest key without a price is told. */
    price(&short_list, LABELS, 40, 100, 25);
    cost("by labels alone", &orders, ORDERS, &short_list);
    short_list.len = 0;
    cost("by no price at all", &orders, ORDERS, &short_list);

    /* Registers are not priced, maps that are not hosted neither; and a list has whole prices, within their bounds, in order of keys. */
    cost("the price list's number", &orders, PRICE_LIST, &list);
    cost("filters used, by patient", &orders, 1, &list);
    cut = list;
    cut.len -= 1;
    cost("the last price cut", &orders, ORDERS, &cut);
    price(&disordered, TUBES, 1, 0, 50);
    price(&disordered, FILTERS, 333, 3, 10);
    cost("tubes before filters", &orders, ORDERS, &disordered);
    price(&too_much, FILTERS, 333, 3, 101);
    cost("101 percent off", &orders, ORDERS, &too_much);
    too_much.len = 0;
    price(&too_much, FILTERS, 10000000, 3, 10);
    cost("10,000,000 cents", &orders, ORDERS, &too_much);

    largest();
    return 0;
}
