/*
 * lost PLACE: appends to a log over connections that cut.py with "idle" ends while nobody uses them, as a server does that shuts down: by
 * a warning, and no more. The process is idle before it fetches, or between fetching and inserting. Each append must be done, once.
 */
#include "entry.h"
#include "store.h"
#include "words.h"

#include <stdio.h>
#include <stdlib.h>
#include <unistd.h>

enum { APPENDS = 4, IDLE = 900 /* milliseconds, much more than cut.py waits */ };

static void idle(void)
{
    usleep(1000 * IDLE);
}

static int make_late; /* whether the process is idle before it makes the next entry */

uint32_t __real_request_make(const struct request *request, struct log *log, uint64_t out[4]);
uint32_t __wrap_request_make(const struct request *request, struct log *log, uint64_t out[4]);

uint32_t __wrap_request_make(const struct request *request, struct log *log, uint64_t out[4])
{
    if (make_late)
        idle();
    make_late = 0;
    return __real_request_make(request, log, out);
}

_Noreturn static void wrong(const char *what, uint32_t at)
{
    fprintf(stderr, "wrong: append %lu %s\n", (unsigned long)at, what);
    exit(1);
}

static void append(struct store *store, uint32_t at)
{
    struct request request;
    uint64_t out[4];
    request_start(&request, STOCKLOG_UPDATE, 0);
    request_write(&request, 2, 7, STOCKLOG_PUT, at);
    if (store_append(store, &request, out) != STOCKLOG_DONE || out[0] != at + 1)
        wrong("is not done at its offset", at);
}

static void account(const struct log *log)
{
    uint32_t at;
    if (log->tail != APPENDS)
        wrong("is the last, and there are fewer or more entries", APPENDS - 1);
    for (at = 0; at < APPENDS; at++) {
        struct entry entry;
        entry_at(&entry, log, at);
        if (entry.kind != STOCKLOG_UPDATE || entry_write(&entry, 0).value != at)
            wrong("is not where it was acknowledged", at);
    }
}

int main(int count, char *words[])
{
    struct directory eight;
    struct store *store;
    uint32_t at;
    if (count != 2)
        usage_error("usage: lost PLACE");
    directory_eight(&eight);
    store_create(words[1], &eight, 100);
    store = store_open(words[1]);
    for (at = 0; at < APPENDS; at++) {
        make_late = at % 2 == 0;
        if (!make_late)
            idle();
        append(store, at);
    }
    store_close(store);
    store = store_open(words[1]);
    account(&store->log);
    store_close(store);
    printf("%d appends over connections that were ended between fetching and inserting, or before: each is there once\n", APPENDS);
    return 0;
}
