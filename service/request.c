#include "request.h"

#include "commits.h"
#include "numbers.h"

#include <string.h>

void request_start(struct request *request, int kind, uint32_t number)
{
    memset(request, 0, sizeof *request);
    request->kind = kind;
    request->number = number;
}

/* The place of one more item, or NULL. */
static uint8_t *item(struct request *request)
{
    uint8_t *at = request->items + request->items_len;
    if (request->items_len == sizeof request->items)
        return NULL;
    request->items_len += STOCKLOG_ITEM_SIZE;
    return at;
}

int request_write(struct request *request, uint32_t object, uint32_t key, uint32_t operation, uint32_t value)
{
    uint8_t *at = item(request);
    if (at == NULL)
        return 0;
    number_put(at, object, 4);
    number_put(at + 4, key, 4);
    number_put(at + 8, operation, 4);
    number_put(at + 12, value, 4);
    return 1;
}

int request_read(struct request *request, uint32_t object, uint32_t key, uint64_t version)
{
    uint8_t *at = item(request);
    if (at == NULL)
        return 0;
    number_put(at, object, 4);
    number_put(at + 4, key, 4);
    number_put(at + 8, version, 8);
    return 1;
}

/* A checkpoint is taken from a replica at the tail. One of all objects never waits, and what else stops it stops the append too. */
static uint32_t make_checkpoint(const struct request *request, struct log *log, uint64_t out[4])
{
    struct replica all;
    uint32_t result;
    replica_open(&all, log, directory_all(&log->directory));
    replica_play(&all, log, log->tail);
    result = stocklog_append_checkpoint(LOG_WRITE(log), all.hosted, all.position, all.count, all.table, all.table_len,
                                        request->object, out);
    replica_close(&all);
    return result;
}

uint32_t request_make(const struct request *request, struct log *log, uint64_t out[4])
{
    switch (request->kind) {
    case STOCKLOG_UPDATE:
        return stocklog_append_update(LOG_WRITE(log), request->number, request->items, request->items_len, out);
    case STOCKLOG_COMMIT:
        return commit_make(request, log, out);
    case STOCKLOG_DECISION:
        return stocklog_append_decision(LOG_WRITE(log), request->offset, request->outcome, out);
    default:
        return make_checkpoint(request, log, out);
    }
}
