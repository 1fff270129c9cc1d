#include "replica.h"

#include "words.h"

#include <stdlib.h>
#include <string.h>

enum { FIRST_ROWS = 256 };

/* Twice as many rows. What the table holds stays. */
static void grow(uint8_t **table, size_t *len)
{
    size_t more = *len == 0 ? (size_t)FIRST_ROWS * STOCKLOG_CELL_SIZE : 2 * *len;
    uint8_t *moved = realloc(*table, more);
    if (moved == NULL)
        trouble("no memory for a table of %zu bytes", more);
    memset(moved + *len, 0, more - *len);
    *table = moved;
    *len = more;
}

static void keep(struct replica *replica, const uint64_t out[4])
{
    replica->hosted = out[0];
    replica->position = out[1];
    replica->count = out[2];
    replica->told = out[3];
}

uint32_t replica_open(struct replica *replica, const struct log *log, uint64_t hosted)
{
    uint64_t out[4];
    uint32_t result = stocklog_open_fresh(LOG_DIRECTORY(log), hosted, out);
    memset(replica, 0, sizeof *replica);
    keep(replica, out);
    return result;
}

void replica_close(struct replica *replica)
{
    free(replica->table);
    memset(replica, 0, sizeof *replica);
}

uint32_t replica_play(struct replica *replica, const struct log *log, uint64_t stop)
{
    for (;;) {
        uint64_t out[4];
        uint32_t result = stocklog_play(LOG_READ(log), replica->hosted, replica->position, replica->count, replica->table,
                                        replica->table_len, stop, out);
        keep(replica, out);
        if (result != STOCKLOG_NO_ROOM)
            return result;
        grow(&replica->table, &replica->table_len);
    }
}

uint32_t replica_cell(const struct replica *replica, const struct log *log, uint32_t object, uint32_t key, uint64_t out[4])
{
    return stocklog_read_cell(LOG_DIRECTORY(log), replica->hosted, replica->position, replica->count, replica->table,
                              replica->table_len, object, key, out);
}

int replica_same(const struct replica *one, const struct replica *other)
{
    return one->hosted == other->hosted && one->position == other->position && one->count == other->count &&
           (one->count == 0 || memcmp(one->table, other->table, (size_t)one->count * STOCKLOG_CELL_SIZE) == 0);
}

uint32_t audit_log(const struct log *log, uint64_t out[4])
{
    uint8_t *scratch = NULL;
    size_t len = 0;
    uint32_t result;
    while ((result = stocklog_audit(LOG_READ(log), scratch, len, out)) == STOCKLOG_NO_ROOM)
        grow(&scratch, &len);
    free(scratch);
    return result;
}
