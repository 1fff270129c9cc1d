/* A replica with a table that grows, so that a play never ends for want of room. */
#ifndef SERVICE_REPLICA_H
#define SERVICE_REPLICA_H

#include "log.h"

struct replica {
    uint64_t hosted, position, count;
    uint8_t *table;
    size_t table_len;
    uint64_t told; /* what the last refused play told: the offset of a bad entry */
};

/* A fresh one, at offset 0. Returns the library's number: 15 or 10 for a set that is none. */
uint32_t replica_open(struct replica *replica, const struct log *log, uint64_t hosted);
void replica_close(struct replica *replica);

/* Plays to a stop. Returns the library's number, never 13, and moves the record on. */
uint32_t replica_play(struct replica *replica, const struct log *log, uint64_t stop);

/* What it shows for a cell: the library's number, and out as stocklog_read_cell has it. */
uint32_t replica_cell(const struct replica *replica, const struct log *log, uint32_t object, uint32_t key, uint64_t out[4]);

/* Whether two show the same: set, position, and every counted row. */
int replica_same(const struct replica *one, const struct replica *other);

/* The audit of a log, over a scratch table that is large enough. Returns the library's number; out as stocklog_audit has it. */
uint32_t audit_log(const struct log *log, uint64_t out[4]);

#endif
