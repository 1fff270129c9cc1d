/*
 * Where a shared log is kept. Every append is made by store_append, and an offset that it answers is acknowledged: the entry is on
 * storage for good, at that offset, once. Of a process that ended before the answer came, the entry is there once or not at all.
 *
 * A place is a file's name, or "postgres:" and a connection string of libpq ("postgres:host=.. dbname=..").
 * A store is used by one thread. A process that forks opens its own.
 */
#ifndef SERVICE_STORE_H
#define SERVICE_STORE_H

#include "log.h"
#include "request.h"

struct store;

struct store_calls {
    void (*refresh)(struct store *store);
    uint32_t (*append)(struct store *store, const struct request *request, uint64_t out[4]);
    void (*close)(struct store *store);
};

struct store {
    struct log log; /* as of the last refresh or append */
    const struct store_calls *calls;
};

/* Makes an empty log where there is none. */
void store_create(const char *place, const struct directory *directory, uint64_t slots);

struct store *store_open(const char *place);

/* Takes in what was appended meanwhile. */
void store_refresh(struct store *store);

/* Appends, behind whatever others have appended. Returns the library's number; out[0] is the new tail, so the entry's offset plus 1. */
uint32_t store_append(struct store *store, const struct request *request, uint64_t out[4]);

void store_close(struct store *store);

/* The two kinds of storage. */
void file_create(const char *name, const struct directory *directory, uint64_t slots);
struct store *file_open(const char *name);
void postgres_create(const char *connection, const struct directory *directory, uint64_t slots);
struct store *postgres_open(const char *connection);

#endif
