/*
 * The log in PostgreSQL: one row for each slot, its offset the primary key. Each process keeps a mirror of the slots in memory.
 *
 * An append fetches the rows past the mirror's tail, makes its entry there and inserts it. A unique violation says that somebody else
 * was first: it fetches, makes the entry again and tries again. Each append has a token of its own, which stands in its row. Where the
 * connection is lost during an insert, a new one is made, the rows are fetched, and the token tells whether the entry is in. Where it is
 * not, the same offset is tried again: should the first insert still be under way, the primary key lets one of the two through.
 * A connection counts as lost whenever the failure is not the server's own: libpq may call it good after a write that failed.
 *
 * A row for offset o is inserted only by who has seen that of o - 1, so there are no gaps.
 */
#include "numbers.h"
#include "store.h"
#include "words.h"

#include <errno.h>
#include <libpq-fe.h>
#include <stdio.h>
#include <stdlib.h>
#include <string.h>
#include <sys/random.h>
#include <time.h>
#include <unistd.h>

enum { TOKEN_SIZE = 16, AT_ONCE = 4096, PATIENCE = 60 /* seconds */ };

struct pg_store {
    struct store store;
    char *where;
    PGconn *connection;
    uint8_t token[TOKEN_SIZE]; /* of the append that is under way */
    uint64_t own;              /* one more than the offset of a fetched row with that token; 0 where none has it */
    int losing;                /* a connection was lost at lost_at, and what is under way has got no further since */
    time_t lost_at;
};

static const char schema[] =
    "CREATE TABLE stocklog_log (one boolean PRIMARY KEY DEFAULT true CHECK (one),"
    " directory bytea NOT NULL, names bytea NOT NULL, slots bigint NOT NULL);"
    "CREATE TABLE stocklog_slots (log_offset bigint PRIMARY KEY CHECK (log_offset >= 0),"
    " slot bytea NOT NULL CHECK (length(slot) = 256), token bytea NOT NULL CHECK (length(token) = 16));"
    "CREATE FUNCTION stocklog_keep() RETURNS trigger LANGUAGE plpgsql AS"
    " 'BEGIN RAISE EXCEPTION ''an entry of a stock log is never changed or removed''; END';"
    "CREATE TRIGGER stocklog_keep BEFORE UPDATE OR DELETE OR TRUNCATE ON stocklog_slots EXECUTE FUNCTION stocklog_keep();";

/* ---- connections ---- */

static const char *const keywords[] = {"fallback_application_name", "dbname", NULL};

/* What the server says beside its answers is not passed on. */
static void quiet(void *told, const char *notice)
{
    (void)told, (void)notice;
}

/*
 * Whatever the server's defaults are: an acknowledged append is on its disk, and each query sees all that was committed before, with no
 * failure for the sake of another transaction.
 */
static int set_up(PGconn *connection)
{
    PGresult *result = PQexec(connection, "SELECT set_config('default_transaction_isolation', 'read committed', false);"
                                          "SELECT set_config('synchronous_commit', 'on', false)"
                                          " WHERE current_setting('synchronous_commit') = 'off'");
    int done = PQresultStatus(result) == PGRES_TUPLES_OK;
    PQclear(result);
    return done;
}

static time_t seconds(void)
{
    struct timespec now;
    if (clock_gettime(CLOCK_MONOTONIC, &now) != 0)
        trouble("the clock cannot be read: %s", strerror(errno));
    return now.tv_sec;
}

/* A connection. A server that is down or starting is waited for; one that is up and turns this process away thrice is not. */
static PGconn *connect_to(const char *where)
{
    const char *const values[] = {"stocklog", where, NULL};
    time_t until = seconds() + PATIENCE;
    int tries = 0, turned_away = 0;
    for (;;) {
        PGPing state = PQpingParams(keywords, values, 1);
        PGconn *connection = PQconnectdbParams(keywords, values, 1);
        PQsetNoticeProcessor(connection, quiet, NULL);
        if (PQstatus(connection) == CONNECTION_OK && set_up(connection))
            return connection;
        turned_away += state == PQPING_OK;
        if (state == PQPING_NO_ATTEMPT || turned_away == 3 || seconds() >= until)
            trouble("PostgreSQL cannot be reached: %s", PQerrorMessage(connection));
        if (++tries == 20)
            fprintf(stderr, "stocklog: PostgreSQL does not answer; trying for %d seconds\n", PATIENCE);
        PQfinish(connection);
        usleep(100000);
    }
}

/* A new connection for one that was lost. Where none comes, or all are lost again, whether an append that was under way is in can be seen later. */
static void connect_again(struct pg_store *pg)
{
    if (!pg->losing)
        pg->lost_at = seconds();
    else if (seconds() - pg->lost_at >= PATIENCE)
        trouble("PostgreSQL's connections are lost again and again: %s", PQerrorMessage(pg->connection));
    else
        usleep(100000);
    pg->losing = 1;
    PQfinish(pg->connection);
    pg->connection = connect_to(pg->where);
}

/* Whether a result's SQLSTATE begins so. */
static int has_state(const PGresult *result, const char *wanted)
{
    const char *state = PQresultErrorField(result, PG_DIAG_SQLSTATE);
    return state != NULL && strncmp(state, wanted, strlen(wanted)) == 0;
}

/*
 * Whether a result failed because the connection is gone. Every error of the server has an SQLSTATE, those of the classes 08 and 57P when
 * it ends the connection. What failed without one failed here: libpq could not write or read. It need not say so by PQstatus: where a
 * server that shuts down has sent a warning ahead, libpq reads that in place of an answer and calls the connection good.
 */
static int is_lost(PGconn *connection, const PGresult *result)
{
    return PQstatus(connection) != CONNECTION_OK || !has_state(result, "") || has_state(result, "08") || has_state(result, "57P");
}

/* ---- the mirror ---- */

/* What a query that only reads answers, in binary. It is asked again over a new connection where the one in use is lost. */
static PGresult *ask(struct pg_store *pg, const char *query, int count, const char *const *values, const int *lengths, const int *formats)
{
    for (;;) {
        PGresult *result = PQexecParams(pg->connection, query, count, NULL, values, lengths, formats, 1);
        if (PQresultStatus(result) == PGRES_TUPLES_OK)
            return result;
        if (has_state(result, "42P01"))
            trouble("there is no log in this database and schema: 'stocklog new' makes one");
        if (!is_lost(pg->connection, result))
            trouble("PostgreSQL does not hand out the log: %s", PQerrorMessage(pg->connection));
        PQclear(result);
        connect_again(pg);
    }
}

static PGresult *rows_from(struct pg_store *pg, uint64_t from)
{
    uint8_t bytes[8];
    const char *values[] = {(const char *)bytes};
    const int lengths[] = {8}, formats[] = {1};
    number_put(bytes, from, 8);
    return ask(pg, "SELECT log_offset, slot, token FROM stocklog_slots WHERE log_offset >= $1::bigint ORDER BY log_offset LIMIT 4096", 1, values,
               lengths, formats);
}

/* One row: the entry at the mirror's tail, or the one below it once more, which must be as it was. */
static void take_row(struct pg_store *pg, const PGresult *rows, int at)
{
    struct log *log = &pg->store.log;
    uint64_t offset = number_at((const uint8_t *)PQgetvalue(rows, at, 0), 8);
    const uint8_t *slot = (const uint8_t *)PQgetvalue(rows, at, 1);
    if (PQgetlength(rows, at, 1) != STOCKLOG_SLOT_SIZE)
        trouble("PostgreSQL has a row of %d bytes for offset %llu: rows were changed by hand", PQgetlength(rows, at, 1), (unsigned long long)offset);
    if (offset + 1 == log->tail) {
        if (memcmp(log->bytes + offset * STOCKLOG_SLOT_SIZE, slot, STOCKLOG_SLOT_SIZE) != 0)
            trouble("PostgreSQL has another entry at offset %llu than it had before: the server was set back", (unsigned long long)offset);
    } else if (offset != log->tail || offset >= log->slots) {
        trouble("PostgreSQL has a row for offset %llu where that of %llu is due: rows were changed by hand", (unsigned long long)offset,
                (unsigned long long)log->tail);
    } else {
        memcpy(log->bytes + offset * STOCKLOG_SLOT_SIZE, slot, STOCKLOG_SLOT_SIZE);
        log->tail++;
    }
    if (PQgetlength(rows, at, 2) == TOKEN_SIZE && memcmp(PQgetvalue(rows, at, 2), pg->token, TOKEN_SIZE) == 0)
        pg->own = offset + 1;
}

static void fetch(struct pg_store *pg)
{
    const struct log *log = &pg->store.log;
    int count;
    do {
        uint64_t from = log->tail == 0 ? 0 : log->tail - 1;
        PGresult *rows = rows_from(pg, from);
        int at;
        count = PQntuples(rows);
        if (count == 0 && log->tail > 0)
            trouble("PostgreSQL no longer has the entry at offset %llu: the server was set back", (unsigned long long)from);
        for (at = 0; at < count; at++)
            take_row(pg, rows, at);
        PQclear(rows);
    } while (count == AT_ONCE);
}

static void pg_refresh(struct store *store)
{
    struct pg_store *pg = (struct pg_store *)store;
    pg->losing = 0;
    fetch(pg);
}

/* ---- appends ---- */

/* Whether the slot at the mirror's tail was inserted. Where it was not, somebody else may have been first, or the connection was lost. */
static int insert(struct pg_store *pg)
{
    const struct log *log = &pg->store.log;
    uint8_t offset[8];
    const char *values[] = {(const char *)offset, (const char *)log->bytes + log->tail * STOCKLOG_SLOT_SIZE, (const char *)pg->token};
    const int lengths[] = {8, STOCKLOG_SLOT_SIZE, TOKEN_SIZE}, formats[] = {1, 1, 1};
    PGresult *result;
    int done, lost, taken;
    number_put(offset, log->tail, 8);
    result = PQexecParams(pg->connection, "INSERT INTO stocklog_slots VALUES ($1::bigint, $2::bytea, $3::bytea)", 3, NULL, values, lengths,
                          formats, 1);
    done = PQresultStatus(result) == PGRES_COMMAND_OK;
    lost = !done && is_lost(pg->connection, result);
    taken = !done && has_state(result, "23505");
    PQclear(result);
    if (!done && !lost && !taken)
        trouble("PostgreSQL does not take the entry: %s", PQerrorMessage(pg->connection));
    if (lost)
        connect_again(pg);
    else
        pg->losing = 0;
    return done;
}

static void new_token(struct pg_store *pg)
{
    if (getrandom(pg->token, TOKEN_SIZE, 0) != TOKEN_SIZE)
        trouble("no random bytes: %s", strerror(errno));
    pg->own = 0;
    pg->losing = 0;
}

/*
 * A refusal is final: where an insert of ours is still under way unseen, the tail is as it was when the entry was made, and so it is made
 * again; where the tail has moved, its offset is taken and it cannot get in.
 */
static uint32_t pg_append(struct store *store, const struct request *request, uint64_t out[4])
{
    struct pg_store *pg = (struct pg_store *)store;
    new_token(pg);
    for (;;) {
        uint32_t result;
        fetch(pg);
        if (pg->own != 0) {
            memset(out, 0, 4 * sizeof *out);
            out[0] = pg->own;
            return STOCKLOG_DONE;
        }
        result = request_make(request, &store->log, out);
        if (result != STOCKLOG_DONE)
            return result;
        if (insert(pg)) {
            store->log.tail = out[0];
            return STOCKLOG_DONE;
        }
    }
}

static void pg_close(struct store *store)
{
    struct pg_store *pg = (struct pg_store *)store;
    PQfinish(pg->connection);
    free(store->log.bytes);
    free(pg->where);
    free(pg);
}

static const struct store_calls pg_calls = {pg_refresh, pg_append, pg_close};

/* ---- opening and making ---- */

static void read_head(struct pg_store *pg)
{
    struct log *log = &pg->store.log;
    PGresult *head = ask(pg, "SELECT directory, names, slots FROM stocklog_log", 0, NULL, NULL, NULL);
    if (PQntuples(head) != 1 || PQgetlength(head, 0, 1) != sizeof log->directory.names ||
        !directory_load(&log->directory, (const uint8_t *)PQgetvalue(head, 0, 0), (size_t)PQgetlength(head, 0, 0),
                        (const uint8_t *)PQgetvalue(head, 0, 1)))
        trouble("the log's directory in PostgreSQL was changed by hand");
    log->slots = number_at((const uint8_t *)PQgetvalue(head, 0, 2), 8);
    PQclear(head);
    if (log->slots > STOCKLOG_MOST_SLOTS)
        trouble("the log's number of slots in PostgreSQL was changed by hand");
}

struct store *postgres_open(const char *where)
{
    struct pg_store *pg = calloc(1, sizeof *pg);
    if (pg == NULL || (pg->where = strdup(where)) == NULL)
        trouble("no memory to open a log");
    pg->connection = connect_to(where);
    pg->store.calls = &pg_calls;
    read_head(pg);
    pg->store.log.bytes = calloc(pg->store.log.slots + 1, STOCKLOG_SLOT_SIZE);
    if (pg->store.log.bytes == NULL)
        trouble("no memory for a mirror of %llu slots", (unsigned long long)pg->store.log.slots);
    new_token(pg);
    pg_refresh(&pg->store);
    return &pg->store;
}

static void must(PGconn *connection, PGresult *result)
{
    if (PQresultStatus(result) != PGRES_COMMAND_OK)
        trouble("PostgreSQL does not make the log: %s", PQerrorMessage(connection));
    PQclear(result);
}

void postgres_create(const char *where, const struct directory *directory, uint64_t slots)
{
    PGconn *connection = connect_to(where);
    uint8_t count[8];
    const char *values[] = {(const char *)directory->bytes, (const char *)directory->names, (const char *)count};
    const int lengths[] = {(int)directory->len, sizeof directory->names, 8}, formats[] = {1, 1, 1};
    number_put(count, slots, 8);
    must(connection, PQexec(connection, "BEGIN"));
    must(connection, PQexec(connection, schema));
    must(connection, PQexecParams(connection, "INSERT INTO stocklog_log VALUES (true, $1::bytea, $2::bytea, $3::bigint)", 3, NULL, values,
                                  lengths, formats, 1));
    must(connection, PQexec(connection, "COMMIT"));
    PQfinish(connection);
}
