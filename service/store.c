#include "store.h"

#include "words.h"

#include <string.h>

/* The connection string of a place on PostgreSQL, or NULL for a file. */
static const char *connection(const char *place)
{
    static const char prefix[] = "postgres:";
    return strncmp(place, prefix, sizeof prefix - 1) == 0 ? place + sizeof prefix - 1 : NULL;
}

#ifndef WITH_POSTGRES
_Noreturn static void without(void)
{
    trouble("this program was built without PostgreSQL: install libpq-dev and build it with 'service/build --postgres'");
}

void postgres_create(const char *where, const struct directory *directory, uint64_t slots)
{
    (void)where, (void)directory, (void)slots;
    without();
}

struct store *postgres_open(const char *where)
{
    (void)where;
    without();
}
#endif

void store_create(const char *place, const struct directory *directory, uint64_t slots)
{
    if (connection(place) != NULL)
        postgres_create(connection(place), directory, slots);
    else
        file_create(place, directory, slots);
}

struct store *store_open(const char *place)
{
    return connection(place) != NULL ? postgres_open(connection(place)) : file_open(place);
}

void store_refresh(struct store *store)
{
    store->calls->refresh(store);
}

uint32_t store_append(struct store *store, const struct request *request, uint64_t out[4])
{
    return store->calls->append(store, request, out);
}

void store_close(struct store *store)
{
    store->calls->close(store);
}
