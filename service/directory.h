/*
 * Which objects a log has, and what they are called. The library is handed the bytes; people write a text file, one object a line:
 *
 *     # id  name      kind      highest key
 *     2     north     map       499
 *     6     order     register              marked
 *
 * A name is up to 31 letters, digits, '-' and '_', and not all digits. "marked" may stand at the end of a line. Ids ascend.
 */
#ifndef SERVICE_DIRECTORY_H
#define SERVICE_DIRECTORY_H

#include "stocklog.h"

#include <stddef.h>
#include <stdint.h>

enum { NAME_SIZE = 32 };

struct directory {
    uint8_t bytes[STOCKLOG_MOST_OBJECTS * STOCKLOG_RECORD_SIZE];
    size_t len;
    char names[STOCKLOG_MOST_OBJECTS][NAME_SIZE]; /* by place; each ends in a zero byte */
};

/* The depots' eight. */
void directory_eight(struct directory *directory);

/* Reads a text file. A line that cannot be read ends the program with status 2, a directory that the library refuses with status 1. */
void directory_read(struct directory *directory, const char *file);

/* The bytes and names as a log's storage has them. Returns 0 where they are no directory. */
int directory_load(struct directory *directory, const uint8_t *bytes, size_t len, const uint8_t *names);

/* How many objects there are, and the id and the highest key of the one at a place. */
unsigned directory_count(const struct directory *directory);
uint32_t directory_id(const struct directory *directory, unsigned place);
uint32_t directory_highest(const struct directory *directory, unsigned place);

/* The place of the object with a name, or with an id in digits; -1 where there is none. */
int directory_place(const struct directory *directory, const char *word);
int directory_place_of(const struct directory *directory, uint32_t id);

/* An object's name, or "object N" for an id that is not there; the latter stands in a buffer of the function's own. */
const char *directory_name(const struct directory *directory, uint32_t id);

/* The set of all objects. */
uint64_t directory_all(const struct directory *directory);

#endif
