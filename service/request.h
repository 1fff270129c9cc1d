/* One append, as asked for. It is made anew on each log that it meets: the same arguments, on whatever the tail then is. */
#ifndef SERVICE_REQUEST_H
#define SERVICE_REQUEST_H

#include "log.h"
#include "replica.h"

enum { MOST_HANDED = 16 }; /* items that a request can hold; the library accepts 12 */

struct request {
    int kind;        /* STOCKLOG_UPDATE .. STOCKLOG_CHECKPOINT */
    uint32_t number; /* of an update, 0 for a plain one, and of a commit */
    uint8_t items[MOST_HANDED * STOCKLOG_ITEM_SIZE]; /* writes of an update, reads of a commit */
    size_t items_len;
    uint32_t first, second; /* numbers that a commit names: it may commit only after them; 0 for none */
    uint64_t offset; /* of the commit record that is decided */
    uint32_t outcome;
    uint32_t object; /* of a checkpoint */
};

void request_start(struct request *request, int kind, uint32_t number);

/* One more write or read. Returns 0 where no more can be held. */
int request_write(struct request *request, uint32_t object, uint32_t key, uint32_t operation, uint32_t value);
int request_read(struct request *request, uint32_t object, uint32_t key, uint64_t version);

/* Makes the entry at the log's tail. Returns the library's number; out[0] is the new tail. The log's own tail is not moved. */
uint32_t request_make(const struct request *request, struct log *log, uint64_t out[4]);

#endif
