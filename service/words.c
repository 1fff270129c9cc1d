#include "words.h"

#include "commits.h"
#include "entry.h"
#include "numbers.h"

#include <stdarg.h>
#include <stdio.h>
#include <stdlib.h>
#include <string.h>

/* What a server says may end in empty lines, which are left out. */
static void say(const char *format, va_list words)
{
    char said[2048];
    size_t len;
    vsnprintf(said, sizeof said, format, words);
    for (len = strlen(said); len > 0 && said[len - 1] == '\n'; len--)
        said[len - 1] = '\0';
    fprintf(stderr, "stocklog: %s\n", said);
}

void usage_error(const char *format, ...)
{
    va_list words;
    va_start(words, format);
    say(format, words);
    va_end(words);
    exit(ENDS_USAGE);
}

void trouble(const char *format, ...)
{
    va_list words;
    va_start(words, format);
    say(format, words);
    va_end(words);
    exit(ENDS_TROUBLE);
}

__attribute__((format(printf, 2, 3))) static int refused(uint32_t result, const char *format, ...)
{
    va_list words;
    va_start(words, format);
    fflush(stdout); /* what was done comes first */
    fprintf(stderr, "refused %lu: ", (unsigned long)result);
    vfprintf(stderr, format, words);
    fputc('\n', stderr);
    va_end(words);
    return ENDS_REFUSED;
}

typedef unsigned long long big;

void refused_directory(const char *file, unsigned line, uint64_t place)
{
    exit(refused(STOCKLOG_DIRECTORY, "place %llu of the directory, %s, line %u: ids go from 1 to 2147483647 and ascend, and the highest key of a map is at most 4294967294",
                 (big)place, file, line));
}

int refused_log(const struct log *log, uint32_t result, const uint64_t *out)
{
    switch (result) {
    case STOCKLOG_FRAME:
        return refused(result, "the log is not whole slots, has over %d of them, or its tail %llu is above them", STOCKLOG_MOST_SLOTS,
                       (big)log->tail);
    case STOCKLOG_BAD_ENTRY:
        return refused(result, "the entry at offset %llu breaks the slot rules: it was not made by the library with this directory, or was changed since",
                       (big)out[3]);
    case STOCKLOG_FALSE_RECORD:
        return refused(result, "the decision or checkpoint at offset %llu is not as played: whoever wrote it did not work it out from the log",
                       (big)out[3]);
    case STOCKLOG_DIRECTORY:
        return refused(result, "place %llu of the directory breaks its rules", (big)out[3]);
    case STOCKLOG_BEHIND:
        return refused(result, "a checkpoint is taken from a replica at the tail %llu", (big)log->tail);
    case STOCKLOG_BAD_REPLICA:
        return refused(result, "a hosted set has at least one object, and only objects of the directory");
    default:
        return refused(result, "the library does not do it");
    }
}

int refused_offset(const struct log *log, uint64_t offset, uint32_t result, const uint64_t *out)
{
    if (result == STOCKLOG_BAD_REQUEST)
        return refused(result, "there is no entry at offset %llu: the tail is %llu", (big)offset, (big)log->tail);
    return refused_log(log, result, out);
}

int refused_sets(const struct log *log, uint32_t result, const uint64_t *out)
{
    if (result == STOCKLOG_BAD_REQUEST)
        return refused(result, "decisions are owed to at most %d sets, each of at least one object", STOCKLOG_MOST_SETS);
    return refused_log(log, result, out);
}

/* Refusals of a play: the replica stands at the entry where it ended. */
int refused_play(const struct log *log, const struct replica *replica, uint64_t stop, uint32_t result)
{
    uint64_t out[4] = {0, 0, 0, replica->told};
    struct entry entry;
    char why[96];
    if (result == STOCKLOG_BAD_REQUEST)
        return refused(result, "the stop %llu is above the tail %llu", (big)stop, (big)log->tail);
    if (result != STOCKLOG_WAITING)
        return refused_log(log, result, out);
    entry_at(&entry, log, replica->position);
    commit_waits(why, sizeof why, log, &entry, replica->hosted);
    return refused(result, "waiting at offset %llu, the commit of %lu: %s, and no decision record names it yet", (big)replica->position,
                   (unsigned long)entry.number, why);
}

int refused_price(const struct log *log, uint32_t object, uint32_t result, const uint64_t *out)
{
    if (result == STOCKLOG_NO_PRICE)
        return refused(result, "(%lu,%llu) has a quantity over 0 and no price in the list", (unsigned long)object, (big)out[3]);
    if (result == STOCKLOG_BAD_REQUEST)
        return refused(result, "object %lu is no map, or a price breaks the rules: keys ascend, at most 9999999 cents and 100 percent",
                       (unsigned long)object);
    return refused_log(log, result, out);
}

/* ---- refusals of an append ---- */

/* Read number PLACE of a commit that is astray. */
static int refused_astray(const struct request *request, const uint64_t *out)
{
    const uint8_t *item = request->items + out[3] * STOCKLOG_ITEM_SIZE;
    return refused(STOCKLOG_ASTRAY, "read %llu points to offset %llu, which does not write (%lu,%lu)", (big)out[3],
                   (big)number_at(item + 8, 8) - 1, (unsigned long)number_at(item, 4), (unsigned long)number_at(item + 4, 4));
}

/* The first item whose cell the directory does not have; 0 where there is none. */
static int foreign_cell(const struct log *log, const struct request *request)
{
    size_t at;
    for (at = 0; at < request->items_len; at += STOCKLOG_ITEM_SIZE) {
        uint32_t object = (uint32_t)number_at(request->items + at, 4), key = (uint32_t)number_at(request->items + at + 4, 4);
        int place = directory_place_of(&log->directory, object);
        if (place < 0)
            return refused(STOCKLOG_BAD_REQUEST, "object %lu is not in the directory", (unsigned long)object);
        if (key > directory_highest(&log->directory, (unsigned)place))
            return refused(STOCKLOG_BAD_REQUEST, "there is no cell (%lu,%lu): the keys of %s go to %lu", (unsigned long)object,
                           (unsigned long)key, directory_name(&log->directory, object),
                           (unsigned long)directory_highest(&log->directory, (unsigned)place));
    }
    return 0;
}

static int refused_argument(const struct log *log, const struct request *request)
{
    static const uint32_t number = STOCKLOG_BAD_REQUEST;
    char what[128];
    if (foreign_cell(log, request) != 0)
        return ENDS_REFUSED;
    if (commit_misnames(what, sizeof what, request))
        return refused(number, "%s", what);
    switch (request->kind) {
    case STOCKLOG_UPDATE:
        return refused(number, "an update has 1 to 12 writes");
    case STOCKLOG_COMMIT:
        return refused(number, "a commit has a number over 0 and up to 12 reads, ascending by object, then key, of versions up to the tail %llu",
                       (big)log->tail);
    case STOCKLOG_DECISION:
        return refused(number, "there is no entry at offset %llu: the tail is %llu", (big)request->offset, (big)log->tail);
    default:
        return refused(number, "object %lu is not in the directory", (unsigned long)request->object);
    }
}

int refused_request(const struct log *log, const struct request *request, uint32_t result, const uint64_t *out)
{
    unsigned long number = request->number;
    switch (result) {
    case STOCKLOG_BAD_REQUEST:
        return refused_argument(log, request);
    case STOCKLOG_CLOSED:
        return refused(result, "transaction %lu has a commit record already: take another number", number);
    case STOCKLOG_WIDE:
        if (number == 0)
            return refused(result, "the update writes more than four objects");
        return refused(result, "the update, or transaction %lu with it, writes more than four objects", number);
    case STOCKLOG_EMPTY:
        return refused(result, "transaction %lu has no update that it could commit", number);
    case STOCKLOG_NO_COMMIT:
        return refused(result, "the entry at offset %llu is no commit record", (big)request->offset);
    case STOCKLOG_DECIDED:
        return refused(result, "the commit record at offset %llu has a decision record already", (big)request->offset);
    case STOCKLOG_FULL:
        return refused(result, "all %llu slots are used: the log is full", (big)log->slots);
    case STOCKLOG_NO_ROOM:
        return refused(result, "object %lu has more than 12 written cells, and a checkpoint has room for 12", (unsigned long)request->object);
    case STOCKLOG_ASTRAY:
        return refused_astray(request, out);
    default:
        return refused_log(log, result, out);
    }
}
