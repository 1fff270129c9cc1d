#include "commits.h"

#include "text.h"
#include "words.h"

#include <stdio.h>
#include <stdlib.h>
#include <string.h>

/* A number of --after. 0 would stand for none. */
static uint32_t asked_name(const char *after, const char *word)
{
    uint64_t number;
    if (!text_number(word, UINT32_MAX, &number) || number == 0)
        usage_error("commit: --after asks for the number of one transaction or two, as 9 or 9,11, and %s is neither", after);
    return (uint32_t)number;
}

/* "N" or "N,M". */
static void ask_names(struct request *request, const char *after)
{
    char *copy = strdup(after), *second;
    if (copy == NULL)
        trouble("no memory for the words of the command");
    second = strchr(copy, ',');
    if (second != NULL) {
        *second++ = '\0';
        request->second = asked_name(after, second);
    }
    request->first = asked_name(after, copy);
    free(copy);
}

void commit_ask(struct request *request, const struct directory *directory, const struct arguments *arguments)
{
    int at;
    request_start(request, STOCKLOG_COMMIT, (uint32_t)asked_number("a transaction's number", arguments->words[1], UINT32_MAX));
    for (at = 2; at < arguments->count; at++) {
        struct asked_cell read = asked_cell(directory, arguments->words[at], '@', UINT64_MAX);
        if (!request_read(request, read.object, read.key, read.number))
            usage_error("commit: that is too many reads; a commit record has at most %d", STOCKLOG_MOST_ITEMS);
    }
    if (arguments->after != NULL)
        ask_names(request, arguments->after);
}

uint32_t commit_make(const struct request *request, struct log *log, uint64_t out[4])
{
    return stocklog_append_commit(LOG_WRITE(log), request->number, request->items, request->items_len, request->first,
                                  request->second, out);
}

void commit_show(const struct log *log, const struct entry *entry)
{
    unsigned place;
    if (entry->second != 0)
        printf("  after    transactions %lu and %lu\n", (unsigned long)entry->first, (unsigned long)entry->second);
    else if (entry->first != 0)
        printf("  after    transaction %lu\n", (unsigned long)entry->first);
    for (place = 0; place < entry->items; place++) {
        struct read read = entry_read(entry, place);
        printf("  reads    %s:%lu version %llu", directory_name(&log->directory, read.object), (unsigned long)read.key,
               (unsigned long long)read.version);
        if (read.version == 0)
            printf(", never written\n");
        else
            printf(", of offset %llu\n", (unsigned long long)read.version - 1);
    }
}

int commit_misnames(char *what, size_t room, const struct request *request)
{
    unsigned long first = request->first, second = request->second;
    if (second != 0 && first >= second)
        return snprintf(what, room, "the two numbers of --after ascend, and %lu is not below %lu", first, second) > 0;
    if (request->number != 0 && (request->first == request->number || request->second == request->number))
        return snprintf(what, room, "transaction %lu cannot come after itself", (unsigned long)request->number) > 0;
    return 0;
}

void commit_waits(char *why, size_t room, const struct log *log, const struct entry *entry, uint64_t hosted)
{
    unsigned place;
    if (entry->first != 0) {
        snprintf(why, room, "it comes after %lu, so only a replica of every object decides it alone", (unsigned long)entry->first);
        return;
    }
    snprintf(why, room, "it reads what is not hosted");
    for (place = entry->items; place-- > 0;) {
        struct read read = entry_read(entry, place);
        int at = directory_place_of(&log->directory, read.object);
        if (at >= 0 && (hosted >> at & 1) == 0)
            snprintf(why, room, "it reads (%lu,%lu), which is not hosted", (unsigned long)read.object, (unsigned long)read.key);
    }
}
