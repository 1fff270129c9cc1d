#include "commands.h"

#include "commits.h"
#include "decisions.h"
#include "prices.h"
#include "show.h"
#include "store.h"
#include "words.h"

#include <stdio.h>
#include <string.h>

typedef unsigned long long big;

/* ---- a log, made, looked at and judged ---- */

static int run_new(const struct arguments *arguments)
{
    struct directory directory;
    uint64_t slots;
    if (arguments->slots == NULL)
        usage_error("new: how many slots is said with --slots N");
    slots = asked_number("--slots", arguments->slots, STOCKLOG_MOST_SLOTS);
    if (arguments->directory == NULL)
        directory_eight(&directory);
    else
        directory_read(&directory, arguments->directory);
    store_create(arguments->words[0], &directory, slots);
    printf("a new log; slots: %llu, objects: %u\n", (big)slots, directory_count(&directory));
    return ENDS_DONE;
}

static uint32_t check(const struct log *log, uint64_t out[4])
{
    return stocklog_check(LOG_READ(log), out);
}

static int show_all(const struct log *log, const char *word)
{
    uint64_t out[4], offset, from = 0, to = log->tail;
    uint32_t result = check(log, out);
    if (result != STOCKLOG_DONE)
        return refused_log(log, result, out);
    if (word != NULL) {
        uint64_t entry[8];
        from = asked_number("an offset", word, UINT64_MAX);
        to = from + 1;
        result = stocklog_entry(LOG_READ(log), from, entry);
        if (result != STOCKLOG_DONE)
            return refused_offset(log, from, result, entry);
    } else {
        printf("%llu of %llu slots are used; objects: %u\n", (big)log->tail, (big)log->slots, directory_count(&log->directory));
    }
    for (offset = from; offset < to; offset++)
        show_entry(log, offset);
    return ENDS_DONE;
}

static int run_show(const struct arguments *arguments)
{
    struct store *store = store_open(arguments->words[0]);
    int ends = show_all(&store->log, arguments->count > 1 ? arguments->words[1] : NULL);
    store_close(store);
    return ends;
}

static int run_check(const struct arguments *arguments)
{
    struct store *store = store_open(arguments->words[0]);
    uint64_t out[4];
    uint32_t result = check(&store->log, out);
    int ends = result == STOCKLOG_DONE ? ENDS_DONE : refused_log(&store->log, result, out);
    if (result == STOCKLOG_DONE)
        printf("%llu of %llu slots are used, and every entry is good\n", (big)store->log.tail, (big)store->log.slots);
    store_close(store);
    return ends;
}

static int run_audit(const struct arguments *arguments)
{
    struct store *store = store_open(arguments->words[0]);
    uint64_t out[4];
    uint32_t result = audit_log(&store->log, out);
    int ends = result == STOCKLOG_DONE ? ENDS_DONE : refused_log(&store->log, result, out);
    if (result == STOCKLOG_DONE)
        printf("the audit passes; entries: %llu, cells: %llu\n", (big)store->log.tail, (big)out[2]);
    store_close(store);
    return ends;
}

/* ---- appends ---- */

static int append(struct store *store, const struct request *request)
{
    uint64_t out[4];
    uint32_t result = store_append(store, request, out);
    if (result != STOCKLOG_DONE)
        return refused_request(&store->log, request, result, out);
    printf("offset %llu", (big)out[0] - 1);
    if (request->kind == STOCKLOG_UPDATE && request->number == 0)
        printf(", version %llu", (big)out[0]);
    else if (request->kind == STOCKLOG_COMMIT && outcome_of(&store->log, out[0] - 1) == STOCKLOG_COMMITTED)
        printf(", committed: version %llu", (big)out[0]);
    else if (request->kind == STOCKLOG_COMMIT)
        printf(", aborted");
    printf("\n");
    return ENDS_DONE;
}

static uint32_t transaction(const struct arguments *arguments)
{
    return arguments->number == NULL ? 0 : (uint32_t)asked_number("--number", arguments->number, UINT32_MAX);
}

static int run_update(const struct arguments *arguments, uint32_t operation)
{
    struct store *store = store_open(arguments->words[0]);
    struct request request;
    int at, ends;
    request_start(&request, STOCKLOG_UPDATE, transaction(arguments));
    for (at = 1; at < arguments->count; at++) {
        struct asked_cell cell =
            asked_cell(&store->log.directory, arguments->words[at], operation == STOCKLOG_PUT ? '=' : '\0', UINT32_MAX);
        if (!request_write(&request, cell.object, cell.key, operation, (uint32_t)cell.number))
            usage_error("that is too many writes; an update has at most %d", STOCKLOG_MOST_ITEMS);
    }
    ends = append(store, &request);
    store_close(store);
    return ends;
}

static int run_put(const struct arguments *arguments)
{
    return run_update(arguments, STOCKLOG_PUT);
}

static int run_remove(const struct arguments *arguments)
{
    return run_update(arguments, STOCKLOG_REMOVE);
}

static int run_commit(const struct arguments *arguments)
{
    struct store *store = store_open(arguments->words[0]);
    struct request request;
    int ends;
    commit_ask(&request, &store->log.directory, arguments);
    ends = append(store, &request);
    store_close(store);
    return ends;
}

static int run_checkpoint(const struct arguments *arguments)
{
    struct store *store = store_open(arguments->words[0]);
    struct request request;
    int ends;
    request_start(&request, STOCKLOG_CHECKPOINT, 0);
    request.object = asked_object(&store->log.directory, arguments->words[1]);
    ends = append(store, &request);
    store_close(store);
    return ends;
}

/* ---- decisions ---- */

/* The sets of --host, as many as there are. */
static size_t asked_sets(const struct arguments *arguments, const struct log *log, uint64_t sets[MOST_HOSTS])
{
    int at;
    if (arguments->host_count == 0)
        usage_error("to whom a decision is owed is said with --host SET, once for each kind of replica");
    for (at = 0; at < arguments->host_count; at++)
        sets[at] = asked_set(&log->directory, arguments->hosts[at]);
    return (size_t)arguments->host_count;
}

static int run_owed(const struct arguments *arguments)
{
    struct store *store = store_open(arguments->words[0]);
    uint64_t sets[MOST_HOSTS], out[4];
    size_t count = asked_sets(arguments, &store->log, sets);
    uint32_t result = owed_to(&store->log, sets, count, out);
    int ends = result == STOCKLOG_DONE ? ENDS_DONE : refused_sets(&store->log, result, out);
    if (result == STOCKLOG_DONE && out[0] == 0)
        printf("nothing is owed\n");
    else if (result == STOCKLOG_DONE)
        printf("the commit record at offset %llu owes a decision record: it %s\n", (big)out[1],
               outcome_of(&store->log, out[1]) == STOCKLOG_COMMITTED ? "committed" : "aborted");
    store_close(store);
    return ends;
}

static void tell_paid(void *told, const struct request *decision, uint32_t result, const uint64_t out[4])
{
    (void)told;
    if (result == STOCKLOG_DONE)
        printf("offset %llu: the commit at offset %llu %s\n", (big)out[0] - 1, (big)decision->offset,
               decision->outcome == STOCKLOG_COMMITTED ? "committed" : "aborted");
}

static int decide_owed(struct store *store, const struct arguments *arguments)
{
    uint64_t sets[MOST_HOSTS], out[4];
    size_t count = asked_sets(arguments, &store->log, sets);
    struct request none;
    uint32_t result;
    if (arguments->count > 1)
        usage_error("decide --owed takes no offset");
    result = pay_owed(store, sets, count, tell_paid, NULL, out);
    request_start(&none, STOCKLOG_DECISION, 0);
    if (result == STOCKLOG_FULL)
        return refused_request(&store->log, &none, result, out);
    if (result != STOCKLOG_DONE)
        return refused_sets(&store->log, result, out);
    printf("nothing is owed\n");
    return ENDS_DONE;
}

/* The outcome that was said, or else the one that the log has. What is no commit record, the library refuses whatever the outcome. */
static uint32_t asked_outcome(const struct log *log, const struct arguments *arguments, uint64_t offset)
{
    uint64_t entry[8];
    if (arguments->count == 2)
        return stocklog_entry(LOG_READ(log), offset, entry) == STOCKLOG_DONE && entry[0] == STOCKLOG_COMMIT
                   ? outcome_of(log, offset)
                   : STOCKLOG_COMMITTED;
    if (strcmp(arguments->words[2], "commit") == 0)
        return STOCKLOG_COMMITTED;
    if (strcmp(arguments->words[2], "abort") != 0)
        usage_error("decide: an outcome is 'commit' or 'abort', or left out to be worked out from the log");
    return STOCKLOG_ABORTED;
}

static int run_decide(const struct arguments *arguments)
{
    struct store *store = store_open(arguments->words[0]);
    struct request request;
    int ends;
    if (arguments->owed) {
        ends = decide_owed(store, arguments);
    } else if (arguments->count < 2 || arguments->host_count > 0) {
        usage_error("decide: say an offset, or --owed with --host SET");
    } else {
        request_start(&request, STOCKLOG_DECISION, 0);
        request.offset = asked_number("an offset", arguments->words[1], UINT64_MAX);
        request.outcome = asked_outcome(&store->log, arguments, request.offset);
        ends = append(store, &request);
    }
    store_close(store);
    return ends;
}

/* ---- replicas ---- */

/* Opens a replica and plays it to --to, or to the tail. */
static uint32_t play(struct replica *replica, const struct log *log, uint64_t hosted, const char *to, uint64_t *stop)
{
    uint32_t result = replica_open(replica, log, hosted);
    *stop = to == NULL ? log->tail : asked_number("--to", to, UINT64_MAX);
    return result == STOCKLOG_DONE ? replica_play(replica, log, *stop) : result;
}

static int run_play(const struct arguments *arguments)
{
    struct store *store = store_open(arguments->words[0]);
    const struct log *log = &store->log;
    struct replica replica;
    uint64_t stop;
    uint32_t result;
    if (arguments->host_count == 0)
        usage_error("play: which objects is said with --host, as --host 2,5");
    result = play(&replica, log, asked_set(&log->directory, arguments->hosts[0]), arguments->to, &stop);
    if (result == STOCKLOG_DONE || result == STOCKLOG_WAITING) {
        printf("at offset %llu, cells: %llu\n", (big)replica.position, (big)replica.count);
        show_table(log, &replica);
    }
    if (result != STOCKLOG_DONE)
        refused_play(log, &replica, stop, result);
    replica_close(&replica);
    store_close(store);
    return result == STOCKLOG_DONE ? ENDS_DONE : ENDS_REFUSED;
}

static int price(const struct log *log, const struct replica *all, uint32_t object, const struct prices *prices)
{
    uint64_t out[4];
    char digits[DIGITS];
    uint32_t result = stocklog_price(LOG_DIRECTORY(log), all->hosted, all->position, all->count, all->table, all->table_len, object,
                                     prices->bytes, prices->len, out);
    if (result != STOCKLOG_DONE)
        return refused_price(log, object, result, out);
    show_total(digits, out[0], out[1]);
    printf("%s costs %s cents at offset %llu\n", directory_name(&log->directory, object), digits, (big)all->position);
    return ENDS_DONE;
}

static int run_price(const struct arguments *arguments)
{
    struct store *store = store_open(arguments->words[0]);
    const struct log *log = &store->log;
    uint32_t object = asked_object(&log->directory, arguments->words[1]), result;
    struct prices prices;
    struct replica all;
    uint64_t stop;
    int ends;
    prices_read(&prices, arguments->words[2]);
    result = play(&all, log, directory_all(&log->directory), arguments->to, &stop);
    ends = result == STOCKLOG_DONE ? price(log, &all, object, &prices) : refused_play(log, &all, stop, result);
    prices_free(&prices);
    replica_close(&all);
    store_close(store);
    return ends;
}

const struct command commands[] = {
    {"new", "FILE --slots N [--directory TEXT]",
     "Makes an empty log of N slots, at most 131072. The text file has an object a line: ID NAME map HIGHEST-KEY, or ID NAME\n"
     "register; ids ascend. Without one the log has the depots' eight. Slots and directory cannot be changed later.\n",
     WITH_SLOTS | WITH_DIRECTORY, 1, 1, run_new},
    {"show", "FILE [OFFSET]", "Shows the entry at an offset, or all, in words. 'back to' is where a stream's back-pointers lead.\n", 0, 1, 2, run_show},
    {"put", "FILE OBJECT:KEY=VALUE .. [--number T]",
     "Appends an update of up to 12 puts. With a number it is set aside until that transaction's commit.\n", WITH_NUMBER, 2, MOST_WORDS,
     run_put},
    {"remove", "FILE OBJECT:KEY .. [--number T]", "Appends an update of up to 12 removes. With a number it is set aside until that transaction's commit.\n",
     WITH_NUMBER, 2, MOST_WORDS, run_remove},
    {"commit", "FILE T [OBJECT:KEY@VERSION ..] [--after N[,M]]",
     "Appends the commit record of transaction T with what it has read: cells and the versions that 'play' showed, ascending by\n"
     "object, then key. It commits where each is still the cell's version. A refusal counts reads from 0. With --after it commits\n"
     "only if those transactions, one or two, have committed before it: a delivery after its order.\n",
     WITH_AFTER, 2, MOST_WORDS, run_commit},
    {"decide", "FILE OFFSET [commit|abort], or FILE --owed --host SET ..",
     "Appends the decision record of the commit record at an offset, with the outcome that the log has unless one is said. With\n"
     "--owed, appends all that are owed to replicas of the sets.\n",
     WITH_OWED | WITH_HOSTS, 1, 3, run_decide},
    {"checkpoint", "FILE OBJECT", "Appends a checkpoint of an object with at most 12 written cells.\n", 0, 2, 2, run_checkpoint},
    {"owed", "FILE --host SET ..", "Says which commit record, the lowest, owes a decision to replicas of one of the sets (up to 16), as --host 4 --host 2,5.\n",
     WITH_HOSTS, 1, 1, run_owed},
    {"play", "FILE --host SET [--to P]", "Plays a replica of a set of objects, as 2,5 or north,orders, to offset P or the tail, and shows its cells.\n",
     WITH_HOST | WITH_TO, 1, 1, run_play},
    {"audit", "FILE", "Plays everything, and compares each decision and checkpoint with the play.\n", 0, 1, 1, run_audit},
    {"price", "FILE OBJECT PRICES [--to P]",
     "Says what the cells of a map cost, each value a quantity, at offset P or the tail. The text file has a price a line:\n"
     "KEY CENTS, or KEY CENTS FROM-QUANTITY PERCENT-OFF; keys ascend.\n",
     WITH_TO, 3, 3, run_price},
    {"check", "FILE", "Judges every entry by the slot rules.\n", 0, 1, 1, run_check},
};

const int command_count = sizeof commands / sizeof commands[0];
