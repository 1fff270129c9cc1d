/* At the end: the log beside what the depots tried. */
#include "decisions.h"
#include "entry.h"
#include "many.h"
#include "replica.h"

#include <stdio.h>
#include <stdlib.h>

enum { KINDS = 5, MARKS = (MOST_DEPOTS + 1) << 16 };

/* By kind and mark: one more than the offset of the entry that has it; 0 where none has. */
static uint32_t *found[KINDS];

static uint32_t mark_of(const struct entry *entry)
{
    switch (entry->kind) {
    case STOCKLOG_UPDATE:
        return entry_write(entry, 0).value;
    case STOCKLOG_COMMIT:
        return entry->number;
    default:
        return (uint32_t)entry_decision(entry).offset;
    }
}

static void find_entries(const struct log *log)
{
    uint64_t offset;
    int kind;
    for (kind = 0; kind < KINDS; kind++)
        if ((found[kind] = calloc(MARKS, sizeof **found)) == NULL)
            wrong("no memory to compare");
    for (offset = 0; offset < log->tail; offset++) {
        struct entry entry;
        entry_at(&entry, log, offset);
        if (entry.kind == STOCKLOG_CHECKPOINT || mark_of(&entry) >= MARKS)
            wrong("nobody tried the entry at %llu", (unsigned long long)offset);
        if (found[entry.kind][mark_of(&entry)] != 0)
            wrong("the entry at %llu is there twice", (unsigned long long)offset);
        found[entry.kind][mark_of(&entry)] = (uint32_t)offset + 1;
    }
}

/* How many attempts ended how. */
struct sums { unsigned done, refused, unknown, unknown_in; };

/* An attempt was acknowledged: it is where it was said to be. Refused: it is nowhere. Killed before either: once or not at all. */
static void judge(const struct attempt *attempt, struct sums *sums)
{
    uint32_t *place = &found[attempt->kind][attempt->mark];
    switch (atomic_load(&attempt->state)) {
    case ATTEMPT_DONE:
        if (*place != attempt->offset + 1)
            wrong("the append of kind %d, mark %lu, acknowledged at %llu, is not there", attempt->kind, (unsigned long)attempt->mark,
                  (unsigned long long)attempt->offset);
        sums->done++;
        break;
    case ATTEMPT_REFUSED:
        if (*place != 0)
            wrong("the append of kind %d, mark %lu, was refused and is there", attempt->kind, (unsigned long)attempt->mark);
        sums->refused++;
        break;
    default:
        if (*place != 0 && attempt->due != 0)
            wrong("the append of kind %d, mark %lu, must be refused and is there", attempt->kind, (unsigned long)attempt->mark);
        sums->unknown++;
        sums->unknown_in += *place != 0;
    }
    if (attempt->kind != STOCKLOG_DECISION)
        *place = 0; /* accounted for */
}

/* ---- commits that name numbers ---- */

/* Whether a number has committed below an offset, as a replica of everything has it. */
static int committed_below(const struct log *log, uint32_t number, uint64_t offset)
{
    uint32_t place = number < MARKS ? found[STOCKLOG_COMMIT][number] : 0;
    return place != 0 && place - 1 < offset && outcome_of(log, place - 1) == STOCKLOG_COMMITTED;
}

/* Of those that name numbers: none commits unless all these have, and one without reads commits if they have. */
static void judge_names(const struct log *log)
{
    unsigned counts[2] = {0, 0};
    uint64_t offset;
    for (offset = 0; offset < log->tail; offset++) {
        struct entry entry;
        int after, done;
        entry_at(&entry, log, offset);
        if (entry.first == 0)
            continue;
        after = committed_below(log, entry.first, offset) && (entry.second == 0 || committed_below(log, entry.second, offset));
        done = outcome_of(log, offset) == STOCKLOG_COMMITTED;
        if (done ? !after : after && entry.items == 0)
            wrong("the commit at %llu, after %lu and %lu, %s", (unsigned long long)offset, (unsigned long)entry.first,
                  (unsigned long)entry.second, done ? "committed" : "aborted");
        counts[done]++;
    }
    if (counts[0] == 0 || counts[1] == 0)
        wrong("of commits that name numbers %u committed and %u aborted; both were to be tried", counts[1], counts[0]);
    printf("of the commits that name numbers %u committed, all those without reads whose numbers had; %u aborted\n", counts[1], counts[0]);
}

static void judge_log(const struct log *log)
{
    uint64_t out[4];
    uint32_t result = stocklog_check(LOG_READ(log), out);
    if (result != STOCKLOG_DONE)
        wrong("the check answers %lu at %llu", (unsigned long)result, (unsigned long long)out[3]);
    result = audit_log(log, out);
    if (result != STOCKLOG_DONE)
        wrong("the audit answers %lu at %llu", (unsigned long)result, (unsigned long long)out[3]);
    result = stocklog_owed(LOG_READ(log), van_sets, VANS, out);
    if (result != STOCKLOG_DONE || out[0] != 0)
        wrong("at the end something is owed, at %llu", (unsigned long long)out[1]);
}

void account(const struct many *many, const struct log *log)
{
    struct sums sums = {0, 0, 0, 0};
    unsigned depot, decisions = 0;
    uint32_t at, mark;
    int kind;
    judge_log(log);
    find_entries(log);
    judge_names(log);
    for (mark = 0; mark < MARKS; mark++)
        decisions += found[STOCKLOG_DECISION][mark] != 0;
    for (depot = 0; depot < many->depot_count; depot++) {
        if (many->depots[depot].done < many->appends)
            wrong("depot %u has %lu acknowledged appends", depot, (unsigned long)many->depots[depot].done);
        for (at = 0; at < many->depots[depot].tried; at++)
            judge(&many->depots[depot].attempts[at], &sums);
    }
    for (kind = 0; kind < KINDS; kind++) {
        for (mark = 0; mark < MARKS; mark++)
            if (found[kind][mark] != 0 && kind != STOCKLOG_DECISION)
                wrong("nobody tried the entry at %lu", (unsigned long)found[kind][mark] - 1);
        free(found[kind]);
    }
    printf("%llu entries, %u of them decisions: all %u acknowledged appends are there once, at their offsets, and none of %u refused ones; of %u that a kill cut off, %u are there; the audit passes and nothing is owed\n",
           (unsigned long long)log->tail, decisions, sums.done, sums.refused, sums.unknown, sums.unknown_in);
}
