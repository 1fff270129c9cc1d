#include "decisions.h"

#include "entry.h"

uint32_t outcome_of(const struct log *log, uint64_t commit)
{
    struct replica all;
    struct entry entry;
    struct write write;
    uint64_t shown[4];
    entry_at(&entry, log, commit);
    entry_update_below(&entry, log, entry.number, commit); /* a commit record has one */
    write = entry_write(&entry, 0);
    replica_open(&all, log, directory_all(&log->directory));
    replica_play(&all, log, commit + 1);
    replica_cell(&all, log, write.object, write.key, shown);
    replica_close(&all);
    /* Each cell that the transaction writes has the commit record's version exactly where it committed. */
    return shown[2] == commit + 1 ? STOCKLOG_COMMITTED : STOCKLOG_ABORTED;
}

uint32_t owed_to(const struct log *log, const uint64_t *sets, size_t count, uint64_t out[4])
{
    return stocklog_owed(LOG_READ(log), sets, count, out);
}

uint32_t pay_owed(struct store *store, const uint64_t *sets, size_t count, paid_fn *paid, void *told, uint64_t out[4])
{
    for (;;) {
        struct request decision;
        uint32_t result = owed_to(&store->log, sets, count, out);
        if (result != STOCKLOG_DONE || out[0] == 0)
            return result;
        request_start(&decision, STOCKLOG_DECISION, 0);
        decision.offset = out[1];
        decision.outcome = outcome_of(&store->log, decision.offset);
        result = store_append(store, &decision, out);
        paid(told, &decision, result, out);
        if (result != STOCKLOG_DONE && result != STOCKLOG_DECIDED)
            return result;
    }
}
