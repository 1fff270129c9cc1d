/* Who decides: any process that has the log. An outcome is worked out from the log, so whoever does it says the same. */
#ifndef SERVICE_DECISIONS_H
#define SERVICE_DECISIONS_H

#include "store.h"

/* STOCKLOG_COMMITTED or STOCKLOG_ABORTED, of the commit record at an offset of a log that the check has passed. */
uint32_t outcome_of(const struct log *log, uint64_t commit);

/* The lowest commit record that owes a decision to one of the sets. Returns the library's number; out as stocklog_owed has it. */
uint32_t owed_to(const struct log *log, const uint64_t *sets, size_t count, uint64_t out[4]);

/*
 * Appends all decisions that are owed to the sets. Where somebody else gave one first, that one stands. Each decision that was appended,
 * or refused, is told to paid with its result and out. Returns STOCKLOG_DONE, or the refusal that stopped it.
 */
typedef void paid_fn(void *told, const struct request *decision, uint32_t result, const uint64_t out[4]);
uint32_t pay_owed(struct store *store, const uint64_t *sets, size_t count, paid_fn *paid, void *told, uint64_t out[4]);

#endif
