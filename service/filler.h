/* Long logs, made quickly: entries of the bytes that the library writes, without a check of the whole log for each. */
#ifndef SERVICE_FILLER_H
#define SERVICE_FILLER_H

#include "log.h"

/*
 * The slot of a plain update at an offset that puts one cell of an object. All entries below it from FIRST on that are STEP, twice STEP, ..
 * away are the object's, and no others.
 */
void fill_slot(uint8_t slot[STOCKLOG_SLOT_SIZE], uint64_t offset, uint64_t first, uint64_t step, uint32_t object, uint32_t key,
               uint32_t value);

#endif
