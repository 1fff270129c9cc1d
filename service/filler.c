#include "filler.h"

#include "numbers.h"

#include <string.h>

void fill_slot(uint8_t slot[STOCKLOG_SLOT_SIZE], uint64_t offset, uint64_t first, uint64_t step, uint32_t object, uint32_t key,
               uint32_t value)
{
    unsigned back;
    memset(slot, 0, STOCKLOG_SLOT_SIZE);
    number_put(slot, 0x5550, 2);
    slot[2] = slot[3] = 1;
    number_put(slot + 8, object, 4);
    for (back = 1; back <= 4 && offset >= first + back * step; back++)
        number_put(slot + 12 + 2 * (back - 1), back * step, 2);
    number_put(slot + 56, object, 4);
    number_put(slot + 60, key, 4);
    number_put(slot + 64, STOCKLOG_PUT, 4);
    number_put(slot + 68, value, 4);
}
