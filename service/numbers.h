/* Numbers in bytes, most significant byte first, as slots, items, tables, directories and prices have them. */
#ifndef SERVICE_NUMBERS_H
#define SERVICE_NUMBERS_H

#include <stdint.h>

static inline uint64_t number_at(const uint8_t *bytes, int width)
{
    uint64_t value = 0;
    while (width-- > 0)
        value = value << 8 | *bytes++;
    return value;
}

static inline void number_put(uint8_t *bytes, uint64_t value, int width)
{
    while (width-- > 0)
        *bytes++ = (uint8_t)(value >> (8 * width));
}

#endif
