/* A list of prices. People write a text file, one price a line: KEY CENTS, or KEY CENTS FROM-QUANTITY PERCENT-OFF. */
#ifndef SERVICE_PRICES_H
#define SERVICE_PRICES_H

#include <stddef.h>
#include <stdint.h>

struct prices {
    uint8_t *bytes; /* records of 20 bytes, as stocklog_price takes them */
    size_t len;
};

/* A line that cannot be read ends the program with status 2. What the numbers may be is for the library to judge. */
void prices_read(struct prices *prices, const char *file);
void prices_free(struct prices *prices);

#endif
