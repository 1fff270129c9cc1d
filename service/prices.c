#include "prices.h"

#include "numbers.h"
#include "stocklog.h"
#include "text.h"
#include "words.h"

#include <stdlib.h>
#include <string.h>

static void add(struct prices *prices, const struct text *text, char *words[], int count)
{
    uint64_t values[4] = {0, 0, 0, 0};
    uint8_t *bytes = realloc(prices->bytes, prices->len + STOCKLOG_PRICE_SIZE), *record;
    int at;
    if (bytes == NULL)
        trouble("no memory for the prices of %s", text->name);
    prices->bytes = bytes;
    if (count != 2 && count != 4)
        usage_error("%s, line %u: a line is KEY CENTS, or KEY CENTS FROM-QUANTITY PERCENT-OFF", text->name, text->at);
    for (at = 0; at < count; at++)
        if (!text_number(words[at], UINT32_MAX, &values[at]))
            usage_error("%s, line %u: %s is no number of up to 32 bits", text->name, text->at, words[at]);
    record = bytes + prices->len;
    memset(record, 0, STOCKLOG_PRICE_SIZE);
    number_put(record, 0x5052, 2);
    for (at = 0; at < 4; at++)
        number_put(record + 4 + 4 * at, values[at], 4);
    prices->len += STOCKLOG_PRICE_SIZE;
}

void prices_read(struct prices *prices, const char *file)
{
    struct text text;
    char *words[4];
    int count;
    memset(prices, 0, sizeof *prices);
    text_open(&text, file);
    while ((count = text_next(&text, words, 4)) >= 0)
        add(prices, &text, words, count);
    text_close(&text);
}

void prices_free(struct prices *prices)
{
    free(prices->bytes);
}
