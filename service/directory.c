#include "directory.h"

#include "numbers.h"
#include "text.h"
#include "words.h"

#include <stdio.h>
#include <string.h>

static int is_name(const char *word)
{
    static const char allowed[] = "abcdefghijklmnopqrstuvwxyzABCDEFGHIJKLMNOPQRSTUVWXYZ0123456789-_";
    size_t len = strlen(word);
    return len > 0 && len < NAME_SIZE && strspn(word, allowed) == len && strspn(word, "0123456789") < len;
}

void directory_eight(struct directory *directory)
{
    static const char *const names[] = {"filters", "north", "south", "van", "orders", "next-order", "price-list", "stocktake"};
    unsigned place;
    memset(directory, 0, sizeof *directory);
    memcpy(directory->bytes, stocklog_eight, sizeof stocklog_eight);
    directory->len = sizeof stocklog_eight;
    for (place = 0; place < sizeof names / sizeof names[0]; place++)
        strcpy(directory->names[place], names[place]);
}

/* One line's record, put behind the others. */
static void add(struct directory *directory, const struct text *text, char *words[], int count)
{
    uint8_t *record = directory->bytes + directory->len;
    uint64_t id, highest = 0;
    int marked = count > 3 && strcmp(words[count - 1], "marked") == 0;
    int is_map = count > 2 && strcmp(words[2], "map") == 0;
    int due = (is_map ? 4 : 3) + marked;
    if (count < 3 || count != due || (!is_map && strcmp(words[2], "register") != 0))
        usage_error("%s, line %u: a line is ID NAME map HIGHEST-KEY, or ID NAME register, and then 'marked' or nothing", text->name, text->at);
    if (!text_number(words[0], UINT32_MAX, &id) || (is_map && !text_number(words[3], UINT32_MAX, &highest)))
        usage_error("%s, line %u: an id and a highest key are numbers of up to 32 bits", text->name, text->at);
    if (!is_name(words[1]) || directory_place(directory, words[1]) >= 0)
        usage_error("%s, line %u: the name %s is taken, or is not up to 31 letters, digits, '-' and '_' with one that is no digit", text->name,
                    text->at, words[1]);
    if (directory_count(directory) == STOCKLOG_MOST_OBJECTS)
        usage_error("%s, line %u: there are at most %d objects", text->name, text->at, STOCKLOG_MOST_OBJECTS);
    strcpy(directory->names[directory_count(directory)], words[1]);
    memset(record, 0, STOCKLOG_RECORD_SIZE);
    number_put(record, 0x4F42, 2);
    number_put(record + 4, id, 4);
    number_put(record + 8, highest, 4);
    record[12] = is_map ? STOCKLOG_MAP : STOCKLOG_REGISTER;
    record[13] = (uint8_t)marked;
    directory->len += STOCKLOG_RECORD_SIZE;
}

/* What the library says of a directory; out[3] is the place at fault. */
static uint32_t judge(const struct directory *directory, uint64_t out[4])
{
    return stocklog_open_fresh(directory->bytes, directory->len, 1, out);
}

void directory_read(struct directory *directory, const char *file)
{
    struct text text;
    char *words[6];
    unsigned lines[STOCKLOG_MOST_OBJECTS + 1] = {0};
    uint64_t out[4];
    int count;
    memset(directory, 0, sizeof *directory);
    text_open(&text, file);
    while ((count = text_next(&text, words, 6)) >= 0) {
        add(directory, &text, words, count);
        lines[directory_count(directory) - 1] = text.at;
    }
    text_close(&text);
    if (directory->len == 0)
        usage_error("%s has no object", file);
    if (judge(directory, out) != STOCKLOG_DONE)
        refused_directory(file, lines[out[3]], out[3]);
}

int directory_load(struct directory *directory, const uint8_t *bytes, size_t len, const uint8_t *names)
{
    uint64_t out[4];
    unsigned place;
    memset(directory, 0, sizeof *directory);
    if (len > sizeof directory->bytes)
        return 0;
    memcpy(directory->bytes, bytes, len);
    memcpy(directory->names, names, sizeof directory->names);
    directory->len = len;
    if (judge(directory, out) != STOCKLOG_DONE)
        return 0;
    for (place = 0; place < directory_count(directory); place++)
        if (memchr(directory->names[place], '\0', NAME_SIZE) == NULL || !is_name(directory->names[place]))
            return 0;
    return 1;
}

unsigned directory_count(const struct directory *directory)
{
    return (unsigned)(directory->len / STOCKLOG_RECORD_SIZE);
}

uint32_t directory_id(const struct directory *directory, unsigned place)
{
    return (uint32_t)number_at(directory->bytes + place * STOCKLOG_RECORD_SIZE + 4, 4);
}

uint32_t directory_highest(const struct directory *directory, unsigned place)
{
    return (uint32_t)number_at(directory->bytes + place * STOCKLOG_RECORD_SIZE + 8, 4);
}

int directory_place_of(const struct directory *directory, uint32_t id)
{
    unsigned place;
    for (place = 0; place < directory_count(directory); place++)
        if (directory_id(directory, place) == id)
            return (int)place;
    return -1;
}

int directory_place(const struct directory *directory, const char *word)
{
    unsigned place;
    uint64_t id;
    if (text_number(word, UINT32_MAX, &id))
        return directory_place_of(directory, (uint32_t)id);
    for (place = 0; place < directory_count(directory); place++)
        if (strcmp(directory->names[place], word) == 0)
            return (int)place;
    return -1;
}

const char *directory_name(const struct directory *directory, uint32_t id)
{
    static char other[NAME_SIZE];
    int place = directory_place_of(directory, id);
    if (place >= 0)
        return directory->names[place];
    snprintf(other, sizeof other, "object %lu", (unsigned long)id);
    return other;
}

uint64_t directory_all(const struct directory *directory)
{
    return UINT64_MAX >> (64 - directory_count(directory));
}
