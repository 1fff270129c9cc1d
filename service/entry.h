/*
 * An entry as its slot has it (docs/SPECIFICATION.md, 2.4). Every call of the library checks the whole log, so whoever looks at many
 * entries has the log checked once and then reads the slots themselves. The tests hold this reading to stocklog_entry, stocklog_header
 * and stocklog_items.
 */
#ifndef SERVICE_ENTRY_H
#define SERVICE_ENTRY_H

#include "log.h"

enum { MOST_HEADERS = 4, MOST_BACK = 4 };

struct entry {
    uint64_t offset;
    int kind; /* STOCKLOG_UPDATE .. */
    uint32_t number;
    uint32_t first, second; /* the numbers that a commit record names; 0 for none, and for all other entries */
    unsigned headers, items;
    uint32_t object[MOST_HEADERS];
    unsigned format[MOST_HEADERS];
    uint64_t pointers[MOST_HEADERS]; /* the stored 8 bytes */
    const uint8_t *item;             /* the first item's bytes, in the log */
};

/* The entry at an offset below the tail, of a log that the check has passed. */
void entry_at(struct entry *entry, const struct log *log, uint64_t offset);

/* Where a header's back-pointers lead, nearest first; how many there are. */
unsigned entry_back(const struct entry *entry, unsigned header, uint64_t back[MOST_BACK]);

/* An item's fields, as each kind of entry has them. */
struct write { uint32_t object, key, operation, value; };
struct read { uint32_t object, key; uint64_t version; };
struct decision { uint64_t offset; uint32_t outcome; };
struct cell { uint32_t key, value; uint64_t version; int removed; };

struct write entry_write(const struct entry *entry, unsigned place);
struct read entry_read(const struct entry *entry, unsigned place);
struct decision entry_decision(const struct entry *entry);
struct cell entry_cell(const struct entry *entry, unsigned place);

/* The nearest update of a number below an offset; 0 where there is none. */
int entry_update_below(struct entry *entry, const struct log *log, uint32_t number, uint64_t offset);

#endif
