#include "show.h"

#include "commits.h"
#include "entry.h"
#include "numbers.h"

#include <stdio.h>
#include <string.h>

typedef unsigned long long big;

static void show_writes(const struct log *log, const struct entry *entry)
{
    unsigned place;
    for (place = 0; place < entry->items; place++) {
        struct write write = entry_write(entry, place);
        const char *name = directory_name(&log->directory, write.object);
        if (write.operation == STOCKLOG_PUT)
            printf("  puts     %s:%lu = %lu\n", name, (unsigned long)write.key, (unsigned long)write.value);
        else
            printf("  removes  %s:%lu\n", name, (unsigned long)write.key);
    }
}

static void show_cells(const struct log *log, const struct entry *entry)
{
    unsigned place;
    for (place = 0; place < entry->items; place++) {
        struct cell cell = entry_cell(entry, place);
        printf("  cell     %s:%lu ", directory_name(&log->directory, entry->object[0]), (unsigned long)cell.key);
        if (cell.removed)
            printf("removed, version %llu\n", (big)cell.version);
        else
            printf("= %lu, version %llu\n", (unsigned long)cell.value, (big)cell.version);
    }
}

/* The streams that the entry is in, and where their back-pointers lead. */
static void show_streams(const struct log *log, const struct entry *entry)
{
    unsigned header, at, count;
    for (header = 0; header < entry->headers; header++) {
        uint64_t back[MOST_BACK];
        printf("  stream   %s", directory_name(&log->directory, entry->object[header]));
        count = entry_back(entry, header, back);
        if (count == 0)
            printf(", its first entry");
        for (at = 0; at < count; at++)
            printf("%s%llu", at == 0 ? ", back to " : ", ", (big)back[at]);
        printf("%s\n", entry->format[header] == 1 ? ", far below" : "");
    }
}

void show_entry(const struct log *log, uint64_t offset)
{
    struct entry entry;
    struct decision decision;
    entry_at(&entry, log, offset);
    switch (entry.kind) {
    case STOCKLOG_UPDATE:
        if (entry.number == 0)
            printf("offset %llu: plain update\n", (big)offset);
        else
            printf("offset %llu: update of %lu\n", (big)offset, (unsigned long)entry.number);
        show_writes(log, &entry);
        break;
    case STOCKLOG_COMMIT:
        printf("offset %llu: commit of %lu\n", (big)offset, (unsigned long)entry.number);
        commit_show(log, &entry);
        break;
    case STOCKLOG_DECISION:
        decision = entry_decision(&entry);
        printf("offset %llu: decision of %lu, whose commit at offset %llu %s\n", (big)offset, (unsigned long)entry.number,
               (big)decision.offset, decision.outcome == STOCKLOG_COMMITTED ? "committed" : "aborted");
        break;
    default:
        printf("offset %llu: checkpoint of %s\n", (big)offset, directory_name(&log->directory, entry.object[0]));
        show_cells(log, &entry);
    }
    show_streams(log, &entry);
}

void show_table(const struct log *log, const struct replica *replica)
{
    uint64_t at;
    printf("%-31s %10s %10s %8s\n", "object", "key", "value", "version");
    for (at = 0; at < replica->count; at++) {
        const uint8_t *row = replica->table + at * STOCKLOG_CELL_SIZE;
        char value[16] = "-";
        if (number_at(row + 12, 4) == 1)
            snprintf(value, sizeof value, "%lu", (unsigned long)number_at(row + 8, 4));
        printf("%-31s %10lu %10s %8llu\n", directory_name(&log->directory, (uint32_t)number_at(row, 4)),
               (unsigned long)number_at(row + 4, 4), value, (big)number_at(row + 16, 8));
    }
}

void show_total(char digits[DIGITS], uint64_t high, uint64_t low)
{
    uint32_t parts[4] = {(uint32_t)(high >> 32), (uint32_t)high, (uint32_t)(low >> 32), (uint32_t)low};
    char *at = digits + DIGITS - 1;
    *at = '\0';
    do {
        uint64_t rest = 0;
        int part;
        for (part = 0; part < 4; part++) {
            rest = rest << 32 | parts[part];
            parts[part] = (uint32_t)(rest / 10);
            rest %= 10;
        }
        *--at = (char)('0' + rest);
    } while ((parts[0] | parts[1] | parts[2] | parts[3]) != 0);
    memmove(digits, at, strlen(at) + 1);
}
