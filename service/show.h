/* Entries and replicas in words. */
#ifndef SERVICE_SHOW_H
#define SERVICE_SHOW_H

#include "log.h"
#include "replica.h"

/* An entry of a log that the check has passed. */
void show_entry(const struct log *log, uint64_t offset);

/* A replica's cells, in columns. */
void show_table(const struct log *log, const struct replica *replica);

/* A number of two halves of 64 bits, in decimal digits. */
enum { DIGITS = 40 };
void show_total(char digits[DIGITS], uint64_t high, uint64_t low);

#endif
