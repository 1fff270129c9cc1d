/* A log as the library takes it: its directory, its slots, and how many of them are used. */
#ifndef SERVICE_LOG_H
#define SERVICE_LOG_H

#include "directory.h"

struct log {
    struct directory directory;
    uint8_t *bytes;
    uint64_t slots;
    uint64_t tail; /* every entry below it is on storage */
};

/* The first arguments of a call that reads: only the used slots are lent, since the others may be written by somebody else just then. */
#define LOG_READ(log) (log)->directory.bytes, (log)->directory.len, (log)->bytes, (size_t)(log)->tail * STOCKLOG_SLOT_SIZE, (log)->tail

/* Those of a call that appends. The caller sees to it that nobody else does. */
#define LOG_WRITE(log) (log)->directory.bytes, (log)->directory.len, (log)->bytes, (size_t)(log)->slots * STOCKLOG_SLOT_SIZE, (log)->tail

#define LOG_DIRECTORY(log) (log)->directory.bytes, (log)->directory.len

#endif
