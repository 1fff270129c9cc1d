/*
 * A test of a log that many use at once: depots append, vans play meanwhile, and processes are killed at random moments. What each depot
 * tried stands in memory that they share with the test, and so outlives them.
 */
#ifndef SERVICE_MANY_H
#define SERVICE_MANY_H

#include "store.h"

#include <stdatomic.h>
#include <stdint.h>

enum { MOST_DEPOTS = 16, VANS = 3, MOST_ATTEMPTS = 4096 };

/* An append that a depot tried. Its state is written last. */
enum { ATTEMPT_TRYING, ATTEMPT_DONE, ATTEMPT_REFUSED };
struct attempt {
    _Atomic uint32_t state;
    int kind;
    uint32_t mark;     /* update: the value of its first write; commit: its number; decision: the commit record's offset */
    uint32_t due;      /* the refusal that it must meet; 0 where it must be done */
    uint64_t offset;   /* where it is, once done */
};

struct depot {
    _Atomic uint32_t tried; /* attempts that were begun */
    _Atomic uint32_t done;  /* those that were acknowledged */
    struct attempt attempts[MOST_ATTEMPTS];
};

struct van {
    _Atomic uint32_t plays, waits, compared;
};

struct many {
    uint32_t depot_count, appends, kills;
    _Atomic uint32_t killed; /* so many processes were killed */
    _Atomic int ended; /* all depots are done, and all that was owed is paid */
    struct depot depots[MOST_DEPOTS];
    struct van vans[VANS];
};

/* What each van hosts; decisions are owed to these sets. */
extern const uint64_t van_sets[VANS];

/* Fails the test: says what is wrong and ends the process with status 1. */
_Noreturn void wrong(const char *format, ...) __attribute__((format(printf, 1, 2)));

/* Numbers that depend on a seed alone. */
uint32_t any(uint64_t *seed, uint32_t below);

/* A depot's work, until it has so many acknowledged appends; a van's, until all has ended. */
void depot_work(struct many *many, unsigned depot, const char *place, uint64_t seed);
void van_work(struct many *many, unsigned van, const char *place, uint64_t seed);

/* Compares the log with what was tried. */
void account(const struct many *many, const struct log *log);

#endif
