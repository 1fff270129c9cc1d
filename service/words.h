/* How a command ends: done, refused in words, not understood, or stopped by the machine. */
#ifndef SERVICE_WORDS_H
#define SERVICE_WORDS_H

#include "log.h"
#include "request.h"

#include <stdint.h>

enum {
    ENDS_DONE = 0,
    ENDS_REFUSED = 1, /* the library refused it: nothing was appended */
    ENDS_USAGE = 2,   /* the command was not understood: nothing was tried */
    ENDS_TROUBLE = 3  /* a file, the disk, memory or a server failed */
};

/* Says what is wrong with the command and ends with status 2. */
_Noreturn void usage_error(const char *format, ...) __attribute__((format(printf, 1, 2)));

/* Says what failed and ends with status 3. A lock is given back as the process ends; an entry that is not acknowledged may be there. */
_Noreturn void trouble(const char *format, ...) __attribute__((format(printf, 1, 2)));

/*
 * Each says "refused N: .." on standard error, with what N tells, and returns ENDS_REFUSED. They are told the call's result and its out.
 */
_Noreturn void refused_directory(const char *file, unsigned line, uint64_t place); /* ends the program with status 1 */
int refused_log(const struct log *log, uint32_t result, const uint64_t *out);
int refused_offset(const struct log *log, uint64_t offset, uint32_t result, const uint64_t *out);
int refused_sets(const struct log *log, uint32_t result, const uint64_t *out);
int refused_request(const struct log *log, const struct request *request, uint32_t result, const uint64_t *out);
int refused_play(const struct log *log, const struct replica *replica, uint64_t stop, uint32_t result);
int refused_price(const struct log *log, uint32_t object, uint32_t result, const uint64_t *out);

#endif
