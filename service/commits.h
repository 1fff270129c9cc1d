/* What a commit record has beside its number: its reads, and one or two other numbers after which alone it may commit, or none. */
#ifndef SERVICE_COMMITS_H
#define SERVICE_COMMITS_H

#include "arguments.h"
#include "entry.h"
#include "request.h"

/* The request of "commit PLACE NUMBER [OBJECT:KEY@VERSION ..] [--after N[,M]]". */
void commit_ask(struct request *request, const struct directory *directory, const struct arguments *arguments);

/* Makes it at the log's tail. */
uint32_t commit_make(const struct request *request, struct log *log, uint64_t out[4]);

/* Prints what it has: a line for the numbers that it names, and one for each read. */
void commit_show(const struct log *log, const struct entry *entry);

/* Writes what is wrong with the numbers that a request names, and returns 1; 0 where nothing is. */
int commit_misnames(char *what, size_t room, const struct request *request);

/* Writes why a replica of a set that waits at it cannot decide it alone. */
void commit_waits(char *why, size_t room, const struct log *log, const struct entry *entry, uint64_t hosted);

#endif
