/*
 * speed fill FILE ENTRIES        a log file of 131,072 slots with so many entries, made without the library and then checked by it
 * speed rows ENTRIES             the same entries as rows of stocklog_slots, for COPY
 * speed run PLACE PROCESSES SECONDS   has processes append to a log at once; prints appends a second, and what the library's part of one takes
 */
#include "filelog.h"
#include "filler.h"
#include "numbers.h"
#include "store.h"
#include "words.h"

#include <errno.h>
#include <fcntl.h>
#include <stdatomic.h>
#include <stdio.h>
#include <stdlib.h>
#include <string.h>
#include <sys/mman.h>
#include <sys/wait.h>
#include <time.h>
#include <unistd.h>

enum { MOST_PROCESSES = 64 };

/* Entries of four objects by turns, each object's every fourth. */
static void slot_at(uint8_t slot[STOCKLOG_SLOT_SIZE], uint64_t offset)
{
    fill_slot(slot, offset, offset % 4, 4, 2 + (uint32_t)(offset % 4), (uint32_t)(offset * 7 % 499), (uint32_t)offset);
}

static uint64_t number(const char *word, uint64_t most)
{
    char *end;
    uint64_t value = strtoull(word, &end, 10);
    if (*word == '\0' || *end != '\0' || value > most)
        usage_error("speed: %s is no number up to %llu", word, (unsigned long long)most);
    return value;
}

static double seconds(void)
{
    struct timespec now;
    if (clock_gettime(CLOCK_MONOTONIC, &now) != 0)
        trouble("the clock cannot be read: %s", strerror(errno));
    return (double)now.tv_sec + (double)now.tv_nsec / 1e9;
}

static void fill(const char *name, uint64_t entries)
{
    struct directory eight;
    struct store *store;
    uint64_t offset, out[4];
    uint8_t *page;
    directory_eight(&eight);
    store_create(name, &eight, STOCKLOG_MOST_SLOTS);
    store = store_open(name);
    page = store->log.bytes - FILE_PAGE;
    for (offset = 0; offset < entries; offset++)
        slot_at(store->log.bytes + offset * STOCKLOG_SLOT_SIZE, offset);
    number_put(page + FILE_TAIL, entries, 8);
    number_put(page + FILE_SHOWN, entries, 8);
    store_refresh(store);
    if (stocklog_check(LOG_READ(&store->log), out) != STOCKLOG_DONE)
        trouble("the entry at %llu is not as the library has it", (unsigned long long)out[3]);
    if (msync(page, FILE_PAGE + STOCKLOG_MOST_SLOTS * STOCKLOG_SLOT_SIZE, MS_SYNC) != 0)
        trouble("%s cannot be synced: %s", name, strerror(errno));
    store_close(store);
}

static void rows(uint64_t entries)
{
    uint8_t slot[STOCKLOG_SLOT_SIZE];
    uint64_t offset;
    size_t at;
    for (offset = 0; offset < entries; offset++) {
        slot_at(slot, offset);
        printf("%llu\t\\\\x", (unsigned long long)offset);
        for (at = 0; at < sizeof slot; at++)
            printf("%02x", slot[at]);
        printf("\t\\\\x%032llx\n", (unsigned long long)offset);
    }
}

/* One put, of any cell. */
static void ask(struct request *request, unsigned turn)
{
    request_start(request, STOCKLOG_UPDATE, 0);
    request_write(request, 2 + turn % 4, turn % 499, STOCKLOG_PUT, turn);
}

/* Appends until the time is over; counts those that were acknowledged. */
static void append_until(const char *place, unsigned process, const _Atomic int *begun, double length, _Atomic uint64_t *done)
{
    struct store *store = store_open(place);
    struct request request;
    uint64_t out[4];
    double until;
    unsigned turn = process;
    while (!atomic_load(begun))
        usleep(1000);
    for (until = seconds() + length; seconds() < until; turn++) {
        ask(&request, turn);
        if (store_append(store, &request, out) != STOCKLOG_DONE)
            trouble("an append was refused");
        atomic_fetch_add(done, 1);
    }
    store_close(store);
}

/* Milliseconds of the library's part of an append, the best of some. */
static double library_part(const char *place)
{
    struct store *store = store_open(place);
    struct log copy = store->log;
    struct request request;
    uint64_t out[4];
    double best = 1e9;
    int turn;
    copy.bytes = malloc((size_t)copy.slots * STOCKLOG_SLOT_SIZE);
    if (copy.bytes == NULL)
        trouble("no memory for a copy of the log");
    memcpy(copy.bytes, store->log.bytes, (size_t)copy.slots * STOCKLOG_SLOT_SIZE);
    for (turn = 0; turn < 20; turn++) {
        double from = seconds();
        ask(&request, (unsigned)turn);
        if (request_make(&request, &copy, out) != STOCKLOG_DONE)
            trouble("an append was refused");
        if (seconds() - from < best)
            best = seconds() - from;
    }
    free(copy.bytes);
    store_close(store);
    return best * 1000;
}

static void run(const char *place, unsigned processes, double length)
{
    struct shared { _Atomic int begun; _Atomic uint64_t done; } *shared;
    double part = library_part(place);
    unsigned at;
    int status;
    shared = mmap(NULL, sizeof *shared, PROT_READ | PROT_WRITE, MAP_SHARED | MAP_ANONYMOUS, -1, 0);
    if (shared == MAP_FAILED)
        trouble("no memory to share: %s", strerror(errno));
    fflush(NULL);
    for (at = 0; at < processes; at++) {
        pid_t child = fork();
        if (child < 0)
            trouble("no process can be started: %s", strerror(errno));
        if (child == 0) {
            append_until(place, at, &shared->begun, length, &shared->done);
            exit(0);
        }
    }
    sleep(1); /* all have opened the log */
    atomic_store(&shared->begun, 1);
    for (at = 0; at < processes; at++)
        if (wait(&status) < 0 || !WIFEXITED(status) || WEXITSTATUS(status) != 0)
            trouble("a process failed");
    printf("%.0f %.2f\n", (double)shared->done / length, part);
}

int main(int count, char *words[])
{
    if (count == 4 && strcmp(words[1], "fill") == 0)
        fill(words[2], number(words[3], STOCKLOG_MOST_SLOTS));
    else if (count == 3 && strcmp(words[1], "rows") == 0)
        rows(number(words[2], STOCKLOG_MOST_SLOTS));
    else if (count == 5 && strcmp(words[1], "run") == 0)
        run(words[2], (unsigned)number(words[3], MOST_PROCESSES), (double)number(words[4], 3600));
    else
        usage_error("usage: speed fill FILE ENTRIES | speed rows ENTRIES | speed run PLACE PROCESSES SECONDS");
    if (fflush(stdout) != 0)
        trouble("standard output cannot be written: %s", strerror(errno));
    return 0;
}
