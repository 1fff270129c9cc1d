/* units FOLDER: tests of the parts, in an empty folder. The disk is one of the tests' own: it has only what was synced. */
#include "decisions.h"
#include "entry.h"
#include "filelog.h"
#include "filler.h"
#include "numbers.h"
#include "show.h"
#include "store.h"
#include "words.h"

#include <errno.h>
#include <fcntl.h>
#include <stdio.h>
#include <stdlib.h>
#include <string.h>
#include <sys/file.h>
#include <sys/mman.h>
#include <sys/wait.h>
#include <unistd.h>

static unsigned checks;

static void must(int holds, const char *what, int line)
{
    checks++;
    if (!holds) {
        fprintf(stderr, "wrong: units.c, line %d: %s\n", line, what);
        exit(1);
    }
}
#define MUST(holds) must((holds) != 0, #holds, __LINE__)

enum { SLOTS = 40, SIZE = FILE_PAGE + SLOTS * STOCKLOG_SLOT_SIZE };

static struct store *new_log(const char *name)
{
    struct directory eight;
    directory_eight(&eight);
    unlink(name);
    store_create(name, &eight, SLOTS);
    return store_open(name);
}

/* The commit of a number comes after the one or two transactions before it. */
static void name_earlier(struct request *request)
{
    if (request->number > 4)
        request->first = request->number - 4;
    if (request->number > 8) {
        request->second = request->first;
        request->first -= 4;
    }
}

/* One append: plain updates, and transactions with their commits and decisions, by turns. */
static uint32_t append(struct store *store, unsigned turn, uint64_t out[4])
{
    struct request request;
    switch (turn % 4) {
    case 1:
        request_start(&request, STOCKLOG_UPDATE, turn);
        break;
    case 2:
        request_start(&request, STOCKLOG_COMMIT, turn - 1);
        name_earlier(&request);
        break;
    case 3:
        request_start(&request, STOCKLOG_DECISION, 0);
        request.offset = turn - 1;
        request.outcome = outcome_of(&store->log, turn - 1);
        break;
    default:
        request_start(&request, STOCKLOG_UPDATE, 0);
    }
    if (request.kind == STOCKLOG_UPDATE)
        request_write(&request, 2, turn, STOCKLOG_PUT, turn);
    return store_append(store, &request, out);
}

/* ---- a disk that has only what was synced ---- */

static uint8_t disk[SIZE];
static const uint8_t *mapped;    /* what the log's process has in memory */
static unsigned syncs, end_at;   /* end_at: at which sync the process ends, from 1; even ones end after it, odd ones before */
static unsigned fail_at;         /* which sync fails */
static uint64_t acknowledged;

int __real_msync(void *address, size_t len, int flags);
int __wrap_msync(void *address, size_t len, int flags);

/* The disk as a file: it opens, its entries are good, and all that were acknowledged are there. */
static void judge_disk(void)
{
    uint64_t out[4];
    struct store *store;
    int fd = open("disk.log", O_WRONLY | O_CREAT | O_TRUNC, 0600);
    MUST(fd >= 0 && write(fd, disk, SIZE) == SIZE && close(fd) == 0);
    store = store_open("disk.log");
    MUST(store->log.tail == acknowledged || store->log.tail == acknowledged + 1);
    MUST(stocklog_check(LOG_READ(&store->log), out) == STOCKLOG_DONE);
    MUST(audit_log(&store->log, out) == STOCKLOG_DONE);
    store_close(store);
}

int __wrap_msync(void *address, size_t len, int flags)
{
    static int judging;
    size_t from;
    unsigned page;
    if (judging)
        return 0; /* of a log that stands for the disk, and is thrown away */
    if (mapped == NULL || (uint8_t *)address < mapped || (uint8_t *)address >= mapped + SIZE)
        return __real_msync(address, len, flags);
    if (++syncs == fail_at) {
        errno = EIO;
        return -1;
    }
    if (2 * syncs - 1 == end_at)
        _exit(9);
    judging = 1;
    judge_disk(); /* power is lost before the disk has it */
    for (page = 0; page < SIZE / 4096; page++) { /* or the system wrote any one page early */
        uint8_t before[4096];
        memcpy(before, disk + page * 4096, 4096);
        memcpy(disk + page * 4096, mapped + page * 4096, 4096);
        judge_disk();
        memcpy(disk + page * 4096, before, 4096);
    }
    from = (size_t)((uint8_t *)address - mapped);
    memcpy(disk + from, mapped + from, len);
    judge_disk(); /* or after */
    judging = 0;
    if (2 * syncs == end_at)
        _exit(9);
    return __real_msync(address, len, flags);
}

static void start_disk(struct store *store)
{
    mapped = store->log.bytes - FILE_PAGE;
    memcpy(disk, mapped, SIZE);
    syncs = end_at = fail_at = 0;
    acknowledged = 0;
}

static void test_lost_power(void)
{
    struct store *store = new_log("power.log");
    uint64_t out[4];
    unsigned turn;
    start_disk(store);
    for (turn = 0; turn < SLOTS; turn++) {
        MUST(append(store, turn, out) == STOCKLOG_DONE && out[0] == turn + 1);
        acknowledged = out[0];
        judge_disk();
        MUST(store->log.tail == acknowledged);
    }
    MUST(syncs == 2 * SLOTS); /* the slot, then the tail */
    MUST(append(store, turn, out) == STOCKLOG_FULL);
    mapped = NULL;
    store_close(store);
}

/* A process that ends at each step of an append, or whose disk fails there; another goes on. */
static void test_ends_anywhere(void)
{
    unsigned step, turn = 0;
    struct store *store = new_log("ends.log");
    store_close(store);
    for (step = 1; step <= 6; step++) {
        uint64_t out[4];
        int status;
        pid_t child = fork();
        MUST(child >= 0);
        if (child == 0) {
            store = store_open("ends.log");
            start_disk(store);
            acknowledged = turn;
            end_at = step <= 4 ? step : 0;
            fail_at = step == 5 ? 1 : step == 6 ? 2 : 0;
            fclose(stderr);
            append(store, turn, out);
            _exit(0);
        }
        MUST(waitpid(child, &status, 0) == child && WIFEXITED(status));
        MUST(WEXITSTATUS(status) == (step <= 4 ? 9 : ENDS_TROUBLE));
        store = store_open("ends.log");
        MUST(store->log.tail == turn || store->log.tail == turn + 1);
        MUST(step != 1 || store->log.tail == turn);
        MUST(step != 4 || store->log.tail == turn + 1);
        turn = (unsigned)store->log.tail;
        MUST(append(store, turn, out) == STOCKLOG_DONE && out[0] == ++turn);
        MUST(audit_log(&store->log, out) == STOCKLOG_DONE);
        store_close(store);
    }
}

/* ---- the tail that is shown, and the lock ---- */

static void test_shown(void)
{
    struct store *store = new_log("shown.log"), *reader = store_open("shown.log");
    uint8_t *page = store->log.bytes - FILE_PAGE;
    uint64_t out[4];
    MUST(append(store, 0, out) == STOCKLOG_DONE && append(store, 4, out) == STOCKLOG_DONE);
    number_put(page + FILE_SHOWN, 1, 8); /* as a process leaves it that ends between the sync of a tail and its showing */
    store_refresh(reader);
    MUST(reader->log.tail == 1);
    store_close(reader);
    reader = store_open("shown.log");
    MUST(reader->log.tail == 2 && number_at(page + FILE_SHOWN, 8) == 2);
    number_put(page + FILE_SHOWN, 1, 8);
    MUST(append(store, 8, out) == STOCKLOG_DONE && out[0] == 3);
    store_refresh(reader);
    MUST(reader->log.tail == 3);
    store_close(reader);
    store_close(store);
}

static void test_lock(void)
{
    struct store *store = new_log("lock.log");
    uint64_t out[4];
    int fd = open("lock.log", O_RDWR), status;
    pid_t child;
    MUST(fd >= 0 && flock(fd, LOCK_EX) == 0);
    child = fork();
    MUST(child >= 0);
    if (child == 0) {
        close(fd);
        _exit(append(store_open("lock.log"), 0, out) == STOCKLOG_DONE ? 0 : 1);
    }
    usleep(300000);
    MUST(waitpid(child, &status, WNOHANG) == 0);
    store_refresh(store);
    MUST(store->log.tail == 0);
    MUST(flock(fd, LOCK_UN) == 0);
    MUST(waitpid(child, &status, 0) == child && WIFEXITED(status) && WEXITSTATUS(status) == 0);
    store_refresh(store);
    MUST(store->log.tail == 1);
    close(fd);
    store_close(store);
}

/* ---- entries, as read here and by the library ---- */

static void same_entry(const struct log *log, uint64_t offset)
{
    struct entry entry;
    uint64_t out[8], header[4];
    unsigned place;
    entry_at(&entry, log, offset);
    MUST(stocklog_entry(LOG_READ(log), offset, out) == STOCKLOG_DONE);
    MUST((uint64_t)entry.kind == out[0] && entry.number == out[1] && entry.headers == out[2] && entry.items == out[4]);
    MUST(entry.first == out[5] && entry.second == out[6]);
    for (place = 0; place < entry.headers; place++) {
        MUST(stocklog_header(LOG_READ(log), offset, place, header) == STOCKLOG_DONE);
        MUST(entry.object[place] == header[0] && entry.format[place] == header[1] && entry.pointers[place] == header[2]);
    }
    MUST(stocklog_items(LOG_READ(log), offset, out) == STOCKLOG_DONE);
    MUST((uint64_t)(entry.item - log->bytes) == out[0] && entry.items * 16 == out[1]);
}

static void test_entries(void)
{
    struct store *store = new_log("entries.log");
    struct request checkpoint;
    uint64_t out[4], back[MOST_BACK], offset;
    struct entry entry;
    unsigned turn;
    for (turn = 0; turn < 12; turn++)
        MUST(append(store, turn, out) == STOCKLOG_DONE);
    request_start(&checkpoint, STOCKLOG_CHECKPOINT, 0);
    checkpoint.object = 2;
    MUST(store_append(store, &checkpoint, out) == STOCKLOG_DONE && out[0] == 13);
    for (offset = 0; offset < store->log.tail; offset++)
        same_entry(&store->log, offset);
    entry_at(&entry, &store->log, 3);
    MUST(entry_decision(&entry).offset == 2 && entry_decision(&entry).outcome == STOCKLOG_COMMITTED);
    MUST(entry_back(&entry, 0, back) == 3 && back[0] == 2 && back[1] == 1 && back[2] == 0);
    entry_at(&entry, &store->log, 6);
    MUST(entry.number == 5 && entry.first == 1 && entry.second == 0);
    entry_at(&entry, &store->log, 10);
    MUST(entry.number == 9 && entry.first == 1 && entry.second == 5);
    MUST(outcome_of(&store->log, 10) == STOCKLOG_COMMITTED);
    entry_at(&entry, &store->log, 12);
    MUST(entry.items == 6 && entry_cell(&entry, 1).key == 1 && entry_cell(&entry, 1).version == 3 && !entry_cell(&entry, 1).removed);
    store_close(store);
}

/* The commit of a number of its own update, after one or two others; its offset. */
static uint64_t commit_after(struct store *store, uint32_t number, uint32_t first, uint32_t second)
{
    struct request request;
    uint64_t out[4];
    request_start(&request, STOCKLOG_UPDATE, number);
    request_write(&request, 4, number, STOCKLOG_PUT, number);
    MUST(store_append(store, &request, out) == STOCKLOG_DONE);
    request_start(&request, STOCKLOG_COMMIT, number);
    request.first = first;
    request.second = second;
    MUST(store_append(store, &request, out) == STOCKLOG_DONE);
    return out[0] - 1;
}

/* Commits that name numbers: outcomes, and to whom a decision of them is owed. */
static void test_names(void)
{
    static const uint64_t van = 1 << 3, most = 127, all = 255;
    struct store *store = new_log("names.log");
    uint64_t out[4];
    MUST(outcome_of(&store->log, commit_after(store, 21, 20, 0)) == STOCKLOG_ABORTED); /* 20 commits later */
    MUST(outcome_of(&store->log, commit_after(store, 20, 0, 0)) == STOCKLOG_COMMITTED);
    MUST(outcome_of(&store->log, commit_after(store, 22, 20, 0)) == STOCKLOG_COMMITTED);
    MUST(outcome_of(&store->log, commit_after(store, 23, 20, 22)) == STOCKLOG_COMMITTED);
    MUST(outcome_of(&store->log, commit_after(store, 24, 20, 21)) == STOCKLOG_ABORTED); /* 21 aborted */
    MUST(outcome_of(&store->log, commit_after(store, 25, 77, 0)) == STOCKLOG_ABORTED);  /* nobody has 77 */
    MUST(owed_to(&store->log, &van, 1, out) == STOCKLOG_DONE && out[0] == 1 && out[1] == 1);
    MUST(owed_to(&store->log, &most, 1, out) == STOCKLOG_DONE && out[0] == 1 && out[1] == 1);
    MUST(owed_to(&store->log, &all, 1, out) == STOCKLOG_DONE && out[0] == 0);
    store_close(store);
}

/* A header of format 1, whose nearest entry is over 65,535 away; and slots that were made without the library. */
static void test_far(void)
{
    static struct log log;
    const uint64_t far = 65537;
    uint64_t out[4], back[MOST_BACK], offset;
    struct request request;
    struct entry entry;
    directory_eight(&log.directory);
    log.slots = far + 1;
    log.bytes = malloc(log.slots * STOCKLOG_SLOT_SIZE);
    MUST(log.bytes != NULL);
    fill_slot(log.bytes, 0, 0, 1, 2, 7, 43);
    for (offset = 1; offset < far; offset++)
        fill_slot(log.bytes + offset * STOCKLOG_SLOT_SIZE, offset, 1, 1, 3, 7, (uint32_t)offset);
    log.tail = far;
    MUST(stocklog_check(LOG_READ(&log), out) == STOCKLOG_DONE);
    request_start(&request, STOCKLOG_UPDATE, 0);
    request_write(&request, 2, 7, STOCKLOG_PUT, 1);
    MUST(request_make(&request, &log, out) == STOCKLOG_DONE);
    log.tail = out[0];
    same_entry(&log, far);
    entry_at(&entry, &log, far);
    MUST(entry.format[0] == 1 && entry_back(&entry, 0, back) == 1 && back[0] == 0);
    free(log.bytes);
}

/* ---- the rest ---- */

/* More cells than a table has at first. */
static void test_growth(void)
{
    static struct log log;
    struct replica replica;
    uint64_t offset, out[4];
    directory_eight(&log.directory);
    log.slots = log.tail = 1000;
    log.bytes = malloc(log.slots * STOCKLOG_SLOT_SIZE);
    MUST(log.bytes != NULL);
    for (offset = 0; offset < log.tail; offset++)
        fill_slot(log.bytes + offset * STOCKLOG_SLOT_SIZE, offset, 0, 1, 5, (uint32_t)offset, (uint32_t)(offset + 5));
    MUST(replica_open(&replica, &log, 1 << 4) == STOCKLOG_DONE);
    MUST(replica_play(&replica, &log, 1000) == STOCKLOG_DONE && replica.count == 1000);
    MUST(replica_cell(&replica, &log, 5, 999, out) == STOCKLOG_DONE && out[1] == 1004 && out[2] == 1000);
    replica_close(&replica);
    MUST(audit_log(&log, out) == STOCKLOG_DONE && out[2] == 1000);
    free(log.bytes);
}

static void test_totals(void)
{
    char digits[DIGITS];
    show_total(digits, 0, 0);
    MUST(strcmp(digits, "0") == 0);
    show_total(digits, 0, UINT64_MAX);
    MUST(strcmp(digits, "18446744073709551615") == 0);
    show_total(digits, 1, 0);
    MUST(strcmp(digits, "18446744073709551616") == 0);
    show_total(digits, UINT64_MAX, UINT64_MAX);
    MUST(strcmp(digits, "340282366920938463463374607431768211455") == 0);
}

static void test_directory(void)
{
    static const char text[] = "# the eight\n1 filters map 9999 marked\n2 north map 499\n3 south map 499 marked\n\n4 van map 499 marked # here\n"
                               "5 orders map 9999\n6 next-order register marked\n7 price-list register\n8 stocktake register\n";
    struct directory read, eight;
    FILE *file = fopen("eight.txt", "w");
    MUST(file != NULL && fputs(text, file) >= 0 && fclose(file) == 0);
    directory_read(&read, "eight.txt");
    directory_eight(&eight);
    MUST(read.len == eight.len && memcmp(&read, &eight, sizeof read) == 0);
    MUST(directory_place(&read, "van") == 3 && directory_place(&read, "4") == 3 && directory_place(&read, "9") == -1);
    MUST(directory_all(&read) == 255 && directory_highest(&read, 1) == 499);
}

int main(int count, char *words[])
{
    if (count != 2 || chdir(words[1]) != 0)
        usage_error("usage: units FOLDER");
    test_totals();
    test_directory();
    test_entries();
    test_names();
    test_far();
    test_growth();
    test_shown();
    test_lock();
    test_lost_power();
    test_ends_anywhere();
    printf("%u checks of the parts hold\n", checks);
    return 0;
}
