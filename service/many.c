/*
 * many PLACE [DEPOTS APPENDS KILLS SEED]: makes a log at a place, has depots append to it at once and vans play it, kills processes at
 * random moments and starts others for them, and compares at the end. Without numbers: 8 depots, 300 appends each, 100 kills.
 */
#include "many.h"

#include "decisions.h"
#include "words.h"

#include <errno.h>
#include <signal.h>
#include <stdarg.h>
#include <stdio.h>
#include <stdlib.h>
#include <string.h>
#include <sys/mman.h>
#include <sys/wait.h>
#include <unistd.h>

void wrong(const char *format, ...)
{
    va_list words;
    va_start(words, format);
    fputs("wrong: ", stderr);
    vfprintf(stderr, format, words);
    fputc('\n', stderr);
    va_end(words);
    exit(1);
}

uint32_t any(uint64_t *seed, uint32_t below)
{
    *seed = *seed * UINT64_C(6364136223846793005) + UINT64_C(1442695040888963407);
    return (uint32_t)(((*seed >> 33) * below) >> 31);
}

/* ---- processes: the depots, then the vans ---- */

static struct many *many;
static const char *place;
static uint64_t seed;
static pid_t running[MOST_DEPOTS + VANS]; /* 0 for one that has ended its work */

static unsigned process_count(void)
{
    return many->depot_count + VANS;
}

static void start(unsigned at)
{
    uint64_t own = seed;
    any(&seed, 2);
    fflush(NULL);
    running[at] = fork();
    if (running[at] < 0)
        wrong("no process can be started: %s", strerror(errno));
    if (running[at] > 0)
        return;
    if (at < many->depot_count)
        depot_work(many, at, place, own * 31 + at);
    else
        van_work(many, at - many->depot_count, place, own * 37 + at);
    exit(0);
}

/* Ends the test where a process ended otherwise than by a kill of ours or by ending its work. */
static void stop_all(void)
{
    unsigned at;
    for (at = 0; at < process_count(); at++)
        if (running[at] > 0)
            kill(running[at], SIGKILL);
}

/* Takes note of those that ended. */
static void reap(void)
{
    int status;
    pid_t ended;
    unsigned at;
    while ((ended = waitpid(-1, &status, WNOHANG)) > 0) {
        for (at = 0; at < process_count() && running[at] != ended; at++)
            ;
        if (at == process_count() || !WIFEXITED(status) || WEXITSTATUS(status) != 0) {
            stop_all();
            wrong("process %u ended with status %d", at, status);
        }
        running[at] = 0;
    }
}

/* Kills one that is at work, and starts another in its place. 0 where it ended by itself just before. */
static int kill_one(unsigned at)
{
    int status;
    if (running[at] == 0)
        return 0;
    if (kill(running[at], SIGKILL) != 0 || waitpid(running[at], &status, 0) != running[at])
        wrong("process %u cannot be killed: %s", at, strerror(errno));
    if (WIFEXITED(status)) {
        if (WEXITSTATUS(status) != 0) {
            running[at] = 0;
            stop_all();
            wrong("process %u ended with status %d", at, status);
        }
        running[at] = 0;
        return 0;
    }
    start(at);
    return 1;
}

static unsigned done_appends(void)
{
    unsigned at, sum = 0;
    for (at = 0; at < many->depot_count; at++)
        sum += atomic_load(&many->depots[at].done);
    return sum;
}

static int depots_run(void)
{
    unsigned at, sum = 0;
    for (at = 0; at < many->depot_count; at++)
        sum += running[at] != 0;
    return sum > 0;
}

/* Kills are spread over the work: the next comes when its share is done, and a random moment later. */
static unsigned run_depots(void)
{
    unsigned killed = 0;
    while (depots_run()) {
        reap();
        if (killed < many->kills && (uint64_t)done_appends() * many->kills >= (uint64_t)killed * many->depot_count * (many->appends - 1)) {
            usleep(any(&seed, 20000));
            killed += (unsigned)kill_one(any(&seed, process_count()));
            atomic_store(&many->killed, killed);
        } else {
            usleep(1000);
        }
    }
    return killed;
}

/* ---- the end ---- */

static void ignore(void *told, const struct request *decision, uint32_t result, const uint64_t out[4])
{
    (void)told, (void)decision, (void)result, (void)out;
}

static void finish(unsigned killed)
{
    struct store *store = store_open(place);
    uint64_t out[4];
    unsigned at;
    if (pay_owed(store, van_sets, VANS, ignore, NULL, out) != STOCKLOG_DONE)
        wrong("what is owed could not be paid at the end");
    atomic_store(&many->ended, 1);
    for (at = many->depot_count; at < process_count(); at++)
        while (running[at] != 0) {
            reap();
            usleep(1000);
        }
    if (killed < many->kills)
        wrong("only %u processes were killed", killed);
    account(many, &store->log);
    store_close(store);
    for (at = 0; at < VANS; at++) {
        const struct van *van = &many->vans[at];
        printf("van %u: %lu plays, %lu of them waiting for a decision that was owed; %lu times its table was compared with a fresh replica's\n", at,
               (unsigned long)van->plays, (unsigned long)van->waits, (unsigned long)van->compared);
        if (van->plays == 0 || van->compared == 0)
            wrong("van %u never played", at);
    }
}

static uint64_t argument(int count, char *words[], int at, uint64_t otherwise)
{
    return at < count ? strtoull(words[at], NULL, 10) : otherwise;
}

int main(int count, char *words[])
{
    struct directory directory;
    unsigned at, killed;
    if (count < 2)
        usage_error("usage: many PLACE [DEPOTS APPENDS KILLS SEED]");
    place = words[1];
    many = mmap(NULL, sizeof *many, PROT_READ | PROT_WRITE, MAP_SHARED | MAP_ANONYMOUS, -1, 0);
    if (many == MAP_FAILED)
        wrong("no memory to share: %s", strerror(errno));
    many->depot_count = (uint32_t)argument(count, words, 2, 8);
    many->appends = (uint32_t)argument(count, words, 3, 300);
    many->kills = (uint32_t)argument(count, words, 4, 100);
    seed = argument(count, words, 5, 1);
    if (many->appends < 1)
        usage_error("a depot makes at least one append");
    if (many->depot_count < 1 || many->depot_count > MOST_DEPOTS)
        usage_error("there are 1 to %d depots", MOST_DEPOTS);
    directory_eight(&directory);
    store_create(place, &directory, 2 * many->depot_count * many->appends + 1000);
    for (at = 0; at < process_count(); at++)
        start(at);
    killed = run_depots();
    finish(killed);
    printf("%lu depots with %lu appends each, %d vans, %u kills: as it must be\n", (unsigned long)many->depot_count,
           (unsigned long)many->appends, VANS, killed);
    return 0;
}
