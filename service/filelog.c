/*
 * The log in one file, mapped into memory: a page with directory, slots and tail, then the slots.
 *
 * An append holds the file's lock. The library writes the slot at the tail, where nobody reads; the slot is synced; then the tail is
 * stored and synced; then it is shown. A process that ends anywhere in between leaves a slot above the tail, which counts for nothing,
 * or a tail that is not shown yet, which the next one that has the lock syncs and shows. The system gives the lock of a process that
 * ended to the next. Readers take no lock: what is below the shown tail is on the disk and is never written again.
 */
#include "filelog.h"

#include "numbers.h"
#include "store.h"
#include "words.h"

#include <endian.h>
#include <errno.h>
#include <fcntl.h>
#include <stdatomic.h>
#include <stdio.h>
#include <stdlib.h>
#include <string.h>
#include <sys/file.h>
#include <sys/mman.h>
#include <sys/stat.h>
#include <unistd.h>

_Static_assert(ATOMIC_LLONG_LOCK_FREE == 2, "a tail is stored whole, and seen by other processes, only where that takes no lock");

struct file_store {
    struct store store;
    char *name;
    int fd;
    uint8_t *map;
    size_t map_len;
};

static size_t size_of(uint64_t slots)
{
    return FILE_PAGE + (size_t)slots * STOCKLOG_SLOT_SIZE;
}

/* ---- the two tails: one aligned word each, so that nobody sees a part of one ---- */

static uint64_t load(const struct file_store *file, size_t at)
{
    return be64toh(atomic_load_explicit((_Atomic uint64_t *)(void *)(file->map + at), memory_order_acquire));
}

static void save(struct file_store *file, size_t at, uint64_t value)
{
    atomic_store_explicit((_Atomic uint64_t *)(void *)(file->map + at), htobe64(value), memory_order_release);
}

/* Waits until the disk has these bytes. */
static void sync_bytes(struct file_store *file, size_t at, size_t len)
{
    size_t page = (size_t)sysconf(_SC_PAGESIZE);
    size_t start = at - at % page;
    if (msync(file->map + start, at + len - start, MS_SYNC) != 0)
        trouble("%s: the disk did not take what was written: %s. Nothing was acknowledged; look with 'stocklog show' before you do it again",
                file->name, strerror(errno));
}

/* ---- the lock, which all processes that append share ---- */

static void lock(struct file_store *file)
{
    while (flock(file->fd, LOCK_EX) != 0)
        if (errno != EINTR)
            trouble("%s cannot be locked: %s", file->name, strerror(errno));
}

static void unlock(struct file_store *file)
{
    if (flock(file->fd, LOCK_UN) != 0)
        trouble("%s cannot be unlocked: %s", file->name, strerror(errno));
}

/* With the lock held: the tail. One that a process stored and did not live to show is synced and shown first. */
static uint64_t settle(struct file_store *file)
{
    uint64_t tail = load(file, FILE_TAIL);
    if (tail > file->store.log.slots)
        trouble("%s is damaged: its tail is %llu, and it has %llu slots", file->name, (unsigned long long)tail,
                (unsigned long long)file->store.log.slots);
    if (load(file, FILE_SHOWN) != tail) {
        sync_bytes(file, FILE_TAIL, 8);
        save(file, FILE_SHOWN, tail);
    }
    return tail;
}

/* ---- what a store does ---- */

static void file_refresh(struct store *store)
{
    struct file_store *file = (struct file_store *)store;
    uint64_t shown = load(file, FILE_SHOWN);
    if (shown < store->log.tail || shown > store->log.slots)
        trouble("%s is damaged: its tail went from %llu to %llu", file->name, (unsigned long long)store->log.tail,
                (unsigned long long)shown);
    store->log.tail = shown;
}

static uint32_t file_append(struct store *store, const struct request *request, uint64_t out[4])
{
    struct file_store *file = (struct file_store *)store;
    uint32_t result;
    lock(file);
    store->log.tail = settle(file);
    result = request_make(request, &store->log, out);
    if (result == STOCKLOG_DONE) {
        sync_bytes(file, size_of(store->log.tail), STOCKLOG_SLOT_SIZE);
        save(file, FILE_TAIL, out[0]);
        store->log.tail = settle(file);
    }
    unlock(file);
    return result;
}

static void file_close(struct store *store)
{
    struct file_store *file = (struct file_store *)store;
    if (munmap(file->map, file->map_len) != 0 || close(file->fd) != 0)
        trouble("%s cannot be closed: %s", file->name, strerror(errno));
    free(file->name);
    free(file);
}

static const struct store_calls file_calls = {file_refresh, file_append, file_close};

/* ---- opening ---- */

/* Whether the mapped file is a log; what it says of itself is taken over. */
static int understand(struct file_store *file)
{
    const uint8_t *page = file->map;
    struct log *log = &file->store.log;
    size_t len = (size_t)number_at(page + FILE_DIRECTORY, 4);
    if (memcmp(page + FILE_MAGIC, "STOCKLOG", 8) != 0 || number_at(page + FILE_FORMAT, 4) != 1)
        return 0;
    log->slots = number_at(page + FILE_SLOTS, 8);
    if (log->slots > STOCKLOG_MOST_SLOTS || size_of(log->slots) != file->map_len || len > FILE_PAGE - FILE_RECORDS)
        return 0;
    log->bytes = file->map + FILE_PAGE;
    return directory_load(&log->directory, page + FILE_RECORDS, len, page + FILE_NAMES);
}

struct store *file_open(const char *name)
{
    struct file_store *file = calloc(1, sizeof *file);
    struct stat about;
    if (file == NULL || (file->name = strdup(name)) == NULL)
        trouble("no memory to open %s", name);
    file->fd = open(name, O_RDWR | O_CLOEXEC);
    if (file->fd < 0 || fstat(file->fd, &about) != 0)
        trouble("%s cannot be opened to read and write: %s", name, strerror(errno));
    if (!S_ISREG(about.st_mode) || about.st_size < FILE_PAGE)
        trouble("%s is no log: 'stocklog new' makes one", name);
    file->map_len = (size_t)about.st_size;
    file->map = mmap(NULL, file->map_len, PROT_READ | PROT_WRITE, MAP_SHARED, file->fd, 0);
    if (file->map == MAP_FAILED)
        trouble("%s cannot be mapped into memory: %s", name, strerror(errno));
    if (!understand(file))
        trouble("%s is no log, or its first page or its length is damaged", name);
    file->store.calls = &file_calls;
    lock(file);
    file->store.log.tail = settle(file);
    unlock(file);
    return &file->store;
}

/* ---- making a new one: whole under another name first, so that nobody meets half a log, and none is overwritten ---- */

/* Writes all of it; 0 where the disk does not take it, and errno says why. */
static int write_all(int fd, const uint8_t *bytes, size_t len)
{
    while (len > 0) {
        ssize_t done = write(fd, bytes, len);
        if (done < 0 && errno != EINTR)
            return 0;
        if (done > 0) {
            bytes += done;
            len -= (size_t)done;
        }
    }
    return 1;
}

static void first_page(uint8_t page[FILE_PAGE], const struct directory *directory, uint64_t slots)
{
    memset(page, 0, FILE_PAGE);
    memcpy(page + FILE_MAGIC, "STOCKLOG", 8);
    number_put(page + FILE_FORMAT, 1, 4);
    number_put(page + FILE_DIRECTORY, directory->len, 4);
    number_put(page + FILE_SLOTS, slots, 8);
    memcpy(page + FILE_NAMES, directory->names, sizeof directory->names);
    memcpy(page + FILE_RECORDS, directory->bytes, directory->len);
}

/* Waits until the disk has the new name too. */
static void sync_folder(const char *name)
{
    char *folder = strdup(name), *slash = folder == NULL ? NULL : strrchr(folder, '/');
    int fd;
    if (folder == NULL)
        trouble("no memory to make %s", name);
    if (slash != NULL)
        slash[slash == folder] = '\0';
    fd = open(slash == NULL ? "." : folder, O_RDONLY | O_DIRECTORY | O_CLOEXEC);
    if (fd < 0 || fsync(fd) != 0 || close(fd) != 0)
        trouble("%s: its folder cannot be synced: %s", name, strerror(errno));
    free(folder);
}

/* Every byte is written, so that no append meets a full disk later. */
static int fill(int fd, const struct directory *directory, uint64_t slots)
{
    static uint8_t page[FILE_PAGE];
    size_t left = size_of(slots) - FILE_PAGE, part;
    mode_t mask = umask(0);
    umask(mask);
    first_page(page, directory, slots);
    if (!write_all(fd, page, sizeof page))
        return 0;
    memset(page, 0, sizeof page);
    for (; left > 0; left -= part) {
        part = left < sizeof page ? left : sizeof page;
        if (!write_all(fd, page, part))
            return 0;
    }
    return fsync(fd) == 0 && fchmod(fd, 0666 & ~mask) == 0;
}

void file_create(const char *name, const struct directory *directory, uint64_t slots)
{
    size_t len = strlen(name) + 8;
    char *partly = malloc(len);
    int fd, done;
    if (partly == NULL)
        trouble("no memory to make %s", name);
    snprintf(partly, len, "%s.XXXXXX", name);
    fd = mkstemp(partly);
    if (fd < 0)
        trouble("%s cannot be made: %s", name, strerror(errno));
    done = fill(fd, directory, slots) && close(fd) == 0 && link(partly, name) == 0;
    if (!done) {
        int why = errno;
        unlink(partly);
        trouble("%s cannot be made: %s", name, strerror(why));
    }
    if (unlink(partly) != 0)
        trouble("%s cannot be removed: %s", partly, strerror(errno));
    sync_folder(name);
    free(partly);
}
