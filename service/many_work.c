/* What a depot and a van do in the test of many processes. */
#include "decisions.h"
#include "many.h"

#include <unistd.h>

enum { OBJECTS = 8, KEYS = 10, VAN = 4, ORDERS = 5 };

/* The van's stock; filters and orders; the south depot with the next order's number and the price list's. */
const uint64_t van_sets[VANS] = {1 << 3, 1 << 0 | 1 << 4, 1 << 2 | 1 << 5 | 1 << 6};

struct work {
    struct store *store;
    struct depot *depot;
    uint32_t first; /* marks of this depot are above it */
    uint32_t depots;
    uint64_t seed;
    struct replica all;
    uint32_t order, older; /* the numbers of the last two orders that this process made, 0 for none; older is below order */
};

/* ---- appends, each noted before it is tried and after ---- */

static struct attempt *begin(struct work *work, int kind, uint32_t mark, uint32_t due)
{
    uint32_t at = atomic_load(&work->depot->tried);
    struct attempt *attempt = &work->depot->attempts[at];
    if (at == MOST_ATTEMPTS)
        wrong("a depot tried more often than there is room to note");
    attempt->kind = kind;
    attempt->mark = mark;
    attempt->due = due;
    atomic_store(&work->depot->tried, at + 1);
    return attempt;
}

static void end(struct work *work, struct attempt *attempt, uint32_t result, const uint64_t out[4])
{
    if (result != attempt->due)
        wrong("an append of kind %d, mark %lu, was answered %lu and not %lu", attempt->kind, (unsigned long)attempt->mark,
              (unsigned long)result, (unsigned long)attempt->due);
    attempt->offset = result == STOCKLOG_DONE ? out[0] - 1 : 0;
    atomic_store(&attempt->state, result == STOCKLOG_DONE ? ATTEMPT_DONE : ATTEMPT_REFUSED);
    if (result == STOCKLOG_DONE)
        atomic_fetch_add(&work->depot->done, 1);
}

static void append(struct work *work, const struct request *request, uint32_t mark, uint32_t due)
{
    uint64_t out[4];
    struct attempt *attempt = begin(work, request->kind, mark, due);
    end(work, attempt, store_append(work->store, request, out), out);
}

/* A mark that no other attempt has. */
static uint32_t new_mark(const struct work *work)
{
    return work->first + atomic_load(&work->depot->tried);
}

static uint32_t any_key(struct work *work, uint32_t object)
{
    return object >= 6 ? 0 : any(&work->seed, KEYS);
}

/* An update whose first write puts its mark. */
static uint32_t update(struct work *work, uint32_t number, uint32_t object, uint32_t due)
{
    uint32_t mark = new_mark(work), second = 1 + any(&work->seed, OBJECTS);
    struct request request;
    request_start(&request, STOCKLOG_UPDATE, number);
    request_write(&request, object, due == STOCKLOG_BAD_REQUEST ? 10000 : any_key(work, object), STOCKLOG_PUT, mark);
    if (number == 0 && any(&work->seed, 2) == 0)
        request_write(&request, second, any_key(work, second), STOCKLOG_REMOVE, 0);
    append(work, &request, mark, due);
    return mark;
}

/* ---- decisions, noted once they are acknowledged; somebody else's is as good ---- */

static void paid(void *told, const struct request *decision, uint32_t result, const uint64_t out[4])
{
    struct work *work = told;
    if (result == STOCKLOG_DONE)
        end(work, begin(work, STOCKLOG_DECISION, (uint32_t)decision->offset, 0), result, out);
}

static void pay(struct work *work)
{
    uint64_t out[4];
    uint32_t result = pay_owed(work->store, van_sets, VANS, paid, work, out);
    if (result != STOCKLOG_DONE)
        wrong("what is owed could not be paid: %lu", (unsigned long)result);
}

/* ---- transactions ---- */

static void look(struct work *work)
{
    uint32_t result;
    store_refresh(work->store);
    result = replica_play(&work->all, &work->store->log, work->store->log.tail);
    if (result != STOCKLOG_DONE)
        wrong("a replica of all objects was answered %lu", (unsigned long)result);
}

/* Versions that the depot sees of up to three cells. */
static void read_cells(struct work *work, struct request *request)
{
    uint32_t object = 0, reads = any(&work->seed, 4);
    while (reads-- > 0 && (object += 1 + any(&work->seed, 3)) <= OBJECTS) {
        uint32_t key = any_key(work, object);
        uint64_t out[4];
        if (replica_cell(&work->all, &work->store->log, object, key, out) != STOCKLOG_DONE)
            wrong("cell (%lu,%lu) cannot be read", (unsigned long)object, (unsigned long)key);
        request_read(request, object, key, out[2]);
    }
}

/* The commit of a number. With due 16 one of its reads is the version of no entry. */
static void commit(struct work *work, uint32_t number, uint32_t due)
{
    struct request request;
    request_start(&request, STOCKLOG_COMMIT, number);
    read_cells(work, &request);
    if (due == STOCKLOG_ASTRAY) {
        request.items_len = 0;
        request_read(&request, 2, 400, 1); /* no depot writes that cell */
    }
    append(work, &request, number, due);
}

static void transaction(struct work *work)
{
    uint32_t number = new_mark(work), more = any(&work->seed, 3);
    look(work);
    update(work, number, 1 + any(&work->seed, OBJECTS), 0);
    while (more-- > 0)
        update(work, number, 1 + any(&work->seed, OBJECTS), 0);
    if (any(&work->seed, 8) == 0)
        commit(work, number, STOCKLOG_ASTRAY);
    else
        commit(work, number, 0);
    pay(work);
}

/* ---- deliveries, whose commits name the numbers of their orders ---- */

static void order(struct work *work)
{
    uint32_t number = new_mark(work);
    look(work);
    update(work, number, ORDERS, 0);
    commit(work, number, 0);
    work->older = work->order;
    work->order = number;
}

/* A number that a delivery comes after: an order of its depot, a number of any depot, or one that its depot uses later or never. */
static uint32_t any_name(struct work *work)
{
    switch (any(&work->seed, 4)) {
    case 0:
        return ((1 + any(&work->seed, work->depots)) << 16) + any(&work->seed, 400);
    case 1:
        return new_mark(work) + 1 + any(&work->seed, 20);
    default:
        return work->order;
    }
}

/* The order that it names is there before it, unless another number is named; one in two has no reads. */
static void delivery(struct work *work)
{
    struct request request;
    uint32_t number, name;
    order(work);
    number = new_mark(work);
    look(work);
    update(work, number, VAN, 0);
    request_start(&request, STOCKLOG_COMMIT, number);
    if (any(&work->seed, 2) == 0)
        read_cells(work, &request);
    name = any_name(work);
    request.first = name == number ? work->order : name;
    if (request.first == work->order && work->older != 0 && any(&work->seed, 2) == 0) {
        request.first = work->older;
        request.second = work->order;
    }
    append(work, &request, number, 0);
    pay(work);
}

/* A commit that names itself. */
static void after_itself(struct work *work)
{
    struct request request;
    request_start(&request, STOCKLOG_COMMIT, new_mark(work));
    request.first = request.number;
    append(work, &request, request.number, STOCKLOG_BAD_REQUEST);
}

/* An append that must be refused. */
static void mistake(struct work *work)
{
    struct request request;
    switch (any(&work->seed, 3)) {
    case 0:
        update(work, 0, 2, STOCKLOG_BAD_REQUEST);
        break;
    case 1:
        after_itself(work);
        break;
    default:
        request_start(&request, STOCKLOG_COMMIT, new_mark(work));
        append(work, &request, request.number, STOCKLOG_EMPTY);
    }
}

/* Waits for kills that are late, so that all of them come while there is work: none is ahead of them by far, and the last append waits for all. */
static void wait_for_kills(const struct many *many, const struct depot *depot)
{
    uint64_t steps = many->appends - 1, done = atomic_load(&depot->done);
    uint32_t killed;
    while ((killed = atomic_load(&many->killed)) < many->kills && (done >= steps || done * many->kills > (killed + 4) * steps))
        usleep(500);
}

void depot_work(struct many *many, unsigned depot, const char *place, uint64_t seed)
{
    struct work work = {.store = store_open(place),
                        .depot = &many->depots[depot],
                        .first = (depot + 1) << 16,
                        .depots = many->depot_count,
                        .seed = seed};
    replica_open(&work.all, &work.store->log, directory_all(&work.store->log.directory));
    pay(&work); /* what a depot that was killed did not come to */
    while (atomic_load(&work.depot->done) < many->appends) {
        wait_for_kills(many, work.depot);
        uint32_t what = any(&work.seed, 10);
        if (what < 5)
            update(&work, 0, 1 + any(&work.seed, OBJECTS), 0);
        else if (what < 8)
            transaction(&work);
        else if (what < 9)
            delivery(&work);
        else
            mistake(&work);
    }
    replica_close(&work.all);
    store_close(work.store);
}

/* ---- vans ---- */

/* The van shows what a replica that starts now shows at the same position. */
static void compare(const struct replica *van, const struct log *log)
{
    struct replica fresh;
    uint32_t result;
    replica_open(&fresh, log, van->hosted);
    result = replica_play(&fresh, log, van->position);
    if (result != STOCKLOG_DONE || !replica_same(van, &fresh))
        wrong("a van at %llu differs from a fresh replica, which was answered %lu", (unsigned long long)van->position, (unsigned long)result);
    replica_close(&fresh);
}

/* Plays to the tail. It may wait only where something is owed to it. */
static int catch_up(struct replica *van, const struct log *log, struct van *counts)
{
    uint64_t out[4];
    uint32_t result = replica_play(van, log, log->tail);
    atomic_fetch_add(&counts->plays, 1);
    if (result == STOCKLOG_DONE)
        return 1;
    if (result != STOCKLOG_WAITING)
        wrong("a van was answered %lu", (unsigned long)result);
    if (owed_to(log, &van->hosted, 1, out) != STOCKLOG_DONE || out[0] == 0)
        wrong("a van waits at %llu, and nothing is owed to it", (unsigned long long)van->position);
    atomic_fetch_add(&counts->waits, 1);
    return 0;
}

void van_work(struct many *many, unsigned van, const char *place, uint64_t seed)
{
    struct store *store = store_open(place);
    struct replica replica;
    int last;
    replica_open(&replica, &store->log, van_sets[van]);
    do {
        last = atomic_load(&many->ended);
        store_refresh(store);
        if (!catch_up(&replica, &store->log, &many->vans[van]) && last)
            wrong("a van waits at the end, where all is paid");
        if (last || any(&seed, 4) == 0) {
            compare(&replica, &store->log);
            atomic_fetch_add(&many->vans[van].compared, 1);
        }
        usleep(1000 + any(&seed, 20000));
    } while (!last);
    replica_close(&replica);
    store_close(store);
}
