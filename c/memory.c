// The memory that the scheduler takes, by a heap that counts: all at the opening, under each policy and estimator and
// whatever is called; each block given back; and a status, with nothing lost, if any of the blocks is wanting. It
// defines the functions of the heap itself, in place of heap.c.
#include <malloc.h>
#include <stdio.h>
#include <stdlib.h>

#include "twodfq.h"

typedef struct {
    bool ok;
    void *at;
} tried;

static char nothing;
static long taken, held, failing = -1; // blocks asked for, blocks not given back, and which request fails
static long calls;                     // of all three
static size_t bytes;                   // of the blocks not given back

static bool fails(void) {
    calls++;
    return taken++ == failing;
}

tried rattle_alloc(size_t size, size_t align) {
    void *at = fails() ? NULL : malloc(size ? size : align);
    held += at != NULL;
    bytes += malloc_usable_size(at);
    return at ? (tried){ true, at } : (tried){ false, &nothing };
}

tried rattle_realloc(void *at, size_t kept, size_t size, size_t align) {
    (void)kept;
    size_t before = malloc_usable_size(at);
    void *moved = fails() ? NULL : realloc(at, size ? size : align);
    if (moved) bytes += malloc_usable_size(moved) - before;
    return moved ? (tried){ true, moved } : (tried){ false, &nothing };
}

void rattle_dealloc(void *at) {
    calls++;
    held--;
    bytes -= malloc_usable_size(at);
    free(at);
}

static void want(const char *what, bool is_so) {
    if (is_so) return;
    fprintf(stderr, "memory: not so: %s\n", what);
    exit(1);
}

enum { MOST_WORKERS = 4096, MOST_TENANTS = 65536, MOST_PLACES = 1048576, WORKERS = 8, ROUNDS = 8000 };

static uint32_t weights[MOST_TENANTS + 1];

static twodfq_opening opening_for(uint32_t tenants, uint32_t policy, uint32_t estimate) {
    return (twodfq_opening){
        .workers = WORKERS,
        .kinds = 2,
        .entries = 6 * ROUNDS + 3 * tenants + 1, // some rounds have a change beside a request, and one close comes
        .requests = 2 * tenants,
        .policy = policy,
        .estimate = estimate,
        .initial = 1000,
    };
}

static bool is(uint32_t wanted, twodfq_reply reply) {
    return reply.kind == wanted;
}

// A call of each kind that is refused, while worker 0 runs a request or nothing does.
static void refuse(twodfq *to, uint32_t tenants, bool runs) {
    want("no tenant has the number", is(TWODFQ_REFUSED_TENANT, twodfq_submit(to, 0, 0, tenants, 0, 10, 0)));
    want("no worker has the number", is(TWODFQ_REFUSED_WORKER, twodfq_foresee(to, 0, WORKERS, 0)));
    want("no weight is 0", is(TWODFQ_REFUSED_WEIGHT, twodfq_weight(to, 0, 0, 0, 0)));
    want("no pool is empty", is(TWODFQ_REFUSED_WORKERS, twodfq_workers(to, 0, 0, 0)));
    want("nothing has the number", is(TWODFQ_REFUSED_NOT_WAITING, twodfq_withdraw(to, 0, 0, 4000000000)));
    if (runs) want("the worker is busy", is(TWODFQ_REFUSED_BUSY, twodfq_take(to, 1, 0, 0)));
    else want("the worker runs nothing", is(TWODFQ_REFUSED_NOT_RUNNING, twodfq_report(to, 1, 0, 0, 1)));
    want("a cost is too great", runs == is(TWODFQ_REFUSED_COST, twodfq_done(to, 1, 0, 0, 4000000000)));
}

// Beside the request of a round: a withdrawal, another weight, and fewer workers or as many as at first.
static void change(twodfq *of, uint32_t tenants, uint32_t round, uint64_t moment) {
    uint32_t tenant = round * 11 % tenants, last = twodfq_submit(of, 0, moment, tenant, round % 2, 10, 0).request;
    want("one is withdrawn", is(TWODFQ_WITHDRAWN, twodfq_withdraw(of, 0, moment, last)));
    want("a weight changes", is(TWODFQ_ACCEPTED, twodfq_weight(of, 0, moment, tenant, 1 + round * 997 % 100000)));
    want("the workers change", is(TWODFQ_ACCEPTED, twodfq_workers(of, 0, moment, round % 3 ? WORKERS : 1)));
}

// Looks at what is there, with a worker that runs nothing.
static void look(twodfq *at, uint64_t moment, uint32_t worker) {
    uint32_t kind = twodfq_foresee(at, moment, worker, 100).kind;
    want("a take is foreseen", kind == TWODFQ_FORESEEN || kind == TWODFQ_RETIRED);
    uint64_t entries = twodfq_status(at).entries;
    want("an entry is read", twodfq_entry(at, entries - 1).kind != TWODFQ_ENTRY_NONE);
    want("no further one is there", twodfq_entry(at, entries).kind == TWODFQ_ENTRY_NONE);
}

// Calls of every kind, until nothing waits. For the first half of the rounds each tenant has a backlog; then tenants come
// and go.
static void serve(twodfq *by, uint32_t tenants) {
    for (uint32_t i = 0; i < tenants; i++) want("a request comes", is(TWODFQ_REQUEST, twodfq_submit(by, 0, i, i, i % 2, 10, i)));
    uint64_t moment = tenants;
    for (uint32_t i = 0; i < ROUNDS; i++, moment += 1 + i % 3) {
        if (i == ROUNDS / 2) {
            want("all workers are back", is(TWODFQ_ACCEPTED, twodfq_workers(by, 0, moment, WORKERS)));
            while (is(TWODFQ_RUN, twodfq_take(by, 1, moment, 0)))
                want("it is done", is(TWODFQ_ACCEPTED, twodfq_done(by, 1, moment, 0, 1)));
            want("nothing is foreseen", is(TWODFQ_NOTHING, twodfq_foresee(by, moment, 0, 0)));
        }
        want("a request comes", is(TWODFQ_REQUEST, twodfq_submit(by, 0, moment, i * 7 % tenants, i % 2, 10, i)));
        if (i % 16 == 0) change(by, tenants, i / 16, moment);
        uint32_t worker = i % WORKERS;
        look(by, moment, worker);
        if (is(TWODFQ_RETIRED, twodfq_take(by, 1, moment, worker)))
            want("worker 0 runs one", is(TWODFQ_RUN, twodfq_take(by, 1, moment, worker = 0)));
        if (i % 16 == 1) refuse(by, tenants, worker == 0);
        if (i % 2) want("it reports", is(TWODFQ_ACCEPTED, twodfq_report(by, 1, moment, worker, i % 5)));
        want("it is done", is(TWODFQ_ACCEPTED, twodfq_done(by, 1, moment, worker, 5 + i % 100)));
    }
    want("it closes", is(TWODFQ_ACCEPTED, twodfq_close(by, 0, moment)));
    want("it closes once", is(TWODFQ_REFUSED_CLOSED, twodfq_close(by, 0, moment)));
    want("nothing comes", is(TWODFQ_REFUSED_CLOSED, twodfq_submit(by, 0, moment, 0, 0, 10, 0)));
    while (is(TWODFQ_RUN, twodfq_take(by, 1, moment, 0)))
        want("it is done", is(TWODFQ_ACCEPTED, twodfq_done(by, 1, moment, 0, 1)));
    want("nothing is left", is(TWODFQ_DRAINED, twodfq_take(by, 1, moment, 0)));
}

// How many blocks the opening takes; no call after it asks the heap for anything, and all blocks come back at the end.
static long count_blocks(uint32_t tenants, uint32_t policy, uint32_t estimate) {
    twodfq scheduler = TWODFQ_NONE;
    twodfq_opening opening = opening_for(tenants, policy, estimate);
    taken = 0;
    failing = -1;
    want("a scheduler opens", twodfq_open(&scheduler, &opening, weights, tenants) == TWODFQ_OPENED);
    long blocks = taken, before = calls;
    serve(&scheduler, tenants);
    want("no call asks the heap", calls == before);
    twodfq_free(&scheduler);
    twodfq_free(&scheduler);
    want("all blocks come back", held == 0);
    return blocks;
}

static void fail_each(long blocks, uint32_t tenants, uint32_t policy, uint32_t estimate) {
    twodfq scheduler = TWODFQ_NONE;
    twodfq_opening opening = opening_for(tenants, policy, estimate);
    for (failing = 0; failing < blocks; failing++) {
        taken = 0;
        want("memory is wanting", twodfq_open(&scheduler, &opening, weights, tenants) == TWODFQ_OPEN_NO_MEMORY);
        want("all blocks come back", held == 0);
        want("no scheduler is held", twodfq_take(&scheduler, 0, 0, 0).kind == TWODFQ_NO_SCHEDULER);
    }
}

// The memory of a service that keeps 1,024 entries of the longest history, where 4,096 requests may wait.
static void of_a_service(void) {
    twodfq scheduler = TWODFQ_NONE;
    twodfq_opening opening = opening_for(64, TWODFQ_2DFQ_PLUS, TWODFQ_PESSIMISTIC);
    opening.entries = 4000000000;
    opening.requests = 4096;
    opening.keep = 1024;
    failing = -1;
    want("a service opens", twodfq_open(&scheduler, &opening, weights, 64) == TWODFQ_OPENED);
    want("it takes less than two megabytes", bytes < 2000000);
    printf("memory: %zu bytes for 64 tenants, %d workers, 1,024 entries kept and 4,096 requests waiting\n", bytes, WORKERS);
    twodfq_free(&scheduler);
    want("all bytes come back", bytes == 0);
}

static size_t bytes_for(const twodfq_opening *opening, uint32_t tenants) {
    twodfq scheduler = TWODFQ_NONE;
    failing = -1;
    want("a scheduler opens", twodfq_open(&scheduler, opening, weights, tenants) == TWODFQ_OPENED);
    size_t taken_by_it = bytes;
    twodfq_free(&scheduler);
    return taken_by_it;
}

// An opening with one kind, and little else.
static twodfq_opening small(uint32_t policy, uint32_t estimate) {
    twodfq_opening opening = opening_for(1, policy, estimate);
    opening.workers = opening.kinds = 1;
    opening.entries = opening.requests = 4;
    return opening;
}

static void of_a_tenant(uint32_t policy) {
    printf("memory: bytes for each of %d tenants under policy %u, by estimate:", MOST_TENANTS, policy);
    for (uint32_t estimate = TWODFQ_DECLARED; estimate <= TWODFQ_PESSIMISTIC; estimate++) {
        twodfq_opening opening = small(policy, estimate);
        printf(" %zu", (bytes_for(&opening, MOST_TENANTS) - bytes_for(&opening, 1)) / (MOST_TENANTS - 1));
    }
    puts("");
}

static void of_a_place_and_a_worker(void) {
    twodfq_opening few = small(TWODFQ_2DFQ_PLUS, TWODFQ_DECLARED), places = few, workers = few;
    places.requests = MOST_PLACES;
    workers.workers = MOST_WORKERS;
    size_t least = bytes_for(&few, 1);
    printf("memory: %zu bytes for each of %d places to wait, and %zu for each of %d workers\n",
        (bytes_for(&places, 1) - least) / (MOST_PLACES - 4), MOST_PLACES, (bytes_for(&workers, 1) - least) / (MOST_WORKERS - 1),
        MOST_WORKERS);
}

// All that there may be at once, and 1,024 entries kept.
static void of_the_most(void) {
    twodfq_opening most = small(TWODFQ_2DFQ_PLUS, TWODFQ_RECENT);
    most.workers = MOST_WORKERS;
    most.kinds = 16;
    most.requests = MOST_PLACES;
    most.entries = 4000000000;
    most.keep = 1024;
    printf("memory: %zu bytes for the most of all, with 1,024 entries kept\n", bytes_for(&most, MOST_TENANTS));
    want("all bytes come back", bytes == 0);
}

// The weights of too many tenants are not read.
static void too_many(void) {
    twodfq scheduler = TWODFQ_NONE;
    twodfq_opening opening = opening_for(64, TWODFQ_2DFQ, TWODFQ_DECLARED);
    long before = calls;
    want("it is refused", twodfq_open(&scheduler, &opening, weights, MOST_TENANTS + 1) == TWODFQ_OPEN_TENANTS);
    want("the heap is not asked", calls == before);
}

int main(void) {
    for (uint32_t tenant = 0; tenant < MOST_TENANTS; tenant++) weights[tenant] = 1 + tenant;
    for (uint32_t policy = TWODFQ_WFQ; policy <= TWODFQ_2DFQ_PLUS; policy++) {
        printf("memory: policy %u, blocks at the opening for 64 and for %d tenants, by estimate:", policy, MOST_TENANTS);
        for (uint32_t estimate = TWODFQ_DECLARED; estimate <= TWODFQ_PESSIMISTIC; estimate++) {
            long few = count_blocks(64, policy, estimate), many = count_blocks(MOST_TENANTS, policy, estimate);
            fail_each(few, 64, policy, estimate);
            printf(" %ld and %ld", few, many);
        }
        puts("; of the former each failed in turn; none after it");
    }
    of_a_service();
    of_a_tenant(TWODFQ_2DFQ);
    of_a_tenant(TWODFQ_2DFQ_PLUS);
    of_a_place_and_a_worker();
    of_the_most();
    too_many();
}
