// The answers of a handle that holds no scheduler, foreseen takes, and each status of an opening but want of memory
// (memory.c): every number that has limits is given just outside them, and at them.
#include <stdio.h>
#include <stdlib.h>

#include "twodfq.h"

enum { MOST_TENANTS = 65536, MOST_KINDS = 64, MOST_PAIRS = 1048576, GREATEST_WEIGHT = 100000 };

static uint32_t weights[MOST_TENANTS + 1];
static int count;

static void want(const char *what, uint32_t given, uint32_t wanted) {
    count++;
    if (given == wanted) return;
    fprintf(stderr, "statuses: %s gives %u, and %u is wanted\n", what, given, wanted);
    exit(1);
}

static uint32_t kept; // how many of the last entries are kept

static twodfq_opening plain(void) {
    return (twodfq_opening){
        .workers = 1,
        .kinds = 1,
        .entries = 4,
        .requests = 1,
        .policy = TWODFQ_WFQ,
        .estimate = TWODFQ_DECLARED,
        .initial = 1,
        .keep = kept,
    };
}

static void opens(const char *what, twodfq_opening opening, size_t tenants, uint32_t wanted) {
    twodfq scheduler = TWODFQ_NONE;
    want(what, twodfq_open(&scheduler, &opening, weights, tenants), wanted);
    want(what, twodfq_close(&scheduler, 0, 0).kind, wanted == TWODFQ_OPENED ? TWODFQ_ACCEPTED : TWODFQ_NO_SCHEDULER);
    twodfq_free(&scheduler);
}

// One number of an opening, from its least to its greatest.
#define LIMITS(number, least, most, status)                                       \
    do {                                                                          \
        twodfq_opening opening = plain();                                         \
        opens(#number, (opening.number = (most), opening), 1, TWODFQ_OPENED);     \
        opens(#number, (opening.number = (least)-1, opening), 1, status);         \
        opens(#number, (opening.number = (most) + 1, opening), 1, status);        \
    } while (0)

static void no_scheduler(twodfq *handle) {
    want("submit", twodfq_submit(handle, 0, 0, 0, 0, 1, 0).kind, TWODFQ_NO_SCHEDULER);
    want("take", twodfq_take(handle, 0, 0, 0).kind, TWODFQ_NO_SCHEDULER);
    want("report", twodfq_report(handle, 0, 0, 0, 0).kind, TWODFQ_NO_SCHEDULER);
    want("done", twodfq_done(handle, 0, 0, 0, 0).kind, TWODFQ_NO_SCHEDULER);
    want("close", twodfq_close(handle, 0, 0).kind, TWODFQ_NO_SCHEDULER);
    want("weight", twodfq_weight(handle, 0, 0, 0, 1).kind, TWODFQ_NO_SCHEDULER);
    want("workers", twodfq_workers(handle, 0, 0, 1).kind, TWODFQ_NO_SCHEDULER);
    want("foresee", twodfq_foresee(handle, 0, 0, 0).kind, TWODFQ_NO_SCHEDULER);
    want("entry", twodfq_entry(handle, 0).kind, TWODFQ_ENTRY_NONE);
    want("status", twodfq_status(handle).kind, TWODFQ_NO_SCHEDULER);
    twodfq_free(handle);
}

// A take of this request of tenant 0 and kind 2, at an estimate of 10, is foreseen.
static void foresees(twodfq_reply reply, uint32_t request, uint32_t is_eligible, uint32_t has_smaller) {
    want("foreseen", reply.kind, TWODFQ_FORESEEN);
    want("which one", reply.request, request);
    want("its estimate", (uint32_t)reply.first, 10);
    want("no second number", (uint32_t)reply.second, 0);
    want("its tenant", reply.tenant, 0);
    want("its kind", reply.request_kind, 2);
    want("whether it is eligible", reply.is_eligible, is_eligible);
    want("whether a smaller one is", reply.has_smaller, has_smaller);
}

// A foreseen take of each kind. Virtual time rises by 2 units a microsecond; the second request starts at 10 and has
// the length 10, so it is eligible for worker 1 of 2 from virtual time 5 on.
static void finds(void) {
    twodfq scheduler = TWODFQ_NONE;
    twodfq_opening opening = plain();
    opening.workers = 2;
    opening.entries = 20;
    opening.requests = 2;
    opening.kinds = 3;
    opening.policy = TWODFQ_2DFQ;
    uint32_t weight = 1;
    want("open", twodfq_open(&scheduler, &opening, &weight, 1), TWODFQ_OPENED);
    want("nothing", twodfq_foresee(&scheduler, 0, 0, 0).kind, TWODFQ_NOTHING);
    want("a worker beyond", twodfq_foresee(&scheduler, 0, 2, 0).kind, TWODFQ_REFUSED_WORKER);
    twodfq_submit(&scheduler, 0, 0, 0, 2, 10, 0);
    twodfq_submit(&scheduler, 0, 0, 0, 2, 10, 0);
    foresees(twodfq_foresee(&scheduler, 0, 0, 10), 0, 1, 0);
    want("run", twodfq_take(&scheduler, 0, 0, 0).kind, TWODFQ_RUN);
    want("busy", twodfq_foresee(&scheduler, 0, 0, 0).kind, TWODFQ_REFUSED_BUSY);
    foresees(twodfq_foresee(&scheduler, 3, 1, 11), 1, 1, 1);
    foresees(twodfq_foresee(&scheduler, 2, 1, 11), 1, 0, 0);
    twodfq_workers(&scheduler, 0, 0, 1);
    want("retired", twodfq_foresee(&scheduler, 0, 1, 0).kind, TWODFQ_RETIRED);
    twodfq_free(&scheduler);
}

// Weights and numbers of workers that change, at their limits and beyond: a refusal names the number.
static void changes(void) {
    twodfq scheduler = TWODFQ_NONE;
    twodfq_opening opening = plain();
    opening.workers = 4096;
    opening.entries = 20;
    want("open", twodfq_open(&scheduler, &opening, weights, 1), TWODFQ_OPENED);
    want("the greatest weight", twodfq_weight(&scheduler, 0, 0, 0, GREATEST_WEIGHT).kind, TWODFQ_ACCEPTED);
    want("a greater one", twodfq_weight(&scheduler, 0, 0, 0, GREATEST_WEIGHT + 1).kind, TWODFQ_REFUSED_WEIGHT);
    want("which one", (uint32_t)twodfq_weight(&scheduler, 0, 0, 0, GREATEST_WEIGHT + 1).first, GREATEST_WEIGHT + 1);
    want("no weight", twodfq_weight(&scheduler, 0, 0, 0, 0).kind, TWODFQ_REFUSED_WEIGHT);
    want("the most workers", twodfq_workers(&scheduler, 0, 0, 4096).kind, TWODFQ_ACCEPTED);
    want("more of them", twodfq_workers(&scheduler, 0, 0, 4097).kind, TWODFQ_REFUSED_WORKERS);
    want("the last worker", twodfq_take(&scheduler, 4095, 0, 4095).kind, TWODFQ_IDLE);
    want("the next", twodfq_take(&scheduler, 4096, 0, 4096).kind, TWODFQ_REFUSED_WORKER);
    twodfq_free(&scheduler);
}

int main(void) {
    finds();
    for (uint32_t tenant = 0; tenant <= MOST_TENANTS; tenant++) weights[tenant] = 1 + tenant % GREATEST_WEIGHT;

    LIMITS(workers, 1, 4096, TWODFQ_OPEN_WORKERS);
    LIMITS(kinds, 1, MOST_KINDS, TWODFQ_OPEN_KINDS);
    LIMITS(entries, 4, 4194304, TWODFQ_OPEN_ENTRIES);
    kept = 1;
    LIMITS(entries, 4, 4000000000, TWODFQ_OPEN_ENTRIES);
    kept = 0;
    LIMITS(requests, 1, 1048576, TWODFQ_OPEN_REQUESTS);
    LIMITS(initial, 1, 1000000000, TWODFQ_OPEN_INITIAL);
    twodfq_opening opening = plain();
    opens("tenants", opening, MOST_TENANTS, TWODFQ_OPENED);
    opens("tenants", opening, MOST_TENANTS + 1, TWODFQ_OPEN_TENANTS);
    opens("tenants", opening, 0, TWODFQ_OPEN_TENANTS);
    opens("pairs", (opening.kinds = MOST_PAIRS / MOST_TENANTS, opening), MOST_TENANTS, TWODFQ_OPENED);
    opens("pairs", (opening.kinds = MOST_PAIRS / MOST_TENANTS + 1, opening), MOST_TENANTS, TWODFQ_OPEN_PAIRS);
    opens("pairs", (opening.kinds = MOST_KINDS, opening), MOST_PAIRS / MOST_KINDS, TWODFQ_OPENED);
    opens("pairs", (opening.kinds = MOST_KINDS, opening), MOST_PAIRS / MOST_KINDS + 1, TWODFQ_OPEN_PAIRS);
    opening = plain();
    opens("policy", (opening.policy = TWODFQ_2DFQ_PLUS + 1, opening), 1, TWODFQ_OPEN_POLICY);
    opening = plain();
    opens("estimate", (opening.estimate = TWODFQ_PESSIMISTIC + 1, opening), 1, TWODFQ_OPEN_ESTIMATE);
    opening = plain();
    weights[1] = GREATEST_WEIGHT;
    opens("weight", opening, 2, TWODFQ_OPENED);
    weights[1] = GREATEST_WEIGHT + 1;
    opens("weight", opening, 2, TWODFQ_OPEN_WEIGHT);
    weights[1] = 0;
    opens("weight", opening, 2, TWODFQ_OPEN_WEIGHT);
    changes();

    twodfq scheduler = TWODFQ_NONE;
    no_scheduler(&scheduler);
    want("open", twodfq_open(&scheduler, &opening, weights, 1), TWODFQ_OPENED);
    want("open again", twodfq_open(&scheduler, &opening, weights, 1), TWODFQ_OPEN_ALREADY);
    want("what was held", twodfq_submit(&scheduler, 0, 0, 0, 0, 1, 0).kind, TWODFQ_REQUEST);
    want("what waits", twodfq_status(&scheduler).waiting, 1);
    twodfq_free(&scheduler);
    no_scheduler(&scheduler);
    printf("statuses: %d answers at and beyond the limits, of what is found, and of a handle that holds none\n", count);
}
