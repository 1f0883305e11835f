// Times the calls of a scheduler of many workers and tenants. Each tenant always has one request that waits. A worker
// that is done asks what it would take and takes it, and the tenant that it served submits again. A first scheduler
// draws the calls. They are made anew on a second one, with a clock around each, and the answers have to be the same.
// Then the dearest takes: no head is eligible, and each block of the order has one that is nearly so.
#include <stdbool.h>
#include <stdint.h>
#include <stdio.h>
#include <stdlib.h>
#include <time.h>

#include "twodfq.h"

enum { CYCLES = 200000, MOST_WORKERS = 4096, MOST_TENANTS = 65536 };

typedef struct {
    uint64_t end;
    uint32_t worker;
} course;

typedef struct {
    uint64_t moment, cost;
    uint32_t worker, request, tenant;
    uint64_t next_cost;
} cycle;

typedef uint64_t (*cost_of)(uint32_t tenant);

static course running[MOST_WORKERS]; // a heap by end
static cycle cycles[CYCLES];
static uint32_t weights[MOST_TENANTS];
static uint64_t firsts[MOST_TENANTS], state;
static double empty; // nanoseconds of two readings of the clock

static double uniform(void) {
    state = state * 6364136223846793005u + 1442695040888963407u;
    return (double)(state >> 11) / 9007199254740992.0;
}

// one tenant of two asks for 0.3 ms, and the others for 100 ms
static uint64_t two_costs(uint32_t tenant) { return tenant % 2 ? 100000 : 300; }

// from 10 microseconds to 100 ms, each decade alike
static uint64_t four_decades(uint32_t tenant) {
    (void)tenant;
    double cost = 10;
    for (double decades = 4 * uniform(); decades > 0; decades -= 0.125) cost *= 1.333521432163324; // 10 ^ (1 / 8)
    return (uint64_t)cost;
}

static void begin(uint32_t *count, course c) {
    uint32_t at = (*count)++;
    for (; at && running[(at - 1) / 2].end > c.end; at = (at - 1) / 2) running[at] = running[(at - 1) / 2];
    running[at] = c;
}

static course first_end(uint32_t *count) {
    course first = running[0], last = running[--*count];
    uint32_t at = 0;
    for (;;) {
        uint32_t child = 2 * at + 1;
        if (child >= *count) break;
        if (child + 1 < *count && running[child + 1].end < running[child].end) child++;
        if (running[child].end >= last.end) break;
        running[at] = running[child];
        at = child;
    }
    running[at] = last;
    return first;
}

static double nanoseconds(void) {
    struct timespec now;
    clock_gettime(CLOCK_MONOTONIC, &now);
    return (double)now.tv_sec * 1e9 + (double)now.tv_nsec;
}

static void want(bool holds, const char *what) {
    if (holds) return;
    fprintf(stderr, "bench/wide: %s\n", what);
    exit(1);
}

// the label is the tenant
static void submit(twodfq *scheduler, uint64_t moment, uint32_t tenant, uint64_t cost) {
    want(twodfq_submit(scheduler, 0, moment, tenant, 0, cost, tenant).kind == TWODFQ_REQUEST, "a submit");
}

// a scheduler of 2dfq policies that keeps its last entries alone
static twodfq opened_by(uint32_t policy, uint32_t estimate, uint32_t workers, uint32_t tenants, uint32_t requests) {
    twodfq_opening opening = {
        .workers = workers,
        .kinds = 1,
        .entries = 16 * requests + 4 * CYCLES,
        .requests = requests,
        .policy = policy,
        .estimate = estimate,
        .initial = 1000,
        .keep = 1024,
    };
    twodfq scheduler = TWODFQ_NONE;
    want(twodfq_open(&scheduler, &opening, weights, tenants) == TWODFQ_OPENED, "no scheduler was opened");
    return scheduler;
}

// one whose tenants have a first request each
static twodfq opened(uint32_t workers, uint32_t tenants, cost_of cost) {
    twodfq scheduler = opened_by(TWODFQ_2DFQ_PLUS, TWODFQ_RECENT, workers, tenants, tenants + workers + 1);
    for (uint32_t tenant = 0; tenant < tenants; tenant++) {
        firsts[tenant] = cost(tenant);
        submit(&scheduler, 0, tenant, firsts[tenant]);
    }
    return scheduler;
}

// Draws the cycles; labels are tenants. Each worker begins with a request, whose tenant submits another.
static void draw_cycles(uint32_t workers, uint32_t tenants, cost_of cost) {
    static uint64_t costs[MOST_TENANTS]; // of what a tenant has waiting
    static uint64_t taken[MOST_WORKERS];
    static uint32_t served[MOST_WORKERS];
    state = 7;
    twodfq scheduler = opened(workers, tenants, cost);
    for (uint32_t tenant = 0; tenant < tenants; tenant++) costs[tenant] = firsts[tenant];
    uint32_t count = 0;
    for (uint32_t i = 0; i < workers; i++) {
        twodfq_reply run = twodfq_take(&scheduler, 0, 0, i);
        if (run.kind != TWODFQ_RUN) continue; // fewer tenants than workers
        served[i] = (uint32_t)run.second;
        taken[i] = costs[served[i]];
        begin(&count, (course){ taken[i], i });
        costs[served[i]] = cost(served[i]);
        submit(&scheduler, 0, served[i], costs[served[i]]);
    }
    for (uint32_t at = 0; at < CYCLES; at++) {
        course end = first_end(&count);
        cycle *c = &cycles[at];
        *c = (cycle){ .moment = end.end, .cost = taken[end.worker], .worker = end.worker };
        want(twodfq_done(&scheduler, 0, c->moment, c->worker, c->cost).kind == TWODFQ_ACCEPTED, "a done");
        twodfq_reply run = twodfq_take(&scheduler, 0, c->moment, c->worker);
        want(run.kind == TWODFQ_RUN, "a take");
        c->request = run.request;
        c->tenant = (uint32_t)run.second;
        c->next_cost = cost(c->tenant);
        submit(&scheduler, c->moment, c->tenant, c->next_cost);
        taken[c->worker] = costs[c->tenant];
        costs[c->tenant] = c->next_cost;
        begin(&count, (course){ c->moment + taken[c->worker], c->worker });
    }
    twodfq_free(&scheduler);
}

enum { DONE, FORESEE, TAKE, SUBMIT, CALLS };

static double takes[CYCLES]; // nanoseconds of each take

// what a call took that began then
static double took(double began) { return nanoseconds() - began - empty; }

static int compare(const void *one, const void *other) {
    double a = *(const double *)one, b = *(const double *)other;
    return (a > b) - (a < b);
}

// the time that this part of the takes, in ten thousandths, does not exceed
static double quantile(uint32_t count, uint32_t part) {
    qsort(takes, count, sizeof *takes, compare);
    return takes[(uint64_t)count * part / 10000];
}

static void time_cycles(const char *costs, uint32_t workers, uint32_t tenants, cost_of cost) {
    draw_cycles(workers, tenants, cost);
    state = 7;
    twodfq scheduler = opened(workers, tenants, cost);
    for (uint32_t i = 0; i < workers; i++) {
        twodfq_reply run = twodfq_take(&scheduler, 0, 0, i);
        if (run.kind != TWODFQ_RUN) continue;
        uint32_t tenant = (uint32_t)run.second;
        twodfq_submit(&scheduler, 0, 0, tenant, 0, cost(tenant), tenant);
    }
    double sums[CALLS] = { 0 };
    for (uint32_t at = 0; at < CYCLES; at++) {
        cycle *c = &cycles[at];
        double began = nanoseconds();
        twodfq_done(&scheduler, 0, c->moment, c->worker, c->cost);
        sums[DONE] += took(began);
        began = nanoseconds();
        twodfq_reply foreseen = twodfq_foresee(&scheduler, c->moment, c->worker, 1000);
        sums[FORESEE] += took(began);
        began = nanoseconds();
        twodfq_reply run = twodfq_take(&scheduler, 0, c->moment, c->worker);
        takes[at] = took(began);
        sums[TAKE] += takes[at];
        began = nanoseconds();
        twodfq_submit(&scheduler, 0, c->moment, c->tenant, 0, c->next_cost, c->tenant);
        sums[SUBMIT] += took(began);
        want(run.request == c->request && foreseen.request == c->request, "another request than at first");
    }
    twodfq_free(&scheduler);
    double all = 0;
    for (int call = 0; call < CALLS; call++) all += sums[call] / CYCLES;
    printf("| %s | %u | %u |", costs, workers, tenants);
    for (int call = 0; call < CALLS; call++) printf(" %.0f |", sums[call] / CYCLES);
    printf(" %.0f | %.0f |\n", all, quantile(CYCLES, 9999));
    fflush(stdout);
}

// The dearest takes: every tenant has run ahead, so that no head is eligible, and one head of some thirty is a hundred
// times as long as the others: it may become eligible first, so its block is looked into. The last worker takes.
static void time_worst(uint32_t workers, uint32_t tenants) {
    enum { TAKES = 2000 };
    twodfq scheduler = opened_by(TWODFQ_2DFQ, TWODFQ_DECLARED, workers, tenants, 2 * tenants);
    for (uint32_t tenant = 0; tenant < tenants; tenant++) twodfq_submit(&scheduler, 0, 0, tenant, 0, 1000000, tenant);
    for (uint32_t tenant = 0; tenant < tenants; tenant++) { // each is served once, at no time
        twodfq_take(&scheduler, 0, 0, 0);
        twodfq_done(&scheduler, 0, 0, 0, 1000000);
    }
    for (uint32_t tenant = 0; tenant < tenants; tenant++)
        twodfq_submit(&scheduler, 0, 0, tenant, 0, tenant % 31 ? 1000 + tenant % 1000 : 100000 + tenant % 1000, tenant);
    double sum = 0;
    for (uint32_t i = 0; i < TAKES; i++) {
        double began = nanoseconds();
        twodfq_reply run = twodfq_take(&scheduler, 0, 0, workers - 1);
        takes[i] = took(began);
        sum += takes[i];
        want(run.kind == TWODFQ_RUN, "a take");
        twodfq_done(&scheduler, 0, 0, workers - 1, 1000000);
        uint32_t tenant = (uint32_t)run.second;
        twodfq_submit(&scheduler, 0, 0, tenant, 0, tenant % 31 ? 1000 + tenant % 1000 : 100000 + tenant % 1000, tenant);
    }
    printf("The dearest takes, of %u workers and %u tenants: %.0f on average, 99 of 100 below %.0f.\n", workers, tenants,
        sum / TAKES, quantile(TAKES, 9900));
    fflush(stdout);
    twodfq_free(&scheduler);
}

int main(void) {
    static const uint32_t all_workers[] = { 16, 64, 1024, 4096 }, all_tenants[] = { 100, 4096, 65536 };
    for (uint32_t tenant = 0; tenant < MOST_TENANTS; tenant++) weights[tenant] = 1 + tenant % 4;
    double began = nanoseconds();
    for (int i = 0; i < 1000000; i++) nanoseconds();
    empty = (nanoseconds() - began) / 1e6;
    for (int pattern = 0; pattern < 2; pattern++)
        for (int t = 0; t < 3; t++)
            for (int w = 0; w < 4; w++) {
                cost_of cost = pattern ? four_decades : two_costs;
                time_cycles(pattern ? "four decades" : "0.3 and 100 ms", all_workers[w], all_tenants[t], cost);
            }
    printf("\n");
    for (int t = 1; t < 3; t++) time_worst(4096, all_tenants[t]);
}
