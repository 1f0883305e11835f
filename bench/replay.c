// Serves the requests of a trace by a simulated pool over the library, whose workers may be patient, like those of the pool in rust/:
// before a request that is before its time a worker waits for a while, so that it is a reserve for short requests. At one moment the
// reports come first, then the completions, by worker, then the submits, then the takes, by worker: as in `twodfq run`, whose takes
// are these if nobody is patient. tools/reserve.py builds it, and writes its input, numbers with spaces between them:
//
//   WORKERS POLICY ESTIMATE INITIAL REFRESH PATIENCE TENANTS KINDS REQUESTS     policy and estimate by their numbers in twodfq.h
//   WEIGHT                                   of each tenant
//   MOMENT TENANT KIND DECLARED COST         of each request
//
// It prints of each request the moment of its take and its worker.
#include <inttypes.h>
#include <math.h>
#include <stdbool.h>
#include <stdio.h>
#include <stdlib.h>

#include "twodfq.h"

// The shortest patient wait, and the work of each worker over which waits may be saved up: bench/simulate has both.
enum { MOST_WORKERS = 64, SLEEP = 60, SAVED = 1000000 };

typedef struct {
    uint64_t moment, declared, cost, taken;
    uint32_t tenant, kind, worker;
} request;

typedef struct {
    bool is_busy, is_patient;
    uint32_t number;            // of its request
    uint64_t begun, ends, next; // the moments of its take and its end, and that of its next report, its end, or that of its patience
    uint64_t free_since, wait_begun, wait_time;
} worker;

static uint32_t workers_count, policy, estimate, tenants, kinds, count;
static uint64_t initial, refresh;
static double patience, spare; // the part of its work that a worker may wait, and the time that all may still wait
static twodfq scheduler = TWODFQ_NONE;
static worker workers[MOST_WORKERS];
static request *requests;
static uint32_t *weights, *open_of, open_tenants, waiting, coming; // coming is the number of the next request

static void fail(const char *why) {
    fprintf(stderr, "replay: %s\n", why);
    exit(1);
}

static void *room_for(size_t places, size_t size) {
    void *room = calloc(places ? places : 1, size);
    if (!room) fail("out of memory");
    return room;
}

static void read_trace(void) {
    int read = scanf("%" SCNu32 " %" SCNu32 " %" SCNu32 " %" SCNu64 " %" SCNu64 " %lf %" SCNu32 " %" SCNu32 " %" SCNu32, &workers_count,
        &policy, &estimate, &initial, &refresh, &patience, &tenants, &kinds, &count);
    if (read != 9 || !workers_count || workers_count > MOST_WORKERS) fail("the first line is not understood");
    weights = room_for(tenants, sizeof *weights);
    open_of = room_for(tenants, sizeof *open_of);
    requests = room_for(count, sizeof *requests);
    for (uint32_t tenant = 0; tenant < tenants; tenant++)
        if (scanf("%" SCNu32, &weights[tenant]) != 1) fail("a weight is missing");
    for (uint32_t number = 0; number < count; number++) {
        request *one = &requests[number];
        read = scanf("%" SCNu64 " %" SCNu32 " %" SCNu32 " %" SCNu64 " %" SCNu64, &one->moment, &one->tenant, &one->kind, &one->declared,
            &one->cost);
        if (read != 5 || one->tenant >= tenants || one->kind >= kinds) fail("a request is not understood");
    }
}

static void open_scheduler(void) {
    twodfq_opening opening = {
        .workers = workers_count, .kinds = kinds, .entries = 4000000000, .requests = count ? count : 1, .policy = policy,
        .estimate = estimate, .initial = initial, .keep = 1,
    };
    if (twodfq_open(&scheduler, &opening, weights, tenants) != TWODFQ_OPENED) fail("no scheduler opens");
}

static uint64_t next_of(uint64_t moment, uint64_t ends) {
    return refresh && moment + refresh < ends ? moment + refresh : ends;
}

static void make_reports(uint64_t moment) {
    for (uint32_t i = 0; i < workers_count; i++) {
        worker *one = &workers[i];
        if (!one->is_busy || one->next != moment || moment == one->ends) continue;
        if (twodfq_report(&scheduler, i, moment, i, moment - one->begun).kind != TWODFQ_ACCEPTED) fail("a report is refused");
        one->next = next_of(moment, one->ends);
    }
}

static void make_completions(uint64_t moment) {
    for (uint32_t i = 0; i < workers_count; i++) {
        worker *one = &workers[i];
        if (!one->is_busy || one->ends != moment) continue;
        const request *ended = &requests[one->number];
        if (twodfq_done(&scheduler, i, moment, i, ended->cost).kind != TWODFQ_ACCEPTED) fail("a done is refused");
        spare = fmin(patience * SAVED * workers_count, spare + patience * (double)ended->cost);
        open_tenants -= !--open_of[ended->tenant];
        *one = (worker){ .next = UINT64_MAX, .free_since = moment };
    }
}

static void make_submits(uint64_t moment) {
    for (; coming < count && requests[coming].moment == moment; coming++) {
        const request *one = &requests[coming];
        twodfq_reply reply = twodfq_submit(&scheduler, 0, moment, one->tenant, one->kind, one->declared, coming);
        if (reply.kind != TWODFQ_REQUEST) fail("a submit is refused");
        open_tenants += !open_of[one->tenant]++;
        waiting++;
    }
}

static void settle(worker *one, uint64_t moment) {
    if (!one->is_patient) return;
    spare += (double)one->wait_time - (double)(moment - one->wait_begun);
    one->is_patient = false;
    one->next = UINT64_MAX;
}

// Whether a worker waits before its next request, by the rules of rust/src/service/patience.rs.
static bool waits_patiently(uint32_t number, uint64_t moment) {
    worker *one = &workers[number];
    if (patience <= 0 || open_tenants < 2) return false;
    twodfq_reply next = twodfq_foresee(&scheduler, moment, number, 0);
    if (next.kind != TWODFQ_FORESEEN || next.is_eligible) return false;
    uint64_t last = one->free_since + (uint64_t)(patience * (double)next.first), saved = (uint64_t)fmax(spare, 0);
    uint64_t time = last > moment ? last - moment : 0;
    if (time > saved) time = saved;
    if (time <= SLEEP) return false;
    spare -= (double)time;
    one->is_patient = true;
    one->wait_begun = moment;
    one->wait_time = time;
    one->next = moment + time;
    return true;
}

static void make_takes(uint64_t moment) {
    for (uint32_t i = 0; i < workers_count; i++) {
        worker *one = &workers[i];
        if (one->is_busy) continue;
        settle(one, moment);
        if (!waiting || waits_patiently(i, moment)) continue;
        twodfq_reply reply = twodfq_take(&scheduler, i, moment, i);
        if (reply.kind != TWODFQ_RUN) fail("a take gives nothing");
        request *taken = &requests[reply.second];
        uint64_t ends = moment + taken->cost;
        taken->taken = moment;
        taken->worker = i;
        waiting--;
        *one = (worker){ .is_busy = true, .number = (uint32_t)reply.second, .begun = moment, .ends = ends, .next = next_of(moment, ends) };
    }
}

static uint64_t next_moment(void) {
    uint64_t next = coming < count ? requests[coming].moment : UINT64_MAX;
    for (uint32_t i = 0; i < workers_count; i++)
        if (workers[i].next < next) next = workers[i].next;
    return next;
}

int main(void) {
    read_trace();
    open_scheduler();
    spare = patience * SAVED * workers_count;
    for (uint32_t i = 0; i < workers_count; i++) workers[i].next = UINT64_MAX;
    for (uint64_t moment = next_moment(); moment != UINT64_MAX; moment = next_moment()) {
        make_reports(moment);
        make_completions(moment);
        make_submits(moment);
        make_takes(moment);
    }
    for (uint32_t number = 0; number < count; number++) printf("%" PRIu64 " %" PRIu32 "\n", requests[number].taken, requests[number].worker);
    return 0;
}
