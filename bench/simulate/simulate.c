// Simulates a pool of workers over a situation from standard input, and prints its record. At one moment the reports come first,
// then the completions, by worker, then the submits, then the takes, by worker: as in `twodfq run`. A worker may be patient, like
// the workers of the pool in rust/.
#include <math.h>
#include <stdlib.h>

#include "simulate.h"

// The interval between two reports of a running request; the shortest patient wait; and the work of each worker over which waits
// may be saved up.
enum { REFRESH = 10000, SLEEP = 60, SAVED = 1000000 };

typedef struct {
    bool is_busy, is_patient;
    uint32_t place;       // the place of its request
    uint64_t begun, ends; // the moments of the take and the end of that request
    uint64_t next;        // the moment of its next report or its end, or of the end of the worker's patience
    uint64_t free_since, wait_begun, wait_time; // of a patient worker: the begin of its wait, and its longest time
} worker;

typedef struct {
    situation situation;
    service service;
    record record;
    worker workers[MOST_WORKERS];
    double next_random[MOST_TENANTS]; // the moment of a tenant's next random request, or of its join
    uint32_t submitted[MOST_TENANTS], open[MOST_TENANTS], open_tenants;
    double next_submit; // the least of next_random
    double spare;       // the time that workers may still wait patiently
    uint64_t slot, state; // the next moment at which lags are kept, and the state of the draws
} pool;

static uint64_t earlier(uint64_t one, uint64_t other) {
    return one < other ? one : other;
}

static double draw(pool *in) {
    in->state = in->state * 6364136223846793005u + 1442695040888963407u;
    return (double)(in->state >> 11) / 9007199254740992.0;
}

// By the transformation of Box and Muller (1958).
static uint64_t near(pool *in, double middle) {
    double radius = sqrt(-2 * log(1 - draw(in))), normal = radius * cos(2 * 3.14159265358979323846 * draw(in));
    return (uint64_t)llround(fmax(1, middle * (1 + normal / 10)));
}

static uint64_t draw_cost(pool *in, const group *of) {
    switch (of->law) {
    case FIXED: return (uint64_t)of->low;
    case NEAR: return near(in, of->low);
    case LOG_UNIFORM: return (uint64_t)llround(of->low * pow(of->high / of->low, draw(in)));
    default: return near(in, draw(in) < of->part ? of->high : of->low);
    }
}

static void come(pool *in, uint64_t moment, uint32_t tenant) {
    const group *of = &in->situation.groups[group_of(&in->situation, tenant)];
    if (of->most && in->submitted[tenant] == of->most) return;
    uint64_t cost = draw_cost(in, of);
    submit(&in->service, moment, tenant, cost, of->declared ? of->declared : cost);
    if (of->most) in->record.wanted[tenant] += (double)cost;
    in->submitted[tenant]++;
    in->open_tenants += !in->open[tenant]++;
}

static void begin(pool *in) {
    for (uint32_t i = 0; i < in->situation.workers; i++) in->workers[i].next = UINT64_MAX;
    for (uint32_t tenant = 0; tenant < in->situation.tenants; tenant++) {
        const group *of = &in->situation.groups[group_of(&in->situation, tenant)];
        in->next_random[tenant] = of->backlog ? draw(in) * (double)in->situation.joins : -log(1 - draw(in)) * of->interval;
    }
    in->next_submit = 0;
}

// A tenant with a backlog comes, and from then on submits a request at each take of one.
static void join(pool *in, uint64_t moment, uint32_t tenant, uint32_t backlog) {
    see_join(&in->record, &in->situation, tenant, moment);
    for (uint32_t i = 0; i < backlog; i++) come(in, moment, tenant);
    in->next_random[tenant] = INFINITY;
}

// Reports, completions and submits of a moment.

static void make_reports(pool *in, uint64_t moment) {
    for (uint32_t i = 0; i < in->situation.workers; i++) {
        worker *one = &in->workers[i];
        if (!one->is_busy || one->next != moment || moment == one->ends) continue;
        report(&in->service, moment, i, moment - one->begun);
        one->next = earlier(moment + REFRESH, one->ends);
    }
}

// The part of the time up to a moment that lies in the window.
static double within(const situation *of, uint64_t moment) {
    return moment <= of->from ? 0 : (double)((moment < of->to ? moment : of->to) - of->from);
}

static void make_completions(pool *in, uint64_t moment) {
    const situation *of = &in->situation;
    for (uint32_t i = 0; i < of->workers; i++) {
        worker *one = &in->workers[i];
        if (!one->is_busy || one->ends != moment) continue;
        uint64_t cost = moment - one->begun;
        uint32_t tenant = in->service.requests[one->place].tenant;
        done(&in->service, moment, i, one->place);
        in->record.work[tenant] += (double)cost;
        in->record.done[group_of(of, tenant)] += moment >= of->from;
        in->record.busy += within(of, moment) - within(of, one->begun);
        in->spare = fmin(of->patience * SAVED * of->workers, in->spare + of->patience * (double)cost);
        in->open_tenants -= !--in->open[tenant];
        *one = (worker){ .next = UINT64_MAX, .free_since = moment };
    }
}

static void make_submits(pool *in, uint64_t moment) {
    if (in->next_submit >= (double)(moment + 1)) return;
    in->next_submit = INFINITY;
    for (uint32_t tenant = 0; tenant < in->situation.tenants; tenant++) {
        const group *of = &in->situation.groups[group_of(&in->situation, tenant)];
        while (in->next_random[tenant] < (double)(moment + 1)) {
            if (of->backlog) {
                join(in, moment, tenant, of->backlog);
            } else {
                come(in, moment, tenant);
                in->next_random[tenant] += -log(1 - draw(in)) * of->interval;
            }
        }
        in->next_submit = fmin(in->next_submit, in->next_random[tenant]);
    }
}

// Takes, and the patience before them: rust/src/service/patience.rs has its rules.

static void settle(pool *in, worker *one, uint64_t moment) {
    if (!one->is_patient) return;
    in->spare += (double)one->wait_time - (double)(moment - one->wait_begun);
    one->is_patient = false;
    one->next = UINT64_MAX;
}

static bool waits_patiently(pool *in, uint32_t number, uint64_t moment) {
    worker *one = &in->workers[number];
    uint64_t estimate;
    double part = in->situation.patience;
    if (part <= 0 || in->open_tenants < 2 || !is_early(&in->service, moment, number, &estimate)) return false;
    uint64_t last = one->free_since + (uint64_t)(part * (double)estimate), spare = (uint64_t)fmax(in->spare, 0);
    uint64_t time = last > moment ? last - moment : 0;
    if (time > spare) time = spare;
    if (time <= SLEEP) return false;
    in->spare -= (double)time;
    one->is_patient = true;
    one->wait_begun = moment;
    one->wait_time = time;
    one->next = moment + time;
    return true;
}

static void begin_request(pool *in, worker *one, uint64_t moment, uint32_t place) {
    const request *begun = &in->service.requests[place];
    uint32_t tenant = begun->tenant, group = group_of(&in->situation, tenant);
    if (moment >= in->situation.from) see_wait(&in->record, group, (double)(moment - begun->submitted));
    uint64_t ends = moment + begun->cost;
    *one = (worker){ .is_busy = true, .place = place, .begun = moment, .ends = ends, .next = earlier(moment + REFRESH, ends) };
    if (in->situation.groups[group].backlog) come(in, moment, tenant);
}

static void make_takes(pool *in, uint64_t moment) {
    for (uint32_t i = 0; i < in->situation.workers; i++) {
        worker *one = &in->workers[i];
        if (one->is_busy) continue;
        settle(in, one, moment);
        if (waits_patiently(in, i, moment)) continue;
        uint32_t place = take(&in->service, moment, i);
        if (place != NOBODY) begin_request(in, one, moment, place);
    }
}

// Time.

static uint64_t next_moment(const pool *in) {
    uint64_t next = UINT64_MAX;
    for (uint32_t i = 0; i < in->situation.workers; i++) next = earlier(next, in->workers[i].next);
    return in->next_submit < (double)next ? (uint64_t)in->next_submit : next;
}

// Keeps the lags after each slot that ends before a moment.
static void look(pool *in, uint64_t before) {
    const situation *of = &in->situation;
    for (; in->slot < before && in->slot <= of->to; in->slot += of->slot) {
        double work[MOST_TENANTS];
        for (uint32_t tenant = 0; tenant < of->tenants; tenant++) work[tenant] = in->record.work[tenant];
        for (uint32_t i = 0; i < of->workers; i++) {
            const worker *one = &in->workers[i];
            if (one->is_busy) work[in->service.requests[one->place].tenant] += (double)(in->slot - one->begun);
        }
        for (uint32_t tenant = 0; tenant < of->tenants; tenant++) see_lag(&in->record, of, tenant, in->slot, work[tenant]);
    }
}

int main(void) {
    static pool in;
    read_situation(&in.situation);
    const situation *of = &in.situation;
    open_service(&in.service, of);
    open_record(&in.record, of);
    in.spare = of->patience * SAVED * of->workers;
    in.slot = of->from + of->slot;
    in.state = of->seed;
    for (int i = 0; i < 4; i++) draw(&in); // the first numbers of near seeds are near
    begin(&in);
    for (uint64_t moment = 0; moment < of->to; moment = next_moment(&in)) {
        look(&in, moment);
        make_reports(&in, moment);
        make_completions(&in, moment);
        make_submits(&in, moment);
        make_takes(&in, moment);
    }
    look(&in, UINT64_MAX);
    for (uint32_t i = 0; i < of->workers; i++)
        if (in.workers[i].is_busy) in.record.busy += within(of, of->to) - within(of, in.workers[i].begun);
    print_record(&in.record, of);
    return 0;
}
