// Random histories of many workers and tenants, under each policy and estimator, beside the plain model: each reply, each
// entry, each foreseen take and virtual time after each call are the same. Numbers come near their limits, and in the last
// histories all at once: the most workers, tenants and pairs, the greatest weights, costs, estimates and moments, and a
// room that ends.
#include <inttypes.h>
#include <stdio.h>
#include <string.h>

#include "model.h"

enum { MOST_WORKERS = 4096, MOST_TENANTS = 65536, GREATEST_WEIGHT = 100000, MOST_REQUESTS = 1048576 };

static const uint64_t greatest_initial = GREATEST_COST;
static uint32_t weights[MOST_TENANTS];
static twodfq scheduler;
static a_model model;
static uint64_t most_cost = GREATEST_COST; // of those drawn
static uint32_t few;                       // how many tenants send half of the requests, and so have queues
static uint64_t state = 7, compared, kinds_seen; // of the numbers drawn; the replies compared; a bit for each of their kinds

// A number below n, by a linear congruence.
static uint64_t draw(uint64_t n) {
    state = state * 6364136223846793005u + 1442695040888963407u;
    return (uint64_t)((wide)((state ^ state >> 31) >> 1) * n >> 63);
}

static bool by_lot(uint32_t in_thousand) { return draw(1000) < in_thousand; }

// A number from 1 on, of any order of magnitude, and now and then the greatest.
static uint64_t any(uint64_t greatest) {
    if (by_lot(150)) return greatest - draw(2);
    uint64_t most = greatest;
    for (uint64_t lot = draw(4); lot > 0; lot--) most = most / 40 + 1;
    return 1 + draw(most);
}

static void differ(const char *what, const void *given, const void *wanted, size_t size) {
    if (!memcmp(given, wanted, size)) return;
    fprintf(stderr, "wide: policy %" PRIu32 ", estimate %" PRIu32 ", %" PRIu32 " workers, %" PRIu32 " tenants: after %" PRIu64
        " entries %s differs:\n", model.opening.policy, model.opening.estimate, model.opening.workers, model.tenant_count,
        model.entries, what);
    const uint32_t *words[] = { given, wanted };
    for (int row = 0; row < 2; row++) {
        for (size_t i = 0; i < size / 4; i++) fprintf(stderr, " %" PRIu32, words[row][i]);
        fputs(row ? " is wanted\n" : " is given\n", stderr);
    }
    exit(1);
}

// The replies of both are the same, and so are the status and, after a call that adds one, the last entry.
static twodfq_reply same(const char *call, twodfq_reply given, twodfq_reply wanted) {
    static uint64_t entries; // of the model, at the last call
    differ(call, &given, &wanted, sizeof given);
    twodfq_standing status = twodfq_status(&scheduler), wanted_status = model_status(&model);
    differ("the status", &status, &wanted_status, sizeof status);
    if (model.entries > 0 && model.entries != entries) {
        twodfq_line line = twodfq_entry(&scheduler, model.entries - 1);
        differ("the last entry", &line, &model.last, sizeof line);
    }
    entries = model.entries;
    compared++;
    kinds_seen |= (uint64_t)1 << given.kind;
    return given;
}

// Each argument is read twice, so none is drawn here.
#define BOTH(call, ...) same(#call, twodfq_##call(&scheduler, __VA_ARGS__), model_##call(&model, __VA_ARGS__))

static void open_both(const twodfq_opening *opening, uint32_t tenants) {
    scheduler = (twodfq)TWODFQ_NONE;
    uint32_t status = twodfq_open(&scheduler, opening, weights, tenants);
    if (status != TWODFQ_OPENED) {
        fprintf(stderr, "wide: no scheduler: %s\n", twodfq_open_message(status));
        exit(1);
    }
    model = model_open(opening, weights, tenants);
    few = 1 + tenants / 50;
}

static void free_both(void) {
    twodfq_free(&scheduler);
    model_free(&model);
}

// The first worker from a drawn one on that runs a request, or runs none; a drawn one where there is no such worker.
static uint32_t worker_that(bool runs) {
    uint32_t workers = model.opening.workers, first = (uint32_t)draw(workers);
    for (uint32_t i = 0; i < workers; i++) {
        uint32_t worker = (first + i) % workers;
        if ((model.on_worker[worker] != NO_REQUEST) == runs) return worker;
    }
    return first;
}

static void submit(uint64_t moment) {
    uint32_t tenant = (uint32_t)draw(by_lot(500) ? model.tenant_count : few);
    uint32_t kind = (uint32_t)draw(model.opening.kinds);
    uint64_t declared = any(most_cost), label = draw(UINT64_MAX);
    if (by_lot(10)) tenant = model.tenant_count;
    if (by_lot(10)) kind = model.opening.kinds;
    if (by_lot(10)) declared = by_lot(500) ? 0 : GREATEST_COST + 1;
    BOTH(submit, MOST_WORKERS, moment, tenant, kind, declared, label);
}

static void take(uint64_t moment) {
    uint32_t worker = by_lot(950) ? worker_that(false) : (uint32_t)draw(model.opening.workers + 1);
    uint64_t below = any(most_cost);
    if (by_lot(250)) BOTH(foresee, moment, worker, below);
    BOTH(take, worker, moment, worker);
}

static void use(uint64_t moment, bool is_over) {
    uint32_t worker = by_lot(980) ? worker_that(true) : (uint32_t)draw(model.opening.workers + 1), number = NO_REQUEST;
    if (worker < model.opening.workers) number = model.on_worker[worker];
    uint64_t last = number == NO_REQUEST ? 0 : model.requests[number].used, used = last;
    if (by_lot(800)) used += draw(any(most_cost - last + 1));
    if (by_lot(10)) used = by_lot(500) ? GREATEST_COST + 1 : last - (last > 0);
    if (is_over) BOTH(done, worker, moment, worker, used);
    else BOTH(report, worker, moment, worker, used);
}

static void change(uint64_t moment) {
    uint32_t count = (uint32_t)any(model.opening.workers), weight = (uint32_t)any(GREATEST_WEIGHT);
    uint32_t tenant = (uint32_t)draw(model.tenant_count + 1), request = (uint32_t)draw(model.submits + 1);
    if (by_lot(100)) count = by_lot(500) ? 0 : model.opening.workers + 1;
    if (by_lot(50)) weight = by_lot(500) ? 0 : GREATEST_WEIGHT + 1;
    switch (draw(8)) {
    case 0: BOTH(workers, MOST_WORKERS, moment, count); break;
    case 1: BOTH(workers, MOST_WORKERS, moment, model.opening.workers); break;
    case 2:
    case 3:
    case 4: BOTH(weight, MOST_WORKERS, moment, tenant, weight); break;
    default: BOTH(withdraw, MOST_WORKERS, moment, request);
    }
}

// The moment of the next call: most come soon after the last, some before it, and a few much later.
static uint64_t next_moment(uint64_t leap) {
    uint64_t moment = model.moment;
    if (by_lot(20)) return moment - draw(moment < 50 ? moment + 1 : 50);
    if (by_lot(10)) return moment + any(leap);
    return moment + (by_lot(600) ? 0 : draw(20));
}

static void calls(uint32_t count, uint64_t leap) {
    for (uint32_t i = 0; i < count; i++) {
        uint64_t moment = next_moment(leap), lot = draw(1000);
        if (lot < 380) submit(moment);
        else if (lot < 690) take(moment);
        else if (lot < 930) use(moment, true);
        else if (lot < 970) use(moment, false);
        else change(moment);
    }
}

// After a close, which is refused the second time, what waits is taken and ends, and a worker finds nothing more.
static void drain(uint64_t most) {
    BOTH(close, MOST_WORKERS, model.moment);
    BOTH(close, MOST_WORKERS, model.moment);
    BOTH(submit, MOST_WORKERS, model.moment, 0, 0, 1, 0);
    while (model.running > 0) {
        uint32_t worker = worker_that(true);
        uint64_t moment = model.moment + draw(50), used = model.requests[model.on_worker[worker]].used;
        BOTH(done, worker, moment, worker, used);
        if (model.waiting > 0 && most > 0 && worker < model.pool) most--, BOTH(take, worker, model.moment, worker);
    }
    if (model.waiting == 0) BOTH(take, 0, model.moment, 0);
}

static void history(uint32_t policy, uint32_t estimate, uint32_t workers, uint32_t tenants, uint32_t count) {
    twodfq_opening opening = { .workers = workers, .kinds = 3, .entries = count * 4 / 5, .requests = 1 + (uint32_t)draw(count / 4),
        .policy = policy, .estimate = estimate, .initial = any(greatest_initial), .keep = by_lot(500) ? 1 : 0 };
    for (uint32_t t = 0; t < tenants; t++) weights[t] = (uint32_t)any(GREATEST_WEIGHT);
    open_both(&opening, tenants);
    calls(count, 1000000000);
    drain(1000);
    free_both();
}

// Lengths of a few steps, and a virtual time that takes some microseconds for a step, since most tenants have a long
// request and the greatest weight: so the others are eligible by a step, or not.
static void slow_time(uint32_t policy) {
    const uint32_t tenants = 10000, short_ones = 4;
    twodfq_opening opening = { .workers = 97, .kinds = 3, .entries = 4 * tenants, .requests = 2 * tenants, .policy = policy,
        .estimate = TWODFQ_DECLARED, .initial = 1 };
    for (uint32_t t = 0; t < tenants; t++) weights[t] = GREATEST_WEIGHT - t % 7;
    open_both(&opening, tenants);
    few = short_ones;
    for (uint32_t t = 0; t < tenants; t++) BOTH(submit, MOST_WORKERS, 0, t, 0, t < short_ones ? 1 + t % 5 : GREATEST_COST, 0);
    most_cost = 5;
    calls(6000, 100);
    drain(1000);
    most_cost = GREATEST_COST;
    free_both();
}

// Few tenants of the least weight, and the most workers: virtual time by the clock comes to its greatest, and later
// tenants begin there.
static void greatest_time(uint32_t policy) {
    twodfq_opening opening = { .workers = MOST_WORKERS, .kinds = 64, .entries = 6000, .requests = MOST_REQUESTS, .policy = policy,
        .estimate = TWODFQ_DECLARED, .initial = greatest_initial };
    for (uint32_t t = 0; t < 300; t++) weights[t] = t % 3 ? GREATEST_WEIGHT : 1;
    open_both(&opening, 300);
    BOTH(submit, MOST_WORKERS, 0, 0, 0, GREATEST_COST, 0);
    BOTH(take, 0, 0, 0);
    for (uint64_t moment = 1; moment < GREATEST_MOMENT / 2; moment *= 7) BOTH(report, 0, moment, 0, 1);
    BOTH(report, 0, GREATEST_MOMENT - 1000000000, 0, 1);
    calls(500, 1000000);
    BOTH(weight, MOST_WORKERS, GREATEST_MOMENT - 1, 1, 1);
    calls(3000, 1);
    BOTH(weight, MOST_WORKERS, UINT64_MAX, 1, GREATEST_WEIGHT);
    calls(3000, GREATEST_MOMENT);
    drain(1000);
    free_both();
}

// All limits at once. Each tenant has a request, so that the sum of the active weights is the greatest.
static void greatest_of_all(uint32_t policy, uint32_t estimate) {
    const uint32_t takes = 600;
    twodfq_opening opening = { .workers = MOST_WORKERS, .kinds = 16, .entries = 3 * MOST_TENANTS + 5000, .requests = MOST_REQUESTS,
        .policy = policy, .estimate = estimate, .initial = greatest_initial };
    for (uint32_t t = 0; t < MOST_TENANTS; t++) weights[t] = GREATEST_WEIGHT;
    open_both(&opening, MOST_TENANTS);
    for (uint32_t t = 0; t < MOST_TENANTS; t++) BOTH(submit, MOST_WORKERS, 0, t, t % 16, GREATEST_COST, UINT64_MAX - t);
    for (uint32_t i = 0; i < takes; i++) {
        uint64_t moment = i % 20 ? model.moment + 1 : model.moment + GREATEST_MOMENT / takes * 20;
        BOTH(take, MOST_WORKERS - 1, moment, MOST_WORKERS - 1 - i % 3 * (MOST_WORKERS / 2 - 1));
        use(moment, true);
        uint32_t tenant = (uint32_t)draw(MOST_TENANTS), weight = (uint32_t)any(GREATEST_WEIGHT);
        if (i % 5 == 0) BOTH(weight, MOST_WORKERS, moment, tenant, weight);
    }
    calls(1500, GREATEST_MOMENT);
    drain(100);
    free_both();
}

int main(void) {
    static const uint32_t sizes[][3] = { { 65, 20, 4000 }, { 100, 400, 4000 }, { 1000, 3000, 6000 }, { 4096, 5000, 10000 } };
    for (uint32_t policy = TWODFQ_WFQ; policy <= TWODFQ_2DFQ_PLUS; policy++) {
        for (uint32_t estimate = TWODFQ_DECLARED; estimate <= TWODFQ_PESSIMISTIC; estimate++)
            for (size_t i = 0; i < sizeof sizes / sizeof *sizes; i++) history(policy, estimate, sizes[i][0], sizes[i][1], sizes[i][2]);
        slow_time(policy);
        greatest_time(policy);
        greatest_of_all(policy, policy % 3);
    }
    for (uint32_t kind = TWODFQ_REQUEST; kind <= TWODFQ_REFUSED_NOT_WAITING; kind++) {
        bool is_kind = kind <= TWODFQ_FORESEEN || kind >= TWODFQ_REFUSED_CLOSED;
        if (is_kind == !(kinds_seen >> kind & 1)) {
            fprintf(stderr, "wide: no reply: %s\n", twodfq_reply_message(kind));
            return 1;
        }
    }
    printf("wide: %" PRIu64 " replies to random calls, of each kind, on up to %d workers for up to %d tenants are those of the model\n",
        compared, MOST_WORKERS, MOST_TENANTS);
}
