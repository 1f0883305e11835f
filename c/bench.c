// Times calls of the scheduler, bare and each under a mutex that nobody else wants: a first request of every tenant,
// then submits, takes, reports and dones drawn with a seed, with about as many requests waiting at the end as at the
// start. The calls are drawn before the clock starts. Then a thousand requests are withdrawn of full rooms of several
// sizes. Run it pinned to one processor.
#include <pthread.h>
#include <stdio.h>
#include <stdlib.h>
#include <time.h>

#include "twodfq.h"

enum { CALLS = 1000000, MOST_WORKERS = 64, ROUNDS = 5 };
enum { SUBMIT, TAKE, REPORT, DONE };

typedef struct {
    uint32_t kind, place; // the tenant of a submit, and else the worker
    uint64_t moment, amount;
} drawn_call;

static drawn_call calls[CALLS];
static uint64_t state;

// A number below n, by a linear congruence.
static uint32_t draw(uint32_t n) {
    state = state * 6364136223846793005u + 1442695040888963407u;
    return (uint32_t)((state >> 33) * n >> 31);
}

static uint64_t draw_cost(void) {
    static const uint64_t costs[] = { 10, 100, 5000 };
    return costs[draw(3)];
}

static void draw_calls(uint32_t tenants, uint32_t workers) {
    uint32_t idle[MOST_WORKERS], running[MOST_WORKERS], idle_count = workers, running_count = 0, waiting = 0;
    uint64_t used[MOST_WORKERS] = { 0 }, moment = 0;
    state = 7;
    for (uint32_t i = 0; i < workers; i++) idle[i] = i;
    for (uint32_t i = 0; i < CALLS; i++) {
        moment += draw(20);
        uint32_t lot = draw(100);
        if (i < tenants || lot < 32 || (!waiting && !running_count)) {
            calls[i] = (drawn_call){ SUBMIT, i < tenants ? i : draw(tenants), moment, draw_cost() };
            waiting++;
        } else if (idle_count && waiting && (lot < 64 || !running_count)) {
            uint32_t at = draw(idle_count), worker = idle[at];
            idle[at] = idle[--idle_count];
            running[running_count++] = worker;
            used[worker] = 0;
            waiting--;
            calls[i] = (drawn_call){ TAKE, worker, moment, 0 };
        } else {
            uint32_t at = draw(running_count), worker = running[at];
            used[worker] += lot > 96 ? draw(50) : draw_cost();
            calls[i] = (drawn_call){ lot > 96 ? REPORT : DONE, worker, moment, used[worker] };
            if (lot > 96) continue;
            running[at] = running[--running_count];
            idle[idle_count++] = worker;
        }
    }
}

static uint32_t make(twodfq *scheduler, const drawn_call *call, uint64_t label) {
    switch (call->kind) {
    case SUBMIT: return twodfq_submit(scheduler, 0, call->moment, call->place, call->place % 2, call->amount, label).kind;
    case TAKE: return twodfq_take(scheduler, 1, call->moment, call->place).kind;
    case REPORT: return twodfq_report(scheduler, 1, call->moment, call->place, call->amount).kind;
    default: return twodfq_done(scheduler, 1, call->moment, call->place, call->amount).kind;
    }
}

static double nanoseconds(void) {
    struct timespec now;
    clock_gettime(CLOCK_MONOTONIC, &now);
    return (double)now.tv_sec * 1e9 + (double)now.tv_nsec;
}

// Nanoseconds a call, the least of some rounds.
static double time_calls(uint32_t tenants, uint32_t workers, pthread_mutex_t *lock) {
    static uint32_t weights[4096];
    for (uint32_t tenant = 0; tenant < tenants; tenant++) weights[tenant] = 1 + tenant % 4;
    twodfq_opening opening = {
        .workers = workers,
        .kinds = 2,
        .entries = 2 * CALLS + 4,
        .requests = 262144,
        .policy = TWODFQ_2DFQ,
        .estimate = TWODFQ_PESSIMISTIC,
        .initial = 1000,
    };
    double least = 1e18;
    for (int round = 0; round < ROUNDS; round++) {
        twodfq scheduler = TWODFQ_NONE;
        if (twodfq_open(&scheduler, &opening, weights, tenants) != TWODFQ_OPENED) exit(1);
        double began = nanoseconds();
        for (uint32_t i = 0; i < CALLS; i++) {
            if (lock) pthread_mutex_lock(lock);
            uint32_t kind = make(&scheduler, &calls[i], i);
            if (lock) pthread_mutex_unlock(lock);
            if (kind > TWODFQ_ACCEPTED) exit(2); // each drawn call is accepted
        }
        double a_call = (nanoseconds() - began) / CALLS;
        if (a_call < least) least = a_call;
        twodfq_free(&scheduler);
    }
    return least;
}

// Nanoseconds of a call that is refused at once: the cost of a call beside the scheduler's own work is no more.
static double time_refusals(void) {
    enum { TIMES = 10000000 };
    twodfq scheduler = TWODFQ_NONE;
    twodfq_opening opening = { .workers = 1, .kinds = 1, .entries = 4, .requests = 1, .initial = 1 };
    uint32_t weight = 1, kinds = 0;
    if (twodfq_open(&scheduler, &opening, &weight, 1) != TWODFQ_OPENED) exit(1);
    double began = nanoseconds();
    for (uint32_t i = 0; i < TIMES; i++) kinds += twodfq_take(&scheduler, 0, i, 1).kind;
    double a_call = (nanoseconds() - began) / TIMES;
    if (kinds != (uint32_t)TIMES * TWODFQ_REFUSED_WORKER) exit(2);
    twodfq_free(&scheduler);
    return a_call;
}

// Nanoseconds of a withdraw, the least of some rounds: a thousand requests of 64 tenants, drawn from a full room.
static double time_withdraws(uint32_t room) {
    enum { TENANTS = 64, TIMES = 1000 };
    static uint32_t weights[TENANTS];
    for (uint32_t tenant = 0; tenant < TENANTS; tenant++) weights[tenant] = 1;
    twodfq_opening opening = {
        .workers = 8, .kinds = 1, .entries = 4 * room + 4, .requests = room, .policy = TWODFQ_2DFQ_PLUS, .initial = 1000,
    };
    double least = 1e18;
    for (int round = 0; round < ROUNDS; round++) {
        twodfq scheduler = TWODFQ_NONE;
        if (twodfq_open(&scheduler, &opening, weights, TENANTS) != TWODFQ_OPENED) exit(1);
        state = 7;
        for (uint32_t i = 0; i < room; i++)
            if (twodfq_submit(&scheduler, 0, i, draw(TENANTS), 0, 100, i).kind != TWODFQ_REQUEST) exit(2);
        double began = nanoseconds();
        for (uint32_t i = 0; i < TIMES; i++)
            if (twodfq_withdraw(&scheduler, 0, room, i * (room / TIMES)).kind != TWODFQ_WITHDRAWN) exit(2);
        double a_call = (nanoseconds() - began) / TIMES;
        if (a_call < least) least = a_call;
        twodfq_free(&scheduler);
    }
    return least;
}

int main(void) {
    static const uint32_t sizes[][2] = { { 64, 8 }, { 4096, 64 } };
    pthread_mutex_t lock = PTHREAD_MUTEX_INITIALIZER;
    for (int i = 0; i < 2; i++) {
        uint32_t tenants = sizes[i][0], workers = sizes[i][1];
        draw_calls(tenants, workers);
        double bare = time_calls(tenants, workers, NULL), locked = time_calls(tenants, workers, &lock);
        printf("| %u | %u | %.0f | %.0f |\n", tenants, workers, bare, locked);
    }
    printf("\nA call that is refused at once: %.0f.\n", time_refusals());
    printf("A withdraw from a full room of 2,000: %.0f, of 20,000: %.0f, of 200,000: %.0f.\n", time_withdraws(2000),
        time_withdraws(20000), time_withdraws(200000));
}
