// A service without end: where a history has no more room the service closes its scheduler and opens the next. New jobs
// go to the new one; workers take from the old ones until these are drained. Each keeps only its last entries. A small
// room makes the service roll over a thousand times, and each job has to be run once.
#include <pthread.h>
#include <stdio.h>
#include <stdlib.h>
#include <time.h>

#include "twodfq.h"

enum { WORKERS = 4, PRODUCERS = 2, TENANTS = 8, EACH = 10000, JOBS = PRODUCERS * EACH };
enum { ENTRIES = 48, KEEP = 4, LIVE = 64 }; // entries of a history, those kept of it, and most schedulers at once

// A scheduler, how many of its jobs are not done, and whether it is closed. Once it is closed, and none of its jobs is
// left, it is given back.
typedef struct {
    twodfq scheduler;
    uint32_t left;
    bool is_closed;
} history;

static history histories[LIVE];
static bool is_last;            // whether no scheduler follows the newest
static uint64_t oldest, opened; // the first that is not given back, and how many were opened: each stands at its number modulo LIVE
static pthread_mutex_t lock = PTHREAD_MUTEX_INITIALIZER;
static pthread_cond_t news = PTHREAD_COND_INITIALIZER, room = PTHREAD_COND_INITIALIZER;
static unsigned char runs[JOBS];
static uint32_t weights[TENANTS];

static uint64_t microseconds(void) {
    struct timespec now;
    clock_gettime(CLOCK_MONOTONIC, &now);
    return (uint64_t)now.tv_sec * 1000000 + (uint64_t)now.tv_nsec / 1000;
}

static void want(const char *what, bool is_so) {
    if (is_so) return;
    fprintf(stderr, "rolling: not so: %s\n", what);
    abort();
}

static history *at(uint64_t number) { return &histories[number % LIVE]; }

// Opens the next scheduler, once there are few enough. The lock is held.
static void open_next(void) {
    twodfq_opening opening = {
        .workers = WORKERS,
        .kinds = 1,
        .entries = ENTRIES,
        .requests = ENTRIES, // so that the room ends first
        .policy = TWODFQ_2DFQ,
        .estimate = TWODFQ_RECENT,
        .initial = 10,
        .keep = KEEP,
    };
    while (opened - oldest == LIVE) pthread_cond_wait(&room, &lock);
    *at(opened) = (history){ TWODFQ_NONE, 0, false };
    want("a scheduler opens", twodfq_open(&at(opened)->scheduler, &opening, weights, TENANTS) == TWODFQ_OPENED);
    opened++;
    pthread_cond_broadcast(&room);
}

// Nothing more comes to the newest scheduler. The lock is held.
static void close_newest(void) {
    history *newest = at(opened - 1);
    want("a scheduler closes", twodfq_close(&newest->scheduler, WORKERS, microseconds()).kind == TWODFQ_ACCEPTED);
    newest->is_closed = true;
}

// Submits to the newest scheduler. Where it has no more room it is closed, and the job goes to the next. The lock is
// held.
static void submit(uint32_t who, uint32_t job) {
    for (;;) {
        history *newest = at(opened - 1);
        if (newest->is_closed) { // another producer is about to open the next
            pthread_cond_wait(&room, &lock);
            continue;
        }
        twodfq_reply reply = twodfq_submit(&newest->scheduler, who, microseconds(), job % TENANTS, 0, 1, job);
        if (reply.kind == TWODFQ_REQUEST) {
            newest->left++;
            return;
        }
        want("there is no more room", reply.kind == TWODFQ_REFUSED_FULL);
        close_newest();
        open_next();
    }
}

// Gives back the oldest schedulers as long as they are closed and no job is left. The lock is held.
static void give_back(void) {
    while (oldest < opened && at(oldest)->is_closed && !at(oldest)->left) {
        twodfq_free(&at(oldest)->scheduler);
        oldest++;
        pthread_cond_broadcast(&room);
    }
}

// The worker's next job, and the oldest scheduler that has a job for it; none at the end. The worker sleeps while
// nothing waits. The lock is held.
static history *next(uint32_t worker, twodfq_reply *run) {
    for (;;) {
        for (uint64_t number = oldest; number < opened; number++) {
            *run = twodfq_take(&at(number)->scheduler, worker, microseconds(), worker);
            if (run->kind == TWODFQ_RUN) return at(number);
        }
        if (is_last) return NULL;
        pthread_cond_wait(&news, &lock);
    }
}

static void *work(void *number) {
    uint32_t worker = *(uint32_t *)number;
    twodfq_reply run;
    pthread_mutex_lock(&lock);
    for (history *from; (from = next(worker, &run));) {
        pthread_mutex_unlock(&lock);
        runs[run.second]++;
        pthread_mutex_lock(&lock);
        twodfq_reply ended = twodfq_done(&from->scheduler, worker, microseconds(), worker, 1);
        want("a job is done", ended.kind == TWODFQ_ACCEPTED);
        from->left--;
        give_back();
    }
    pthread_mutex_unlock(&lock);
    return NULL;
}

static void *produce(void *number) {
    uint32_t producer = *(uint32_t *)number;
    for (uint32_t i = 0; i < EACH; i++) {
        pthread_mutex_lock(&lock);
        submit(WORKERS + producer, producer * EACH + i);
        pthread_mutex_unlock(&lock);
        pthread_cond_signal(&news);
    }
    return NULL;
}

static void start(pthread_t *threads, uint32_t *numbers, uint32_t count, void *(*run)(void *)) {
    for (uint32_t i = 0; i < count; i++) {
        numbers[i] = i;
        want("a thread starts", pthread_create(&threads[i], NULL, run, &numbers[i]) == 0);
    }
}

int main(void) {
    pthread_t workers[WORKERS], producers[PRODUCERS];
    uint32_t worker_numbers[WORKERS], producer_numbers[PRODUCERS];
    for (uint32_t tenant = 0; tenant < TENANTS; tenant++) weights[tenant] = 1 + tenant % 4;
    open_next();
    start(workers, worker_numbers, WORKERS, work);
    start(producers, producer_numbers, PRODUCERS, produce);
    for (uint32_t i = 0; i < PRODUCERS; i++) pthread_join(producers[i], NULL);

    pthread_mutex_lock(&lock);
    close_newest();
    is_last = true;
    pthread_mutex_unlock(&lock);
    pthread_cond_broadcast(&news);
    for (uint32_t i = 0; i < WORKERS; i++) pthread_join(workers[i], NULL);

    give_back();
    want("all are given back", oldest == opened);
    for (uint32_t job = 0; job < JOBS; job++) want("each job is run once", runs[job] == 1);
    want("it rolled over often", opened > 1000);
    printf("rolling: %d jobs by %d workers, each run once, over more than a thousand schedulers\n", JOBS, WORKERS);
}
