// A service: producers submit jobs, and workers run them, over one scheduler. The lock is the service's own, and so is
// the condition on which workers with nothing to do sleep. Each job has to be run once.
#include <pthread.h>
#include <stdio.h>
#include <stdlib.h>
#include <time.h>

#include "twodfq.h"

enum { WORKERS = 8, PRODUCERS = 4, TENANTS = 64, EACH = 20000, JOBS = PRODUCERS * EACH };

static twodfq scheduler = TWODFQ_NONE;
static pthread_mutex_t lock = PTHREAD_MUTEX_INITIALIZER;
static pthread_cond_t news = PTHREAD_COND_INITIALIZER;
static unsigned char runs[JOBS]; // how often each job was run; a job is known by its label
static uint64_t sleeps;          // how often a worker slept; under the lock

static uint64_t microseconds(void) {
    struct timespec now;
    clock_gettime(CLOCK_MONOTONIC, &now);
    return (uint64_t)now.tv_sec * 1000000 + (uint64_t)now.tv_nsec / 1000;
}

static void want(const char *what, bool is_so) {
    if (is_so) return;
    fprintf(stderr, "service: not so: %s\n", what);
    abort();
}

// The worker's next job, or drained at the end. It sleeps while nothing waits.
static twodfq_reply next(uint32_t worker) {
    twodfq_reply reply;
    pthread_mutex_lock(&lock);
    while ((reply = twodfq_take(&scheduler, worker, microseconds(), worker)).kind == TWODFQ_IDLE) {
        sleeps++;
        pthread_cond_wait(&news, &lock);
    }
    pthread_mutex_unlock(&lock);
    return reply;
}

static void *work(void *number) {
    uint32_t worker = *(uint32_t *)number;
    for (;;) {
        twodfq_reply reply = next(worker);
        if (reply.kind == TWODFQ_DRAINED) return NULL;
        want("a worker is given a job", reply.kind == TWODFQ_RUN);
        uint64_t begun = microseconds();
        runs[reply.second]++;
        uint64_t cost = microseconds() - begun;
        pthread_mutex_lock(&lock);
        twodfq_reply ended = twodfq_done(&scheduler, worker, microseconds(), worker, cost);
        pthread_mutex_unlock(&lock);
        want("a job is done", ended.kind == TWODFQ_ACCEPTED);
    }
}

static void *produce(void *number) {
    uint32_t producer = *(uint32_t *)number;
    for (uint32_t i = 0; i < EACH; i++) {
        uint32_t job = producer * EACH + i;
        pthread_mutex_lock(&lock);
        twodfq_reply reply = twodfq_submit(&scheduler, WORKERS + producer, microseconds(), job % TENANTS, 0, 1, job);
        pthread_mutex_unlock(&lock);
        want("a job is submitted", reply.kind == TWODFQ_REQUEST);
        pthread_cond_signal(&news);
        if (i % 1000 == 0) nanosleep(&(struct timespec){ .tv_nsec = 1000000 }, NULL); // so that workers run out of work, too
    }
    return NULL;
}

static void start(pthread_t *threads, uint32_t *numbers, uint32_t count, void *(*run)(void *)) {
    for (uint32_t i = 0; i < count; i++) {
        numbers[i] = i;
        want("a thread starts", pthread_create(&threads[i], NULL, run, &numbers[i]) == 0);
    }
}

int main(void) {
    uint32_t weights[TENANTS];
    for (uint32_t tenant = 0; tenant < TENANTS; tenant++) weights[tenant] = 1 + tenant % 4;
    twodfq_opening opening = {
        .workers = WORKERS,
        .kinds = 1,
        .entries = 3 * JOBS + 1, // a submit, a take and a done for each, and the close
        .requests = JOBS,
        .policy = TWODFQ_2DFQ,
        .estimate = TWODFQ_RECENT,
        .initial = 10,
    };
    want("a scheduler opens", twodfq_open(&scheduler, &opening, weights, TENANTS) == TWODFQ_OPENED);

    pthread_t workers[WORKERS], producers[PRODUCERS];
    uint32_t worker_numbers[WORKERS], producer_numbers[PRODUCERS];
    start(workers, worker_numbers, WORKERS, work);
    start(producers, producer_numbers, PRODUCERS, produce);
    for (uint32_t i = 0; i < PRODUCERS; i++) pthread_join(producers[i], NULL);

    pthread_mutex_lock(&lock);
    twodfq_close(&scheduler, 0, microseconds());
    pthread_mutex_unlock(&lock);
    pthread_cond_broadcast(&news); // workers that sleep have to learn that nothing more comes
    for (uint32_t i = 0; i < WORKERS; i++) pthread_join(workers[i], NULL);

    twodfq_free(&scheduler);
    for (uint32_t job = 0; job < JOBS; job++) want("each job is run once", runs[job] == 1);
    printf("service: %d jobs by %d workers, each run once; a worker slept %s\n", JOBS, WORKERS, sleeps ? "now and then" : "never");
}
