// Patience: where no waiting request is eligible for a free worker, it waits a little before it takes one before its
// time, and takes at once an eligible request that comes meanwhile. Costly requests run, and one more waits for its
// time. Cheap requests that come while workers are patient have to be served before it. It is served when patience
// ends, or at once where nothing more comes.
#include <pthread.h>
#include <stdio.h>
#include <stdlib.h>
#include <time.h>

#include "twodfq.h"

enum { WORKERS = 4, CHEAP = 1000, JOBS = CHEAP + 4, SECOND = 1000000 };
enum { REPORTS, BACKUPS, PAGES, TENANTS };                           // pages are cheap
enum { LONG_REPORT = CHEAP, NEXT_REPORT, LONG_BACKUP, NEXT_BACKUP }; // the jobs that are not pages
enum { PART = 50, SHORTEST = 100 }; // a worker waits for a 50th of the estimate, if a sleep is not too late for it

static twodfq scheduler = TWODFQ_NONE;
static pthread_mutex_t lock = PTHREAD_MUTEX_INITIALIZER; // of the variables below
static pthread_cond_t news;                              // for workers: a change
static pthread_cond_t seen = PTHREAD_COND_INITIALIZER;   // for the client: a change, or a worker is patient
static uint32_t unfinished[TENANTS];                     // how many jobs wait or run
static uint32_t begun, begun_at[JOBS];                   // how many jobs were begun, and the place of each, from 1 on
static uint32_t patient;                                 // how many workers are patient
static bool ended[JOBS], is_closed;
static pthread_mutex_t gate = PTHREAD_MUTEX_INITIALIZER; // the client holds it, and two long jobs run until it doesn't

static uint64_t microseconds(void) {
    struct timespec now;
    clock_gettime(CLOCK_MONOTONIC, &now);
    return (uint64_t)now.tv_sec * SECOND + (uint64_t)now.tv_nsec / 1000;
}

static void want(const char *what, bool is_so) {
    if (is_so) return;
    fprintf(stderr, "patient: not so: %s\n", what);
    abort();
}

static void tell(void) {
    pthread_cond_broadcast(&news);
    pthread_cond_broadcast(&seen);
}

static uint32_t tenant_of(uint64_t job) {
    return job < CHEAP ? PAGES : job < LONG_BACKUP ? REPORTS : BACKUPS;
}

static bool is_one_tenant_alone(void) {
    uint32_t tenants = 0;
    for (uint32_t tenant = 0; tenant < TENANTS; tenant++) tenants += unfinished[tenant] != 0;
    return tenants <= 1;
}

// The longest wait of the worker, from the moment at which it became free, or 0.
static uint64_t patience(uint32_t worker, uint64_t now) {
    if (is_closed || is_one_tenant_alone()) return 0; // nobody's request would be served sooner for it
    twodfq_reply next = twodfq_foresee(&scheduler, now, worker, 0);
    uint64_t longest = next.kind == TWODFQ_FORESEEN && !next.is_eligible ? next.first / PART : 0;
    return longest > SHORTEST ? longest : 0;
}

static void wait_until(uint64_t moment) {
    struct timespec end = { .tv_sec = (time_t)(moment / SECOND), .tv_nsec = (long)(moment % SECOND) * 1000 };
    patient++;
    pthread_cond_broadcast(&seen);
    pthread_cond_timedwait(&news, &lock, &end);
    patient--;
}

// The next job of the worker, or drained at the end.
static twodfq_reply next(uint32_t worker) {
    for (uint64_t since = microseconds();;) {
        uint64_t now = microseconds(), end = since + patience(worker, now);
        if (now < end) {
            wait_until(end);
            continue;
        }
        twodfq_reply reply = twodfq_take(&scheduler, worker, now, worker);
        if (reply.kind != TWODFQ_IDLE) return reply;
        pthread_cond_wait(&news, &lock);
    }
}

// The lock is not held while the job runs.
static void run(uint64_t job) {
    pthread_mutex_unlock(&lock);
    if (job == LONG_REPORT || job == LONG_BACKUP) {
        pthread_mutex_lock(&gate);
        pthread_mutex_unlock(&gate);
    }
    pthread_mutex_lock(&lock);
}

static void *work(void *number) {
    uint32_t worker = *(uint32_t *)number;
    pthread_mutex_lock(&lock);
    twodfq_reply reply;
    while ((reply = next(worker)).kind == TWODFQ_RUN) {
        uint64_t job = reply.second, at = microseconds();
        begun_at[job] = ++begun;
        tell(); // a take may make a request eligible for another worker, or leave none waiting
        run(job);
        uint64_t now = microseconds();
        want("a job is done", twodfq_done(&scheduler, worker, now, worker, now - at).kind == TWODFQ_ACCEPTED);
        ended[job] = true;
        unfinished[tenant_of(job)]--;
        tell();
    }
    pthread_mutex_unlock(&lock);
    want("a worker goes on until all is done", reply.kind == TWODFQ_DRAINED);
    return NULL;
}

// The client runs under the lock, and gives it up while it waits.

static void submit(uint64_t job, uint64_t declared) {
    uint32_t tenant = tenant_of(job);
    twodfq_reply reply = twodfq_submit(&scheduler, WORKERS, microseconds(), tenant, 0, declared, job);
    want("a job is submitted", reply.kind == TWODFQ_REQUEST);
    unfinished[tenant]++;
    tell();
}

static void wait_for_begin(uint64_t job) {
    while (!begun_at[job]) pthread_cond_wait(&seen, &lock);
}

static void wait_for_end(uint64_t job) {
    while (!ended[job]) pthread_cond_wait(&seen, &lock);
}

static void wait_for_patience(void) {
    while (!patient) {
        want("the report waits for its time", !begun_at[NEXT_REPORT]);
        pthread_cond_wait(&seen, &lock);
    }
}

static void client(void) {
    submit(LONG_REPORT, 1000 * (uint64_t)SECOND);
    submit(LONG_BACKUP, 10 * SECOND);
    wait_for_begin(LONG_REPORT);
    wait_for_begin(LONG_BACKUP);
    submit(NEXT_REPORT, 1000 * (uint64_t)SECOND); // which waits for its time, and patience is of 20 seconds
    for (uint32_t page = 0; page < CHEAP; page++) {
        wait_for_patience();
        submit(page, 1);
        wait_for_end(page);
    }
    want("pages are served before the report for which workers are patient", !begun_at[NEXT_REPORT]);
    submit(NEXT_BACKUP, 5 * SECOND); // its time comes before that of the report; patience is of a tenth of a second
    wait_for_end(NEXT_BACKUP);
    want("patience ends before the report's", !begun_at[NEXT_REPORT]);
    is_closed = true;
    twodfq_close(&scheduler, WORKERS, microseconds());
    tell();
    wait_for_end(NEXT_REPORT);
    want("all this while long jobs run", !ended[LONG_REPORT] && !ended[LONG_BACKUP]);
    pthread_mutex_unlock(&gate);
}

// A timed wait of this condition ends by the clock of the scheduler's moments.
static void begin_news(void) {
    pthread_condattr_t attributes;
    pthread_condattr_init(&attributes);
    pthread_condattr_setclock(&attributes, CLOCK_MONOTONIC);
    pthread_cond_init(&news, &attributes);
    pthread_condattr_destroy(&attributes);
}

int main(void) {
    twodfq_opening opening = {
        .workers = WORKERS,
        .kinds = 1,
        .entries = 3 * JOBS + 1, // a submit, a take and a done for each, and the close
        .requests = JOBS,
        .policy = TWODFQ_2DFQ_PLUS,
        .estimate = TWODFQ_DECLARED,
        .initial = 1,
    };
    uint32_t weights[TENANTS] = { 1, 1, 1 };
    want("a scheduler opens", twodfq_open(&scheduler, &opening, weights, TENANTS) == TWODFQ_OPENED);
    begin_news();
    pthread_t workers[WORKERS];
    uint32_t numbers[WORKERS];
    for (uint32_t i = 0; i < WORKERS; i++) {
        numbers[i] = i;
        want("a thread starts", pthread_create(&workers[i], NULL, work, &numbers[i]) == 0);
    }
    pthread_mutex_lock(&gate);
    pthread_mutex_lock(&lock);
    client();
    pthread_mutex_unlock(&lock);
    for (uint32_t i = 0; i < WORKERS; i++) pthread_join(workers[i], NULL);
    twodfq_free(&scheduler);
    for (uint32_t job = 0; job < JOBS; job++) want("each job is run", ended[job]);
    want("the report was the last", begun == JOBS && begun_at[NEXT_REPORT] == JOBS);
    printf("patient: %d cheap jobs are served before a costly one that waits for its time, and it in the end\n", CHEAP);
}
