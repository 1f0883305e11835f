// Sixteen connections to PostgreSQL, which permits of a scheduler give out, or one queue: 50 tenants send look-ups by a key now and
// then, and 50 have two scans or sorts waiting all the time. Costs are measured, the use of running requests is reported every 10
// milliseconds, and estimates are `pessimistic`. `bench/postgres` starts a server and runs it. Arguments: a folder with the
// server's socket, seconds, seconds before these that are not counted, look-ups a second, a way to serve, a patience. Prints the
// look-ups that were answered a second, their waits for a connection and their times from submit to answer at the 50th, 99th and
// 99.9th percentile in milliseconds; scans and sorts a second; and the medians of cost and estimate of look-ups, and of scans and
// sorts.
#include <libpq-fe.h>
#include <math.h>
#include <pthread.h>
#include <stdio.h>
#include <stdlib.h>
#include <string.h>
#include <time.h>

#include "twodfq.h"

enum { WORKERS = 16, TENANTS = 100, QUICK = 50, ROOM = 1 << 18, SECOND = 1000000, NOBODY = ROOM };
enum { LOOK_UP, SCAN, SORT, KINDS };
enum { SHORTEST = 60, SAVED = SECOND }; // as in rust/src/service/patience.rs
enum { REFRESH = 10000, UNKNOWN = 10000 }; // between two reports; the estimate before any completion

static const char *const queries[KINDS] = {
    "SELECT abalance FROM accounts WHERE aid = $1",
    "SELECT count(*), sum(abalance) FROM accounts WHERE filler <> $1::text",
    "SELECT aid FROM accounts ORDER BY md5(aid::text || $1) LIMIT 10",
};

typedef struct {
    uint32_t tenant, kind, next;
    uint64_t submitted;
} job;

// Measured numbers.
typedef struct {
    double *values;
    size_t count, room;
} sample;

static pthread_mutex_t lock = PTHREAD_MUTEX_INITIALIZER; // for all variables below
static pthread_cond_t news, calm;                        // for workers that wait for a job; for workers that wait patiently
static twodfq scheduler = TWODFQ_NONE;
static bool is_queue, is_over;
static job jobs[ROOM];
static uint32_t free_job, first = NOBODY, last, idle, patient, unfinished[TENANTS], open_tenants;
static double part, spare; // patience: the part of an estimate; and the time that workers may still wait, in microseconds
static uint64_t begin, end, state = 7;
static uint64_t taken_at[WORKERS]; // the moment of the take of a worker's job, or 0
static sample waits, times, costs[2], estimates[2];
static uint64_t accounts;

static void fail(const char *why) {
    fprintf(stderr, "postgres: %s\n", why);
    exit(1);
}

static uint64_t now(void) {
    struct timespec time;
    clock_gettime(CLOCK_MONOTONIC, &time);
    return (uint64_t)time.tv_sec * SECOND + (uint64_t)time.tv_nsec / 1000;
}

static struct timespec at(uint64_t moment) {
    return (struct timespec){ .tv_sec = (time_t)(moment / SECOND), .tv_nsec = (long)(moment % SECOND) * 1000 };
}

static double draw(void) {
    state = state * 6364136223846793005u + 1442695040888963407u;
    return (double)(state >> 11) / 9007199254740992.0;
}

static void add(sample *to, double value) {
    if (to->count == to->room) {
        to->room = to->room ? 2 * to->room : 4096;
        to->values = realloc(to->values, to->room * sizeof(double));
        if (!to->values) fail("out of memory");
    }
    to->values[to->count++] = value;
}

static int compare(const void *one, const void *other) {
    double a = *(const double *)one, b = *(const double *)other;
    return (a > b) - (a < b);
}

// In milliseconds, at a rank in thousandths.
static double at_rank(sample *of, size_t thousandths) {
    if (!of->count) return 0;
    qsort(of->values, of->count, sizeof(double), compare);
    return of->values[(thousandths * of->count + 999) / 1000 - 1] / 1000;
}

// Jobs that come, and the signals to workers.

static void submit(uint32_t tenant, uint32_t kind) {
    uint64_t moment = now();
    uint32_t place = free_job;
    if (place == NOBODY) fail("too many look-ups wait: the server is slower than the rate");
    free_job = jobs[place].next;
    jobs[place] = (job){ .tenant = tenant, .kind = kind, .next = NOBODY, .submitted = moment };
    open_tenants += !unfinished[tenant]++;
    if (is_queue) {
        if (first == NOBODY) first = place;
        else jobs[last].next = place;
        last = place;
    } else if (twodfq_submit(&scheduler, WORKERS, moment, tenant, kind, 1, place).kind != TWODFQ_REQUEST) {
        fail("a submit is refused");
    }
    if (idle) pthread_cond_signal(&news);
    if (patient) pthread_cond_broadcast(&calm);
}

static void submit_costly(uint32_t tenant) {
    submit(tenant, draw() < 0.5 ? SCAN : SORT);
}

// Look-ups at random times, until the end.
static void come(double rate) {
    double due = (double)now();
    while (due < (double)end) {
        struct timespec until = at((uint64_t)due);
        clock_nanosleep(CLOCK_MONOTONIC, TIMER_ABSTIME, &until, NULL);
        pthread_mutex_lock(&lock);
        submit((uint32_t)(draw() * QUICK), LOOK_UP);
        due += -log(1 - draw()) * SECOND / rate;
        pthread_mutex_unlock(&lock);
    }
}

// Patience.

// The time for which a worker that is free since a moment may still wait before it takes an early job.
static uint64_t patience(uint32_t worker, uint64_t moment, uint64_t since) {
    if (is_queue || part <= 0 || open_tenants < 2) return 0;
    twodfq_reply next = twodfq_foresee(&scheduler, moment, worker, 0);
    if (next.kind != TWODFQ_FORESEEN || next.is_eligible) return 0;
    uint64_t until = since + (uint64_t)(part * (double)next.first), left = (uint64_t)fmax(spare, 0);
    uint64_t time = until > moment ? until - moment : 0;
    if (time > left) time = left;
    return time > SHORTEST ? time : 0;
}

static void wait_patiently(uint64_t moment, uint64_t time) {
    struct timespec until = at(moment + time - SHORTEST);
    spare -= (double)time;
    if (idle) pthread_cond_signal(&news); // the job may be due for another worker
    patient++;
    pthread_cond_timedwait(&calm, &lock, &until);
    patient--;
    spare += (double)time - (double)(now() - moment);
}

// Reports the use of each running request, until the end.
static void *refresh(void *none) {
    uint64_t moment = now();
    pthread_mutex_lock(&lock);
    while (!is_over) {
        pthread_mutex_unlock(&lock);
        struct timespec until = at(moment += REFRESH);
        clock_nanosleep(CLOCK_MONOTONIC, TIMER_ABSTIME, &until, NULL);
        pthread_mutex_lock(&lock);
        uint64_t used_until = now();
        for (uint32_t i = 0; i < WORKERS && !is_queue; i++)
            if (taken_at[i]) twodfq_report(&scheduler, WORKERS, used_until, i, used_until - taken_at[i]);
        if (patient) pthread_cond_broadcast(&calm);
    }
    pthread_mutex_unlock(&lock);
    return none;
}

// Workers.

static uint32_t take(uint32_t worker, uint64_t moment, uint64_t *estimate) {
    uint32_t place = first;
    *estimate = 0;
    if (is_queue) {
        if (place != NOBODY) first = jobs[place].next;
        return place;
    }
    twodfq_reply reply = twodfq_take(&scheduler, worker, moment, worker);
    *estimate = reply.first;
    return reply.kind == TWODFQ_RUN ? (uint32_t)reply.second : NOBODY;
}

// The worker's next job, or NOBODY at the end.
static uint32_t next(uint32_t worker, uint64_t *estimate) {
    for (uint64_t since = now(); !is_over;) {
        uint64_t moment = now(), time = patience(worker, moment, since);
        if (time) {
            wait_patiently(moment, time);
            continue;
        }
        uint32_t place = take(worker, moment, estimate);
        if (place != NOBODY) return place;
        idle++;
        pthread_cond_wait(&news, &lock);
        idle--;
    }
    return NOBODY;
}

static PGconn *connected(const char *folder) {
    const char *const words[] = { "host", "dbname", NULL }, *const values[] = { folder, "postgres", NULL };
    PGconn *connection = PQconnectdbParams(words, values, 0);
    if (PQstatus(connection) != CONNECTION_OK) fail(PQerrorMessage(connection));
    PQclear(PQexec(connection, "SET max_parallel_workers_per_gather = 0"));
    for (int kind = 0; kind < KINDS; kind++) {
        char name[2] = { (char)('0' + kind), 0 };
        PGresult *result = PQprepare(connection, name, queries[kind], 1, NULL);
        if (PQresultStatus(result) != PGRES_COMMAND_OK) fail(PQerrorMessage(connection));
        PQclear(result);
    }
    return connection;
}

static void query(PGconn *connection, uint32_t kind, uint64_t key) {
    char name[2] = { (char)('0' + kind), 0 }, number[24];
    snprintf(number, sizeof number, "%llu", (unsigned long long)key);
    const char *const values[] = { number };
    PGresult *result = PQexecPrepared(connection, name, 1, values, NULL, NULL, 0);
    if (PQresultStatus(result) != PGRES_TUPLES_OK) fail(PQerrorMessage(connection));
    PQclear(result);
}

static void note(const job *of, uint64_t taken, uint64_t ended, uint64_t estimate) {
    if (taken < begin || ended > end) return;
    if (of->kind == LOOK_UP) {
        add(&waits, (double)(taken - of->submitted));
        add(&times, (double)(ended - of->submitted));
    }
    add(&costs[of->kind != LOOK_UP], (double)(ended - taken));
    add(&estimates[of->kind != LOOK_UP], (double)estimate);
}

static void finish(uint32_t worker, uint32_t place, uint64_t taken, uint64_t estimate) {
    uint64_t moment = now(), cost = moment - taken;
    job *of = &jobs[place];
    taken_at[worker] = 0;
    if (!is_queue && twodfq_done(&scheduler, worker, moment, worker, cost).kind != TWODFQ_ACCEPTED) fail("a done is refused");
    note(of, taken, moment, estimate);
    spare = fmin(part * SAVED * WORKERS, spare + part * (double)cost);
    open_tenants -= !--unfinished[of->tenant];
    of->next = free_job;
    free_job = place;
    if (patient) pthread_cond_broadcast(&calm);
}

typedef struct {
    uint32_t number;
    PGconn *connection;
} worker;

static void *work(void *given) {
    const worker *self = given;
    uint64_t estimate;
    pthread_mutex_lock(&lock);
    for (uint32_t place; (place = next(self->number, &estimate)) != NOBODY;) {
        uint64_t taken = now(), key = 1 + (uint64_t)(draw() * (double)accounts);
        uint32_t kind = jobs[place].kind;
        taken_at[self->number] = taken;
        if (kind != LOOK_UP) submit_costly(jobs[place].tenant);
        pthread_mutex_unlock(&lock);
        query(self->connection, kind, key);
        pthread_mutex_lock(&lock);
        finish(self->number, place, taken, estimate);
    }
    pthread_mutex_unlock(&lock);
    return NULL;
}

static void open_service(const char *way) {
    static const char *const policies[] = { "wfq", "wf2q", "msf2q", "2dfq", "2dfq+" };
    uint32_t weights[TENANTS], policy = 0;
    for (uint32_t tenant = 0; tenant < TENANTS; tenant++) weights[tenant] = 1;
    for (uint32_t place = 0; place < ROOM; place++) jobs[place].next = place + 1; // the last is NOBODY
    is_queue = strcmp(way, "queue") == 0;
    if (is_queue) return;
    while (policy < 5 && strcmp(way, policies[policy])) policy++;
    twodfq_opening opening = {
        .workers = WORKERS, .kinds = KINDS, .entries = 4000000000, .requests = ROOM, .policy = policy,
        .estimate = TWODFQ_PESSIMISTIC, .initial = UNKNOWN, .keep = 1,
    };
    if (twodfq_open(&scheduler, &opening, weights, TENANTS) != TWODFQ_OPENED) fail("no scheduler opens");
}

static uint64_t counted(PGconn *by) {
    PGresult *result = PQexec(by, "SELECT count(*) FROM accounts");
    if (PQresultStatus(result) != PGRES_TUPLES_OK) fail(PQerrorMessage(by));
    uint64_t count = strtoull(PQgetvalue(result, 0, 0), NULL, 10);
    PQclear(result);
    return count;
}

static void print(double seconds) {
    printf("%.1f", (double)times.count / seconds);
    for (int i = 0; i < 2; i++)
        for (int rank = 0; rank < 3; rank++) printf(" %.2f", at_rank(i ? &times : &waits, (const size_t[]){ 500, 990, 999 }[rank]));
    printf(" %.1f", (double)costs[1].count / seconds);
    for (int i = 0; i < 2; i++) printf(" %.2f %.2f", at_rank(&costs[i], 500), at_rank(&estimates[i], 500));
    putchar('\n');
}

int main(int count, char **words) {
    if (count != 7) fail("six words");
    double seconds = atof(words[2]), before = atof(words[3]), rate = atof(words[4]);
    pthread_condattr_t attributes;
    pthread_condattr_init(&attributes);
    pthread_condattr_setclock(&attributes, CLOCK_MONOTONIC);
    pthread_cond_init(&news, &attributes);
    pthread_cond_init(&calm, &attributes);
    part = atof(words[6]);
    spare = part * SAVED * WORKERS;
    open_service(words[5]);
    pthread_t threads[WORKERS], reports;
    worker workers[WORKERS];
    for (uint32_t i = 0; i < WORKERS; i++) workers[i] = (worker){ i, connected(words[1]) };
    accounts = counted(workers[0].connection);
    begin = now() + (uint64_t)(before * SECOND);
    end = begin + (uint64_t)(seconds * SECOND);
    for (uint32_t i = 0; i < 2 * (TENANTS - QUICK); i++) submit_costly(QUICK + i % (TENANTS - QUICK));
    for (uint32_t i = 0; i < WORKERS; i++) pthread_create(&threads[i], NULL, work, &workers[i]);
    pthread_create(&reports, NULL, refresh, NULL);
    come(rate);
    pthread_mutex_lock(&lock);
    is_over = true;
    pthread_cond_broadcast(&news);
    pthread_cond_broadcast(&calm);
    pthread_mutex_unlock(&lock);
    for (uint32_t i = 0; i < WORKERS; i++) pthread_join(threads[i], NULL);
    pthread_join(reports, NULL);
    for (uint32_t i = 0; i < WORKERS; i++) PQfinish(workers[i].connection);
    print(seconds);
    return 0;
}
