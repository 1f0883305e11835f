// A scheduler that keeps its last 1,024 entries, beside one that keeps all for as long as that has room: each reply is
// the same, and a log that comes by every 1,024 entries finds each entry, as the other has it. For an entry that is
// gone the index of the first kept entry is answered. Before that each is timed by itself.
//
//   window [REQUESTS]        with this number of requests (200,000 where none is given), and the time of a call in ten
//                            parts, or in parts of a million requests where there are more of these
#include <stdio.h>
#include <stdlib.h>
#include <string.h>
#include <sys/resource.h>
#include <time.h>

#include "twodfq.h"

enum { KEEP = 1024, TENANTS = 64, WORKERS = 8, SLOTS = 4096, WAITING = 1000, MOST_ENTRIES = 4194304, MILLION = 1000000, PARTS = 10 };

static uint32_t weights[TENANTS];
static uint64_t state = 7, read_on; // of the numbers drawn; the index up to which the log has read

static void want(const char *what, bool is_so) {
    if (is_so) return;
    fprintf(stderr, "window: not so: %s\n", what);
    exit(1);
}

// A number below n, by a linear congruence.
static uint32_t draw(uint32_t n) {
    state = state * 6364136223846793005u + 1442695040888963407u;
    return (uint32_t)((state >> 33) * n >> 31);
}

static void open_with(twodfq *scheduler, uint64_t requests, uint32_t keep) {
    uint64_t entries = 3 * (requests + WAITING) + 4;
    twodfq_opening opening = {
        .workers = WORKERS,
        .kinds = 2,
        .entries = entries > MOST_ENTRIES && !keep ? MOST_ENTRIES : (uint32_t)entries,
        .requests = SLOTS,
        .policy = TWODFQ_2DFQ,
        .estimate = TWODFQ_PESSIMISTIC,
        .initial = 1000,
        .keep = keep,
    };
    want("a scheduler opens", twodfq_open(scheduler, &opening, weights, TENANTS) == TWODFQ_OPENED);
}

static bool is_same(twodfq_reply a, twodfq_reply b) {
    return a.kind == b.kind && a.request == b.request && a.first == b.first && a.second == b.second;
}

// One request comes; the calls of both schedulers are answered alike.
static void submit(twodfq *recent, twodfq *whole, uint64_t i) {
    uint32_t tenant = draw(TENANTS), kind = draw(2), cost = 1 + draw(5000);
    twodfq_reply reply = twodfq_submit(recent, 0, i, tenant, kind, cost, i);
    want("a request comes", reply.kind == TWODFQ_REQUEST);
    if (whole) want("a submit is answered alike", is_same(twodfq_submit(whole, 0, i, tenant, kind, cost, i), reply));
}

// One more request comes, and another is taken and done.
static void serve(twodfq *recent, twodfq *whole, uint64_t i) {
    uint32_t worker = (uint32_t)(i % WORKERS), cost = 1 + draw(5000);
    submit(recent, whole, i);
    twodfq_reply run = twodfq_take(recent, 1, i, worker), done = twodfq_done(recent, 1, i, worker, cost);
    want("a worker runs one", run.kind == TWODFQ_RUN && done.kind == TWODFQ_ACCEPTED);
    if (!whole) return;
    want("a take is answered alike", is_same(twodfq_take(whole, 1, i, worker), run));
    want("a done is answered alike", is_same(twodfq_done(whole, 1, i, worker, cost), done));
}

// The log reads on, and finds the entries of the other scheduler.
static void read_log(twodfq *recent, twodfq *whole, uint64_t count) {
    for (; read_on < count; read_on++) {
        twodfq_line a = twodfq_entry(recent, read_on), b = twodfq_entry(whole, read_on);
        want("each entry is read", a.kind != TWODFQ_ENTRY_NONE && !memcmp(&a, &b, sizeof a));
    }
    twodfq_line next = twodfq_entry(recent, count), gone = twodfq_entry(recent, count - KEEP - 1);
    want("the next is none yet", next.kind == TWODFQ_ENTRY_NONE && next.amount == count - KEEP);
    want("the oldest is gone", gone.kind == TWODFQ_ENTRY_NONE && gone.amount == count - KEEP);
}

// The requests for which a scheduler that keeps all has room, at most this number.
static uint64_t with_room(uint64_t requests) {
    uint64_t room = MOST_ENTRIES / 3 - WAITING - 2;
    return requests < room ? requests : room;
}

// Compares the replies of the two, request by request. Returns the number of requests compared.
static uint64_t beside(uint64_t requests) {
    twodfq recent = TWODFQ_NONE, whole = TWODFQ_NONE;
    uint64_t most = with_room(requests);
    open_with(&recent, requests, KEEP);
    open_with(&whole, requests, 0);
    for (uint64_t i = 0; i < WAITING; i++) submit(&recent, &whole, i);
    for (uint64_t i = 0; i < most; i++) {
        uint64_t entries = WAITING + 3 * (i + 1);
        serve(&recent, &whole, i);
        if (entries + 3 > read_on + KEEP) read_log(&recent, &whole, entries);
    }
    twodfq_free(&recent);
    twodfq_free(&whole);
    return most;
}

static double nanoseconds(void) {
    struct timespec now;
    clock_gettime(CLOCK_MONOTONIC, &now);
    return (double)now.tv_sec * 1e9 + (double)now.tv_nsec;
}

static long kilobytes(void) {
    struct rusage usage;
    getrusage(RUSAGE_SELF, &usage);
    return usage.ru_maxrss;
}

// Times a scheduler that keeps this number of entries, by itself: a call in the first part and in the last, and in the
// quickest and the slowest; and how the peak of memory grows after the first.
static void alone(uint64_t requests, uint32_t keep) {
    twodfq recent = TWODFQ_NONE;
    open_with(&recent, requests, keep);
    for (uint64_t i = 0; i < WAITING; i++) submit(&recent, NULL, i);
    double first = 0, last = 0, least = 0, most = 0;
    long before = 0;
    uint64_t parts = requests / MILLION > PARTS ? requests / MILLION : PARTS;
    for (uint64_t part = 0; part < parts; part++) {
        double began = nanoseconds();
        uint64_t from = part * requests / parts, to = (part + 1) * requests / parts;
        for (uint64_t i = from; i < to; i++) serve(&recent, NULL, i);
        last = (nanoseconds() - began) / (3 * (double)(to - from));
        if (part == 0) first = least = most = last, before = kilobytes();
        if (last < least) least = last;
        if (last > most) most = last;
    }
    fprintf(stderr, "window: keep %u: %.0f ns a call in the first of %llu parts, %.0f in the last, %.0f to %.0f in all; %ld KB, and %ld more "
        "after the first\n", keep, first, (unsigned long long)parts, last, least, most, before, kilobytes() - before);
    twodfq_free(&recent);
}

int main(int count, char **words) {
    uint64_t requests = count > 1 ? strtoull(words[1], NULL, 10) : 200000;
    for (uint32_t tenant = 0; tenant < TENANTS; tenant++) weights[tenant] = 1 + tenant % 4;
    alone(requests, KEEP);
    alone(with_room(requests), 0);
    uint64_t compared = beside(requests);
    printf("window: %llu requests with %d entries kept, answered and logged as where all are kept\n",
        (unsigned long long)compared, KEEP);
}
