// A simulated service of 16 workers and 4,096 tenants in which one tenant gets far ahead of another. Its arguments are the numbers
// of a story and of a policy. It writes the journal, and on standard error the longest time in which one of the two waits and is
// not taken, in milliseconds. `bench/starving` runs it under each policy, and has `twodfq lead` measure the journal. With a third
// argument, the seconds before the second tenant comes (else 40), the service runs for twice these, and no journal is written.
#include <inttypes.h>
#include <stdbool.h>
#include <stdio.h>
#include <stdlib.h>
#include <string.h>

#include "twodfq.h"

enum { WORKERS = 16, TENANTS = 4096, TICK = 1000, REQUEST = 10000, VISIT = 40000, TICKS = 60000, SECOND = 1000 };
enum { SPARE, LITTLE, FLOODS, JUMP, OVERESTIMATE, ALONE, STORIES };
enum { BUSY, VISITOR, THIRD, OTHERS }; // the tenants of the stories, and the first of the others

static twodfq scheduler = TWODFQ_NONE;
static uint64_t ends[WORKERS], charged[WORKERS]; // the end of a worker's request, and its cost
static uint32_t runs[WORKERS], waits[TENANTS], running[TENANTS];
static bool is_free[WORKERS];
static uint64_t visit = VISIT, ticks = TICKS; // the tick at which the second tenant comes, and the number of ticks
static uint64_t state = 7, last_take[TENANTS], longest[TENANTS];

// A number below n, by a linear congruence.
static uint32_t draw(uint32_t n) {
    state = state * 6364136223846793005u + 1442695040888963407u;
    return (uint32_t)((state >> 33) * n >> 31);
}

static void submit(uint64_t moment, uint32_t tenant, uint64_t declared) {
    if (twodfq_submit(&scheduler, 0, moment, tenant, 0, declared, tenant).kind != TWODFQ_REQUEST) exit(2);
    if (!waits[tenant]++) last_take[tenant] = moment;
}

// Submits until `count` requests of the tenant wait.
static void keep_waiting(uint64_t moment, uint32_t tenant, uint32_t count) {
    while (waits[tenant] < count) submit(moment, tenant, REQUEST);
}

// The submits of this moment.
static void come(int story, uint64_t tick, uint64_t moment) {
    bool is_visit = tick >= visit;
    for (int i = 0; i < 2 && story != ALONE; i++) // the others want a worker, more or less
        if (draw(20) == 0) submit(moment, OTHERS + draw(TENANTS - OTHERS), REQUEST);
    if (story == FLOODS) { // 64 tenants flood by turns, a quarter of them at once
        for (uint32_t i = 0; i < 64; i++)
            if ((tick / 1000 + i) % 4 == 0) keep_waiting(moment, OTHERS + i, 8);
        keep_waiting(moment, BUSY, 8);
    } else {
        keep_waiting(moment, BUSY, 2 * WORKERS);
    }
    if (story == SPARE && waits[THIRD] + running[THIRD] < 4) submit(moment, THIRD, REQUEST); // four at a time
    if (story == OVERESTIMATE && tick == visit / 2) submit(moment, THIRD, 1000000000);
    if (is_visit) keep_waiting(moment, VISITOR, 2 * WORKERS);
}

// The cost of a request of this tenant, which may be less than its time.
static uint64_t cost_of(int story, uint32_t tenant) {
    bool is_little = story == LITTLE || story == OVERESTIMATE || story == ALONE;
    return is_little && tenant == BUSY ? REQUEST / 10 : REQUEST;
}

static void end_those_due(uint64_t moment) {
    for (uint32_t worker = 0; worker < WORKERS; worker++) {
        if (is_free[worker] || ends[worker] > moment) continue;
        if (twodfq_done(&scheduler, 1 + worker, moment, worker, charged[worker]).kind != TWODFQ_ACCEPTED) exit(2);
        is_free[worker] = true;
        running[runs[worker]]--;
    }
}

static void take(int story, uint64_t moment) {
    for (uint32_t worker = 0; worker < WORKERS; worker++) {
        if (!is_free[worker]) continue;
        twodfq_reply reply = twodfq_take(&scheduler, 1 + worker, moment, worker);
        if (reply.kind != TWODFQ_RUN) return;
        uint32_t tenant = (uint32_t)reply.second;
        uint64_t pause = moment - last_take[tenant];
        if (pause > longest[tenant]) longest[tenant] = pause;
        last_take[tenant] = moment;
        is_free[worker] = false;
        runs[worker] = tenant;
        waits[tenant]--;
        running[tenant]++;
        ends[worker] = moment + REQUEST;
        charged[worker] = cost_of(story, tenant);
    }
}

static void write_journal(const twodfq_opening *opening) {
    static const char *const policies[] = { "wfq", "wf2q", "msf2q", "2dfq", "2dfq+" };
    static const char *const acts[] = { "submit", "take", "report", "done" };
    const char *estimate = opening->estimate == TWODFQ_RECENT ? "recent" : "declared";
    printf("journal 1\nconfig %d %s %s %" PRIu64 " %" PRIu32 " %" PRIu32 "\n", WORKERS, policies[opening->policy], estimate,
        opening->initial, opening->entries, opening->requests);
    for (int tenant = 0; tenant < TENANTS; tenant++) printf("tenant t%d 1\n", tenant);
    puts("kind job");
    twodfq_line e;
    for (uint64_t i = 0; (e = twodfq_entry(&scheduler, i)).kind != TWODFQ_ENTRY_NONE; i++) {
        printf("%s %" PRIu32 " %" PRIu64, acts[e.kind], e.who, e.moment);
        if (e.kind == TWODFQ_ENTRY_SUBMIT)
            printf(" %" PRIu32 " %" PRIu32 " 0 %" PRIu64 " %" PRIu64 "\n", e.request, e.tenant, e.amount, e.label);
        else
            printf(" %" PRIu32 " %" PRIu32 " %" PRIu64 "\n", e.worker, e.request, e.amount);
    }
}

int main(int count, char **arguments) {
    static uint32_t weights[TENANTS];
    bool has_seconds = count == 4;
    int story = count >= 3 ? atoi(arguments[1]) : STORIES, policy = count >= 3 ? atoi(arguments[2]) : 0;
    if (story >= STORIES) return 1;
    if (has_seconds) ticks = 2 * (visit = SECOND * strtoull(arguments[3], NULL, 10));
    for (int tenant = 0; tenant < TENANTS; tenant++) weights[tenant] = 1;
    for (int worker = 0; worker < WORKERS; worker++) is_free[worker] = true;
    twodfq_opening opening = {
        .workers = WORKERS, .kinds = 1, .entries = 4000000, .requests = 262144, .policy = (uint32_t)policy,
        .estimate = story == LITTLE || story == ALONE ? TWODFQ_RECENT : TWODFQ_DECLARED, .initial = REQUEST,
    };
    if (twodfq_open(&scheduler, &opening, weights, TENANTS) != TWODFQ_OPENED) return 1;
    uint64_t moment = 0;
    for (uint64_t tick = 0; tick < ticks; tick++, moment += TICK) {
        if (story == JUMP && tick == visit) moment += 1000000000; // the clock is set on by a thousand seconds
        if (story == JUMP && tick == visit) last_take[BUSY] = last_take[VISITOR] = moment;
        end_those_due(moment);
        come(story, tick, moment);
        take(story, moment);
    }
    for (int tenant = BUSY; tenant <= VISITOR; tenant++)
        if (waits[tenant] && moment - last_take[tenant] > longest[tenant]) longest[tenant] = moment - last_take[tenant];
    uint64_t pause = longest[BUSY] > longest[VISITOR] ? longest[BUSY] : longest[VISITOR];
    fprintf(stderr, "%" PRIu64 "\n", pause / 1000);
    if (!has_seconds) write_journal(&opening);
}
