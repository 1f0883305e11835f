// The scheduler once more, as plainly as its definitions have it (docs/DEFINITIONS.md), for tests: sums over all tenants,
// and a choice by a look at each. Its calls take the arguments of the library's. Each leaves the entry that it adds.
#ifndef MODEL_H
#define MODEL_H

#include <stdlib.h>

#include "twodfq.h"

__extension__ typedef __int128 wide;

#define NO_REQUEST UINT32_MAX
#define STEPS_IN_UNIT 1048576
#define GREATEST_COST 1000000000
#define GREATEST_MOMENT 1000000000000000

typedef enum { WAITS, RUNS, IS_OVER } a_stage;

typedef struct {
    uint32_t tenant, kind;
    uint64_t declared, label, estimate, used; // the two last since its take
    uint32_t taken_weight, next, before;      // the two last in its tenant's queue, while it waits
    a_stage stage;
} a_request;

typedef struct {
    uint32_t weight, first, last, open; // its first and last waiting request; how many wait or run
    wide charge, base, idle;            // its virtual charge, the base of its tag, and the virtual time while it was idle
} a_tenant;

typedef struct {
    uint64_t last[8], greatest; // the last costs; the greatest of the decayed ones
    uint32_t count;
} a_pair;

typedef struct {
    twodfq_opening opening;
    a_tenant *tenants;
    a_pair *pairs;
    a_request *requests;
    uint32_t *on_worker; // the request that each worker runs
    uint32_t tenant_count, pool, waiting, running, submits;
    bool is_closed;
    uint64_t entries, moment;
    wide now, reached; // virtual time at the last entry; the greatest finish at which a request was taken
    twodfq_line last;  // the last entry
} a_model;

static void *filled(size_t count, size_t size) {
    void *at = calloc(count, size);
    if (!at) exit(1);
    return at;
}

static a_model model_open(const twodfq_opening *opening, const uint32_t *weights, uint32_t tenants) {
    a_model m = { .opening = *opening, .tenant_count = tenants, .pool = opening->workers };
    m.tenants = filled(tenants, sizeof *m.tenants);
    m.pairs = filled((size_t)tenants * opening->kinds, sizeof *m.pairs);
    m.requests = filled(opening->entries, sizeof *m.requests);
    m.on_worker = filled(opening->workers, sizeof *m.on_worker);
    for (uint32_t t = 0; t < tenants; t++) m.tenants[t] = (a_tenant){ .weight = weights[t], .first = NO_REQUEST, .last = NO_REQUEST };
    for (uint32_t i = 0; i < opening->workers; i++) m.on_worker[i] = NO_REQUEST;
    return m;
}

static void model_free(a_model *m) {
    free(m->tenants);
    free(m->pairs);
    free(m->requests);
    free(m->on_worker);
}

// ---- lengths, virtual time and estimates

static wide length_of(uint64_t cost, uint32_t weight) { return ((wide)cost * STEPS_IN_UNIT + weight - 1) / weight; }

static bool is_plus(const a_model *m) { return m->opening.policy == TWODFQ_2DFQ_PLUS; }

// The sum of the weights by which virtual time moves: of the active tenants, and under 2dfq+ of those too that started
// above virtual time.
static wide moving_weight(const a_model *m) {
    wide sum = 0;
    for (const a_tenant *t = m->tenants; t < m->tenants + m->tenant_count; t++)
        if (t->open > 0 || (is_plus(m) && m->now < t->charge + t->base)) sum += t->weight;
    return sum;
}

// How far the clock moves virtual time from the last entry to this moment.
static wide advance(const a_model *m, uint64_t moment) {
    if (moment == m->moment) return 0;
    wide weights = moving_weight(m);
    return weights ? (wide)(moment - m->moment) * m->pool * STEPS_IN_UNIT / weights : 0;
}

static wide time_at(const a_model *m, uint64_t moment) {
    wide time = m->now + advance(m, moment);
    return is_plus(m) && time > m->reached ? m->reached : time;
}

static uint64_t effective(const a_model *m, uint64_t moment) {
    if (moment < m->moment) moment = m->moment;
    return moment > GREATEST_MOMENT ? GREATEST_MOMENT : moment;
}

static a_pair *pair_of(const a_model *m, uint32_t tenant, uint32_t kind) {
    return &m->pairs[(size_t)tenant * m->opening.kinds + kind];
}

static uint64_t estimate_of(const a_model *m, const a_request *r) {
    const a_pair *pair = pair_of(m, r->tenant, r->kind);
    uint64_t sum = 0, estimate = m->opening.initial;
    uint32_t count = pair->count < 8 ? pair->count : 8;
    if (m->opening.estimate == TWODFQ_DECLARED) return r->declared;
    if (count == 0) return estimate;
    for (uint32_t i = 0; i < count; i++) sum += pair->last[i];
    estimate = m->opening.estimate == TWODFQ_RECENT ? sum / count : pair->greatest;
    return estimate ? estimate : 1;
}

// Decays keep the order of costs, so the greatest of all decayed ones is the greatest of the last and of one decay of the
// greatest before it.
static void learn(a_model *m, const a_request *r, uint64_t cost) {
    a_pair *pair = pair_of(m, r->tenant, r->kind);
    uint64_t decayed = 99 * (pair->count ? pair->greatest : m->opening.initial) / 100;
    pair->greatest = cost > decayed ? cost : decayed;
    pair->last[pair->count++ % 8] = cost;
}

// ---- the choice

typedef struct {
    uint32_t request;
    uint64_t estimate;
    wide key, finish;
    bool is_eligible;
} a_head;

static a_head head_of(const a_model *m, const a_tenant *t, uint32_t worker, wide time) {
    a_head head = { .request = t->first, .estimate = estimate_of(m, &m->requests[t->first]) };
    uint32_t policy = m->opening.policy;
    wide length = length_of(head.estimate, t->weight), start = t->charge + (policy == TWODFQ_MSF2Q ? t->idle : t->base);
    wide stagger = policy == TWODFQ_2DFQ || policy == TWODFQ_2DFQ_PLUS ? worker * length / m->pool : 0;
    head.key = start - stagger;
    head.finish = start + length;
    head.is_eligible = policy == TWODFQ_WFQ || head.key <= time;
    return head;
}

// The eligible one of the least finish, or where none is eligible the one of the least key.
static bool is_before(const a_head *a, const a_head *b) {
    if (a->is_eligible != b->is_eligible) return a->is_eligible;
    if (!a->is_eligible && a->key != b->key) return a->key < b->key;
    return a->finish != b->finish ? a->finish < b->finish : a->request < b->request;
}

// What a free worker would take, where something waits; and whether an eligible head has an estimate below this.
static a_head choice(const a_model *m, uint64_t moment, uint32_t worker, uint64_t below, bool *has_smaller) {
    wide time = time_at(m, moment);
    a_head best = { .request = NO_REQUEST };
    *has_smaller = false;
    for (const a_tenant *t = m->tenants; t < m->tenants + m->tenant_count; t++) {
        if (t->first == NO_REQUEST) continue;
        a_head head = head_of(m, t, worker, time);
        if (best.request == NO_REQUEST || is_before(&head, &best)) best = head;
        if (head.is_eligible && head.estimate < below) *has_smaller = true;
    }
    return best;
}

// ---- calls

static twodfq_reply answer(uint32_t kind, uint32_t request, uint64_t first, uint64_t second) {
    return (twodfq_reply){ .kind = kind, .request = request, .first = first, .second = second };
}

// An entry at this moment, which stands in m->last from here on.
static void enter(a_model *m, uint32_t kind, uint32_t who, uint64_t moment) {
    uint64_t at = effective(m, moment);
    wide now = time_at(m, at), passed = now - m->now;
    if (m->opening.policy == TWODFQ_MSF2Q && passed)
        for (a_tenant *t = m->tenants; t < m->tenants + m->tenant_count; t++)
            if (t->open == 0) t->idle += passed;
    m->now = now;
    m->moment = at;
    m->entries++;
    m->last = (twodfq_line){ .kind = kind, .who = who, .moment = at };
}

static bool lacks_room(const a_model *m, uint64_t more) {
    return m->entries + 2 * (uint64_t)m->waiting + m->running + more > m->opening.entries;
}

static twodfq_reply model_submit(a_model *m, uint32_t who, uint64_t moment, uint32_t tenant, uint32_t kind, uint64_t declared,
    uint64_t label) {
    if (m->is_closed) return answer(TWODFQ_REFUSED_CLOSED, 0, 0, 0);
    if (tenant >= m->tenant_count) return answer(TWODFQ_REFUSED_TENANT, 0, tenant, 0);
    if (kind >= m->opening.kinds) return answer(TWODFQ_REFUSED_KIND, 0, kind, 0);
    if (declared == 0 || declared > GREATEST_COST) return answer(TWODFQ_REFUSED_COST, 0, declared, 0);
    if (m->waiting == m->opening.requests) return answer(TWODFQ_REFUSED_SLOTS, 0, m->opening.requests, 0);
    if (lacks_room(m, 4)) return answer(TWODFQ_REFUSED_FULL, 0, m->opening.entries, 0);
    enter(m, TWODFQ_ENTRY_SUBMIT, who, moment);
    a_tenant *t = &m->tenants[tenant];
    uint32_t number = m->submits++;
    m->requests[number] = (a_request){ .tenant = tenant, .kind = kind, .declared = declared, .label = label, .next = NO_REQUEST, .before = t->last };
    if (t->first == NO_REQUEST) {
        if (m->now - t->charge > t->base) t->base = m->now - t->charge;
        t->first = number;
    } else m->requests[t->last].next = number;
    t->last = number;
    t->open++;
    m->waiting++;
    m->last.request = number;
    m->last.tenant = tenant;
    m->last.request_kind = kind;
    m->last.amount = declared;
    m->last.label = label;
    return answer(TWODFQ_REQUEST, number, 0, 0);
}

// The request waits no longer.
static a_request *leave(a_model *m, uint32_t number) {
    a_request *r = &m->requests[number];
    a_tenant *t = &m->tenants[r->tenant];
    *(r->before == NO_REQUEST ? &t->first : &m->requests[r->before].next) = r->next;
    *(r->next == NO_REQUEST ? &t->last : &m->requests[r->next].before) = r->before;
    m->waiting--;
    m->last.request = number;
    return r;
}

// The reply to a worker that gets nothing; kind 0 where it gets a request.
static twodfq_reply no_take(const a_model *m, uint32_t worker, uint32_t nothing) {
    if (worker >= m->opening.workers) return answer(TWODFQ_REFUSED_WORKER, 0, worker, 0);
    if (m->on_worker[worker] != NO_REQUEST) return answer(TWODFQ_REFUSED_BUSY, m->on_worker[worker], 0, 0);
    if (worker >= m->pool) return answer(TWODFQ_RETIRED, 0, m->pool, 0);
    return answer(m->waiting ? 0 : nothing, 0, 0, 0);
}

static twodfq_reply model_take(a_model *m, uint32_t who, uint64_t moment, uint32_t worker) {
    twodfq_reply none = no_take(m, worker, m->is_closed ? TWODFQ_DRAINED : TWODFQ_IDLE);
    bool has_smaller;
    if (none.kind) return none;
    a_head head = choice(m, effective(m, moment), worker, 0, &has_smaller);
    enter(m, TWODFQ_ENTRY_TAKE, who, moment);
    a_request *r = leave(m, head.request);
    a_tenant *t = &m->tenants[r->tenant];
    wide start = t->charge + t->base, length = length_of(head.estimate, t->weight);
    if (is_plus(m)) {
        wide key = start - worker * length / m->pool;
        if (m->now < key) m->now = key;
        if (m->reached < start + length) m->reached = start + length;
    }
    t->charge += length;
    r->estimate = head.estimate;
    r->taken_weight = t->weight;
    r->stage = RUNS;
    m->on_worker[worker] = head.request;
    m->running++;
    m->last.worker = worker;
    m->last.amount = head.estimate;
    return answer(TWODFQ_RUN, head.request, head.estimate, r->label);
}

static twodfq_reply model_foresee(const a_model *m, uint64_t moment, uint32_t worker, uint64_t below) {
    twodfq_reply none = no_take(m, worker, TWODFQ_NOTHING);
    bool has_smaller;
    if (none.kind) return none;
    a_head head = choice(m, effective(m, moment), worker, below, &has_smaller);
    twodfq_reply reply = answer(TWODFQ_FORESEEN, head.request, head.estimate, 0);
    reply.tenant = m->requests[head.request].tenant;
    reply.request_kind = m->requests[head.request].kind;
    reply.is_eligible = head.is_eligible;
    reply.has_smaller = has_smaller;
    return reply;
}

// Why a use or a cost is refused; kind 0 where it is not.
static twodfq_reply bad_use(const a_model *m, uint32_t worker, uint64_t used) {
    if (worker >= m->opening.workers) return answer(TWODFQ_REFUSED_WORKER, 0, worker, 0);
    uint32_t number = m->on_worker[worker];
    if (number == NO_REQUEST) return answer(TWODFQ_REFUSED_NOT_RUNNING, 0, 0, 0);
    if (used > GREATEST_COST) return answer(TWODFQ_REFUSED_COST, 0, used, 0);
    if (used < m->requests[number].used) return answer(TWODFQ_REFUSED_FALLING, 0, m->requests[number].used, used);
    return answer(0, 0, 0, 0);
}

// The charge of a running request becomes this.
static void charge(a_model *m, a_request *r, uint64_t to) {
    uint64_t before = r->used > r->estimate ? r->used : r->estimate;
    m->tenants[r->tenant].charge += length_of(to, r->taken_weight) - length_of(before, r->taken_weight);
}

static twodfq_reply model_report(a_model *m, uint32_t who, uint64_t moment, uint32_t worker, uint64_t used) {
    twodfq_reply bad = bad_use(m, worker, used);
    if (bad.kind) return bad;
    if (lacks_room(m, 2)) return answer(TWODFQ_REFUSED_FULL, 0, m->opening.entries, 0);
    enter(m, TWODFQ_ENTRY_REPORT, who, moment);
    m->last.request = m->on_worker[worker];
    m->last.worker = worker;
    m->last.amount = used;
    a_request *r = &m->requests[m->last.request];
    charge(m, r, used > r->estimate ? used : r->estimate);
    r->used = used;
    return answer(TWODFQ_ACCEPTED, 0, 0, 0);
}

static twodfq_reply model_done(a_model *m, uint32_t who, uint64_t moment, uint32_t worker, uint64_t cost) {
    twodfq_reply bad = bad_use(m, worker, cost);
    if (bad.kind) return bad;
    enter(m, TWODFQ_ENTRY_DONE, who, moment);
    m->last.request = m->on_worker[worker];
    m->last.worker = worker;
    m->last.amount = cost;
    a_request *r = &m->requests[m->last.request];
    charge(m, r, cost);
    learn(m, r, cost);
    r->stage = IS_OVER;
    m->tenants[r->tenant].open--;
    m->on_worker[worker] = NO_REQUEST;
    m->running--;
    return answer(TWODFQ_ACCEPTED, 0, 0, 0);
}

static twodfq_reply model_close(a_model *m, uint32_t who, uint64_t moment) {
    if (m->is_closed) return answer(TWODFQ_REFUSED_CLOSED, 0, 0, 0);
    enter(m, TWODFQ_ENTRY_CLOSE, who, moment);
    m->is_closed = true;
    return answer(TWODFQ_ACCEPTED, 0, 0, 0);
}

static twodfq_reply model_weight(a_model *m, uint32_t who, uint64_t moment, uint32_t tenant, uint32_t weight) {
    if (tenant >= m->tenant_count) return answer(TWODFQ_REFUSED_TENANT, 0, tenant, 0);
    if (weight < 1 || weight > 100000) return answer(TWODFQ_REFUSED_WEIGHT, 0, weight, 0);
    if (lacks_room(m, 2)) return answer(TWODFQ_REFUSED_FULL, 0, m->opening.entries, 0);
    enter(m, TWODFQ_ENTRY_WEIGHT, who, moment);
    m->last.tenant = tenant;
    m->last.amount = m->tenants[tenant].weight = weight;
    return answer(TWODFQ_ACCEPTED, 0, 0, 0);
}

static twodfq_reply model_workers(a_model *m, uint32_t who, uint64_t moment, uint32_t count) {
    if (count < 1 || count > m->opening.workers) return answer(TWODFQ_REFUSED_WORKERS, 0, count, 0);
    if (lacks_room(m, 2)) return answer(TWODFQ_REFUSED_FULL, 0, m->opening.entries, 0);
    enter(m, TWODFQ_ENTRY_WORKERS, who, moment);
    m->last.amount = m->pool = count;
    return answer(TWODFQ_ACCEPTED, 0, 0, 0);
}

static twodfq_reply model_withdraw(a_model *m, uint32_t who, uint64_t moment, uint32_t request) {
    if (request >= m->submits || m->requests[request].stage != WAITS) return answer(TWODFQ_REFUSED_NOT_WAITING, request, 0, 0);
    enter(m, TWODFQ_ENTRY_WITHDRAW, who, moment);
    a_request *r = leave(m, request);
    r->stage = IS_OVER;
    m->tenants[r->tenant].open--;
    return answer(TWODFQ_WITHDRAWN, 0, 0, r->label);
}

static twodfq_standing model_status(const a_model *m) {
    return (twodfq_standing){ .waiting = m->waiting, .running = m->running, .virtual_steps = (uint32_t)(m->now % STEPS_IN_UNIT),
        .virtual_units = (uint64_t)(m->now / STEPS_IN_UNIT), .entries = m->entries, .moment = m->moment };
}

#endif
