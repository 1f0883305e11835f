// The choice of the next request: by the library's scheduler, or by the queues that a service without it would have.
#include <stdlib.h>

#include "simulate.h"

static bool is_by_library(const service *one) {
    return one->situation->discipline <= TWO_DFQ_PLUS;
}

void open_service(service *opened, const situation *of) {
    opened->situation = of;
    opened->scheduler = (twodfq)TWODFQ_NONE;
    opened->free = NOBODY;
    if (!is_by_library(opened)) return;
    uint32_t weights[MOST_TENANTS];
    for (uint32_t tenant = 0; tenant < of->tenants; tenant++) weights[tenant] = 1;
    twodfq_opening opening = {
        .workers = of->workers, .kinds = 1, .entries = 4000000000, .requests = 262144, .policy = of->discipline,
        .estimate = of->estimate, .initial = 1000, .keep = 1,
    };
    if (twodfq_open(&opened->scheduler, &opening, weights, of->tenants) != TWODFQ_OPENED) fail("no scheduler opens");
}

// Queues.

static void append(service *in, queue *to, uint32_t place) {
    in->requests[place].next = NOBODY;
    if (to->count++) in->requests[to->last].next = place;
    else to->first = place;
    to->last = place;
}

static uint32_t remove_first(service *in, queue *from) {
    uint32_t place = from->first;
    from->first = in->requests[place].next;
    from->count--;
    return place;
}

static void begin_turn(service *in, uint32_t tenant) {
    in->turns[(in->first_turn + in->turns_count++) % MOST_TENANTS] = tenant;
}

static uint32_t end_turn(service *in) {
    uint32_t tenant = in->turns[in->first_turn];
    in->first_turn = (in->first_turn + 1) % MOST_TENANTS;
    in->turns_count--;
    return tenant;
}

static uint32_t take_in_turn(service *from) {
    uint32_t tenant = end_turn(from), place = remove_first(from, &from->queues[tenant]);
    if (from->queues[tenant].count) begin_turn(from, tenant);
    return place;
}

// The tenant at its turn is served while its deficit covers the next cost; each turn adds the quantum.
static uint32_t take_by_deficit(service *from) {
    for (;;) {
        uint32_t tenant = from->turns[from->first_turn];
        queue *own = &from->queues[tenant];
        uint64_t cost = from->requests[own->first].cost;
        if (cost <= from->deficits[tenant]) {
            uint32_t place = remove_first(from, own);
            from->deficits[tenant] -= cost;
            if (!own->count) {
                from->deficits[tenant] = 0;
                end_turn(from);
            }
            return place;
        }
        begin_turn(from, end_turn(from));
        from->deficits[from->turns[from->first_turn]] += from->situation->quantum;
    }
}

// Kept workers take from the first queue alone, and the others the older of both heads.
static uint32_t take_by_lane(service *from, uint32_t worker) {
    queue *kept = &from->queues[0], *other = &from->queues[1];
    bool is_kept = worker < from->situation->lanes;
    bool is_first = kept->count && (is_kept || !other->count ||
        from->requests[kept->first].submitted <= from->requests[other->first].submitted);
    if (is_first) return remove_first(from, kept);
    return is_kept || !other->count ? NOBODY : remove_first(from, other);
}

static uint32_t take_of_queues(service *from, uint32_t worker) {
    switch (from->situation->discipline) {
    case ONE_QUEUE: return remove_first(from, &from->queues[0]);
    case ROUND_ROBIN: return take_in_turn(from);
    case DEFICIT: return take_by_deficit(from);
    default: return take_by_lane(from, worker);
    }
}

static void submit_to_queue(service *to, uint32_t tenant, uint32_t place) {
    discipline by = to->situation->discipline;
    bool has_turns = by == ROUND_ROBIN || by == DEFICIT;
    uint32_t number = has_turns ? tenant : by == LANES && group_of(to->situation, tenant) > 0;
    if (has_turns && !to->queues[tenant].count) begin_turn(to, tenant);
    append(to, &to->queues[number], place);
}

// Calls.

static uint32_t place_for(service *in) {
    if (in->free == NOBODY) {
        uint32_t room = in->room ? 2 * in->room : 1024;
        in->requests = realloc(in->requests, room * sizeof *in->requests);
        if (!in->requests) fail("out of memory");
        for (uint32_t place = in->room; place < room; place++) {
            in->requests[place].next = in->free;
            in->free = place;
        }
        in->room = room;
    }
    uint32_t place = in->free;
    in->free = in->requests[place].next;
    return place;
}

void submit(service *to, uint64_t moment, uint32_t tenant, uint64_t cost, uint64_t declared) {
    uint32_t place = place_for(to);
    to->requests[place] = (request){ .tenant = tenant, .next = NOBODY, .cost = cost, .submitted = moment };
    to->waiting++;
    if (!is_by_library(to)) submit_to_queue(to, tenant, place);
    else if (twodfq_submit(&to->scheduler, 0, moment, tenant, 0, declared, place).kind != TWODFQ_REQUEST) fail("a submit is refused");
}

uint32_t take(service *from, uint64_t moment, uint32_t worker) {
    if (!from->waiting) return NOBODY;
    uint32_t place = NOBODY;
    if (!is_by_library(from)) {
        place = take_of_queues(from, worker);
    } else {
        twodfq_reply reply = twodfq_take(&from->scheduler, worker, moment, worker);
        if (reply.kind != TWODFQ_RUN) fail("a take gives nothing");
        place = (uint32_t)reply.second;
    }
    from->waiting -= place != NOBODY;
    return place;
}

void report(service *to, uint64_t moment, uint32_t worker, uint64_t used) {
    if (is_by_library(to) && twodfq_report(&to->scheduler, worker, moment, worker, used).kind != TWODFQ_ACCEPTED)
        fail("a report is refused");
}

void done(service *to, uint64_t moment, uint32_t worker, uint32_t place) {
    uint64_t cost = to->requests[place].cost;
    if (is_by_library(to) && twodfq_done(&to->scheduler, worker, moment, worker, cost).kind != TWODFQ_ACCEPTED)
        fail("a done is refused");
    to->requests[place].next = to->free;
    to->free = place;
}

// Whether the worker's next request is early, and then its estimate.
bool is_early(service *by, uint64_t moment, uint32_t worker, uint64_t *estimate) {
    if (!is_by_library(by) || !by->waiting) return false;
    twodfq_reply next = twodfq_foresee(&by->scheduler, moment, worker, 0);
    *estimate = next.first;
    return next.kind == TWODFQ_FORESEEN && !next.is_eligible;
}
