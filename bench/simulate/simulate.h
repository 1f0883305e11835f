// A simulated pool of workers that many tenants share. Moments and costs are in microseconds.
#ifndef SIMULATE_H
#define SIMULATE_H

#include <stdbool.h>
#include <stddef.h>
#include <stdint.h>

#include "twodfq.h"

enum { MOST_WORKERS = 64, MOST_TENANTS = 256, MOST_GROUPS = 4 };
#define NOBODY UINT32_MAX

// The rule by which a worker's request is chosen. Up to TWO_DFQ_PLUS these are the policies of the library, by their numbers there.
typedef enum {
    WFQ,
    WF2Q,
    MSF2Q,
    TWO_DFQ,
    TWO_DFQ_PLUS,
    ONE_QUEUE,   // the oldest request
    ROUND_ROBIN, // a queue for each tenant, one request of each in turn
    DEFICIT,     // deficit round robin (Shreedhar and Varghese 1995): in each turn a quantum of known costs
    LANES        // some workers are kept for the first group, the others serve the oldest request
} discipline;

// The distribution of the costs of a group's requests.
typedef enum {
    FIXED,      // low
    NEAR,       // by a normal distribution around low, with a deviation of a tenth
    LOG_UNIFORM, // from low to high, as often in each tenfold range
    TWO_HUMPED  // near high with this part, else near low
} law;

// Tenants of one sort, all of weight 1.
typedef struct {
    uint32_t tenants;
    law law;
    double low, high, part;
    uint64_t declared; // the declared cost; 0 for each request's own cost
    uint32_t backlog;  // the requests of a tenant that wait all the time; 0 where they come at random
    uint32_t most;     // the requests of a tenant in all where it has a backlog; 0 for no end
    double interval;   // where they come at random, the mean time between two of a tenant
} group;

typedef struct {
    uint32_t workers, tenants, groups_count, estimate, lanes;
    discipline discipline;
    double patience;
    uint64_t joins; // tenants with a backlog come at random moments before this
    uint64_t quantum, from, to, slot, seed; // the window is from `from` to `to`, and lags are kept after each slot
    bool shows_lags, shows_series;
    group groups[MOST_GROUPS];
} situation;

// A request that waits or runs.
typedef struct {
    uint32_t tenant, next;
    uint64_t cost, submitted;
} request;

// Requests in the order of their submission, by the numbers of their places.
typedef struct {
    uint32_t first, last, count;
} queue;

// The side that decides: a scheduler of the library, or queues.
typedef struct {
    const situation *situation;
    twodfq scheduler;
    request *requests;
    uint32_t room, free, waiting;
    queue queues[MOST_TENANTS];
    uint32_t turns[MOST_TENANTS], first_turn, turns_count; // tenants with waiting requests, a ring
    uint64_t deficits[MOST_TENANTS];
} service;

// The record of a run.
typedef struct {
    double *lags[MOST_TENANTS]; // after each slot of the window
    size_t slots;
    double work[MOST_TENANTS]; // the costs of each tenant's requests that have ended
    // The fluid service of a tenant that is there from the begin up to a moment; and its part before each tenant came.
    double fluid, fluid_before[MOST_TENANTS];
    uint64_t fluid_moment;
    uint32_t backlogged; // the number of tenants that the ideal server serves
    double wanted[MOST_TENANTS]; // the costs of all requests of a tenant whose number is limited, else 0
    double *waits[MOST_GROUPS]; // from submit to take, of requests taken in the window
    size_t waits_count[MOST_GROUPS], waits_room[MOST_GROUPS];
    uint64_t done[MOST_GROUPS];  // requests that ended in the window
    double busy;                // the time in the window for which workers ran requests
} record;

void read_situation(situation *read);
uint32_t group_of(const situation *of, uint32_t tenant);

void open_service(service *opened, const situation *of);
void submit(service *to, uint64_t moment, uint32_t tenant, uint64_t cost, uint64_t declared);
uint32_t take(service *from, uint64_t moment, uint32_t worker); // the place of the request, or NOBODY
void report(service *to, uint64_t moment, uint32_t worker, uint64_t used);
void done(service *to, uint64_t moment, uint32_t worker, uint32_t place);
bool is_early(service *by, uint64_t moment, uint32_t worker, uint64_t *estimate);

void open_record(record *opened, const situation *of);
void see_wait(record *in, uint32_t group, double wait);
void see_join(record *in, const situation *of, uint32_t tenant, uint64_t moment);
void see_lag(record *in, const situation *of, uint32_t tenant, uint64_t moment, double work);
void print_record(record *of, const situation *in);

void fail(const char *why);

#endif
