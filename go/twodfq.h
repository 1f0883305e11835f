/* A request scheduler that shares workers fairly among tenants (Two-Dimensional Fair Queuing, Mace and others, 2016).

   Every function is proved to keep its promise, which stands at its declaration, for all arguments; only version and
   messages are not, and that memory is taken at the opening alone is tested. The caller keeps these rules, which no
   proof can see:
   - a handle begins as TWODFQ_NONE, nobody else writes its fields, and of a handle and its copies only one is used;
   - pointers are valid: to a handle, to an opening, and to one weight a tenant (with no tenant, to anything but null);
   - one call at a time is made on a handle: where threads share it, each call is made under one lock, the caller's own.
     A handle may pass from one thread to another;
   - no call is made from a signal handler, or in a child that a process with threads forked.

   Moments and costs are in microseconds. A moment is the caller's clock, and may be any number: a call takes effect at
   its moment, but not before the last accepted one, and at 10^15 at most. `who` is a number that the caller gives
   itself; it is written down and not looked at. Tenants, kinds, workers and requests are numbered from 0. */
#ifndef TWODFQ_H
#define TWODFQ_H

#include <stdbool.h>
#include <stddef.h>
#include <stdint.h>

#ifdef __cplusplus
extern "C" {
#endif

/* The version of this header. Below 1.0 another minor version may change any name, number or struct. */
#define TWODFQ_VERSION_MAJOR 0
#define TWODFQ_VERSION_MINOR 16
#define TWODFQ_VERSION "0.16"

/* The version of the library that the program runs with, written as TWODFQ_VERSION is. */
const char *twodfq_version(void);

/* A scheduler, or none. */
typedef struct {
    void *hidden;
    bool is_open;
} twodfq;
#define TWODFQ_NONE { NULL, false }

/* Which waiting request a worker takes. */
enum {
    TWODFQ_WFQ,      /* the least finish tag */
    TWODFQ_WF2Q,     /* the least finish tag of the heads that have started in virtual time */
    TWODFQ_MSF2Q,    /* as WF2Q, with starts by the virtual time that passed while a tenant was idle */
    TWODFQ_2DFQ,     /* as WF2Q, with eligible keys that differ from worker to worker */
    TWODFQ_2DFQ_PLUS /* as 2DFQ, with a virtual time that stays near the service */
};

/* How the cost of a request is estimated before it is done. */
enum {
    TWODFQ_DECLARED,   /* the cost that its submitter declared */
    TWODFQ_RECENT,     /* the mean of the last eight costs of its tenant and kind */
    TWODFQ_PESSIMISTIC /* the greatest of the costs of its tenant and kind, which decay */
};

typedef struct {
    uint32_t workers;  /* 1 to 4,096 */
    uint32_t kinds;    /* 1 to 64; tenants times kinds is at most 1,048,576 */
    uint32_t entries;  /* how many entries the history may have: 4 to 4,194,304, or 4,000,000,000 where keep is not 0 */
    uint32_t requests; /* how many requests may wait at once: 1 to 1,048,576 */
    uint32_t policy;   /* TWODFQ_WFQ to TWODFQ_2DFQ_PLUS */
    uint32_t estimate; /* TWODFQ_DECLARED to TWODFQ_PESSIMISTIC */
    uint64_t initial;  /* the estimate before any completion: 1 to 1,000,000,000 */
    uint32_t keep;     /* how many of the last entries can be read; 0 and any number above entries: all of them */
} twodfq_opening;

/* The statuses of twodfq_open, which gives the first that is so, in this order. */
enum {
    TWODFQ_OPENED,
    TWODFQ_OPEN_ALREADY,   /* the handle holds a scheduler */
    TWODFQ_OPEN_POLICY,    /* no policy has the number */
    TWODFQ_OPEN_ESTIMATE,  /* no estimator has the number */
    TWODFQ_OPEN_NO_MEMORY,
    TWODFQ_OPEN_WORKERS = 16,
    TWODFQ_OPEN_TENANTS,   /* 1 to 65,536 */
    TWODFQ_OPEN_WEIGHT,    /* each 1 to 100,000 */
    TWODFQ_OPEN_KINDS,
    TWODFQ_OPEN_PAIRS,     /* too many tenants times kinds */
    TWODFQ_OPEN_ENTRIES,
    TWODFQ_OPEN_REQUESTS,
    TWODFQ_OPEN_INITIAL
};

/* Opens a scheduler in a handle that holds none, with one weight a tenant; the weights are copied. It is the only call
   that takes memory, and takes all that the scheduler will use. A status other than TWODFQ_OPENED leaves the handle
   unchanged. */
uint32_t twodfq_open(twodfq *handle, const twodfq_opening *opening, const uint32_t *weights, size_t tenants);

/* The kinds of replies. A refusal names the first cause that is so, in the order that stands at the call. A call on a
   handle without a scheduler is answered TWODFQ_NO_SCHEDULER. */
enum {
    TWODFQ_REQUEST,     /* submitted: request has this number */
    TWODFQ_RUN,         /* the worker runs request from now on; first: its estimate, second: its label */
    TWODFQ_ACCEPTED,
    TWODFQ_IDLE,        /* nothing waits; more may come */
    TWODFQ_DRAINED,     /* nothing waits, and nothing more will come */
    TWODFQ_RETIRED,     /* the worker is not among those that there are now; first: their number. It may ask again */
    TWODFQ_WITHDRAWN,   /* the request is withdrawn; second: its label */
    TWODFQ_NOTHING,     /* foreseen: nothing waits, whether or not more may come */
    TWODFQ_FORESEEN,    /* foreseen: a take gives request; first: its estimate, and the four last numbers of a reply */
    TWODFQ_REFUSED_CLOSED = 16, /* the history is closed */
    TWODFQ_REFUSED_TENANT,      /* no tenant has this number; first: the number */
    TWODFQ_REFUSED_KIND,        /* no kind has this number; first: the number */
    TWODFQ_REFUSED_COST,        /* above 1,000,000,000, or declared as 0; first: the cost given */
    TWODFQ_REFUSED_SLOTS,       /* as many requests wait as may; first: how many may */
    TWODFQ_REFUSED_FULL,        /* no room for the call and all that must follow it; first: how many entries may be */
    TWODFQ_REFUSED_WORKER,      /* no worker has this number; first: the number */
    TWODFQ_REFUSED_BUSY,        /* the worker runs request */
    TWODFQ_REFUSED_NOT_RUNNING, /* the worker runs nothing */
    TWODFQ_REFUSED_FALLING,     /* less than the greatest use reported; first: that use, second: the number given */
    TWODFQ_REFUSED_WEIGHT,      /* not 1 to 100,000; first: the weight given */
    TWODFQ_REFUSED_WORKERS,     /* 0, or more than at the opening; first: the number given */
    TWODFQ_REFUSED_NOT_WAITING, /* request was never submitted, or is taken or withdrawn */
    TWODFQ_NO_SCHEDULER = 255
};

/* Numbers that a kind does not use are 0. The four last are of a foreseen request: its tenant and its kind; 1 where it
   is eligible for the worker, else no tenant's head is; and 1 where the head of some tenant is eligible for the worker
   and has an estimate below the one that was asked about. */
typedef struct {
    uint32_t kind, request;
    uint64_t first, second;
    uint32_t tenant, request_kind, is_eligible, has_smaller;
} twodfq_reply;

/* A request comes; it gets the next number. declared: the cost that its submitter names. label: any number, which comes
   back with TWODFQ_RUN and TWODFQ_WITHDRAWN. Refused: CLOSED, TENANT, KIND, COST, SLOTS, FULL. */
twodfq_reply twodfq_submit(twodfq *handle, uint32_t who, uint64_t moment, uint32_t tenant, uint32_t kind, uint64_t declared,
    uint64_t label);

/* A worker asks for work: RUN, IDLE, DRAINED or RETIRED. Refused: WORKER, BUSY. */
twodfq_reply twodfq_take(twodfq *handle, uint32_t who, uint64_t moment, uint32_t worker);

/* The worker names the use of its request so far; it runs on. Refused: WORKER, NOT_RUNNING, COST, FALLING, FULL. */
twodfq_reply twodfq_report(twodfq *handle, uint32_t who, uint64_t moment, uint32_t worker, uint64_t used);

/* The worker's request has ended, and this is its measured cost. A tenant whose requests cost 0 may be taken for ever
   while others wait, so count at least 1. Refused: WORKER, NOT_RUNNING, COST, FALLING. */
twodfq_reply twodfq_done(twodfq *handle, uint32_t who, uint64_t moment, uint32_t worker, uint64_t cost);

/* Nothing more is submitted; workers that sleep have to be woken to learn it. Refused: CLOSED. */
twodfq_reply twodfq_close(twodfq *handle, uint32_t who, uint64_t moment);

/* The tenant has this weight from now on. Refused: TENANT, WEIGHT, FULL. */
twodfq_reply twodfq_weight(twodfq *handle, uint32_t who, uint64_t moment, uint32_t tenant, uint32_t weight);

/* There are `count` workers from now on, those with lower numbers; at most as many as at the opening. Refused: WORKERS,
   FULL. */
twodfq_reply twodfq_workers(twodfq *handle, uint32_t who, uint64_t moment, uint32_t count);

/* A request that waits is withdrawn: it is never taken, and costs nothing. The call may come after a close, too.
   Refused: NOT_WAITING. */
twodfq_reply twodfq_withdraw(twodfq *handle, uint32_t who, uint64_t moment, uint32_t request);

/* Foresees a take by the worker at this moment: NOTHING, FORESEEN or RETIRED. `below` is an estimate in microseconds,
   and 0 where nobody asks for smaller heads. It changes nothing, and calls after it may be at earlier moments. Refused
   as a take would be: WORKER, BUSY. */
twodfq_reply twodfq_foresee(twodfq *handle, uint64_t moment, uint32_t worker, uint64_t below);

/* An entry of the history, which has one for each call that was answered REQUEST, RUN, ACCEPTED or WITHDRAWN. */
enum {
    TWODFQ_ENTRY_SUBMIT,   /* request, tenant, request_kind, amount: the declared cost, label */
    TWODFQ_ENTRY_TAKE,     /* request, worker, amount: the estimate */
    TWODFQ_ENTRY_REPORT,   /* request, worker, amount: the use */
    TWODFQ_ENTRY_DONE,     /* request, worker, amount: the cost */
    TWODFQ_ENTRY_CLOSE,
    TWODFQ_ENTRY_WEIGHT,   /* tenant, amount: the weight */
    TWODFQ_ENTRY_WORKERS,  /* amount: the number of workers */
    TWODFQ_ENTRY_WITHDRAW, /* request */
    TWODFQ_ENTRY_NONE = 255
};

/* Numbers that a kind does not use are 0. moment: when the call took effect. NONE uses amount, for an index. */
typedef struct {
    uint32_t kind, who;
    uint64_t moment;
    uint32_t request, tenant, request_kind, worker;
    uint64_t amount, label;
} twodfq_line;

/* The entry with this index, in order of time; the first of all has 0. NONE where there is no such entry, where it is
   kept no longer, or where the handle holds no scheduler; amount is then the least index of a kept entry, and the
   number of entries where none is kept. A log that comes by at least once every `keep` entries, and reads on from the
   index that it had come to, has them all. */
twodfq_line twodfq_entry(twodfq *handle, uint64_t index);

/* Numbers are 0 where there is no scheduler. Virtual time is in steps, of which a unit has 1,048,576. */
typedef struct {
    uint32_t kind;          /* 0, or TWODFQ_NO_SCHEDULER */
    uint32_t waiting;       /* how many requests wait */
    uint32_t running;       /* how many requests run */
    uint32_t virtual_steps; /* virtual time beyond its whole units */
    uint64_t virtual_units; /* virtual time at the last entry, in whole units */
    uint64_t entries;       /* how many entries the history has */
    uint64_t moment;        /* the moment of the last entry, or 0 */
} twodfq_standing;

/* The status of the scheduler after its last entry. */
twodfq_standing twodfq_status(twodfq *handle);

/* Gives the scheduler's memory back. The handle holds no scheduler from here on; a second call does nothing. */
void twodfq_free(twodfq *handle);

/* An English text for a status of an opening, or for a kind of a reply. It is never null: a number without a name has a
   text, too. Texts are for people, and another version may word them otherwise. There are two functions since statuses
   and kinds share numbers: 16 is TWODFQ_OPEN_WORKERS of the statuses, and TWODFQ_REFUSED_CLOSED of the kinds. */
const char *twodfq_open_message(uint32_t status);
const char *twodfq_reply_message(uint32_t kind);

#ifdef __cplusplus
}
#endif

#endif
