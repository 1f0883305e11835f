// The version of the library, and texts for the numbers that its calls give. These functions are not proved.
#include "twodfq.h"

const char *twodfq_version(void) { return TWODFQ_VERSION; }

const char *twodfq_open_message(uint32_t status) {
    switch (status) {
    case TWODFQ_OPENED: return "the scheduler is open";
    case TWODFQ_OPEN_ALREADY: return "the handle holds a scheduler already";
    case TWODFQ_OPEN_POLICY: return "no policy has this number";
    case TWODFQ_OPEN_ESTIMATE: return "no estimator has this number";
    case TWODFQ_OPEN_NO_MEMORY: return "out of memory";
    case TWODFQ_OPEN_WORKERS: return "there may be 1 to 4096 workers";
    case TWODFQ_OPEN_TENANTS: return "there may be 1 to 65536 tenants";
    case TWODFQ_OPEN_WEIGHT: return "a weight may be 1 to 100000";
    case TWODFQ_OPEN_KINDS: return "there may be 1 to 64 kinds";
    case TWODFQ_OPEN_PAIRS: return "there may be 1048576 pairs of a tenant and a kind";
    case TWODFQ_OPEN_ENTRIES: return "there may be 4 to 4194304 entries, and up to 4000000000 where keep is not 0";
    case TWODFQ_OPEN_REQUESTS: return "1 to 1048576 requests may wait at once";
    case TWODFQ_OPEN_INITIAL: return "the initial estimate may be 1 to 1000000000 microseconds";
    default: return "no status of an opening has this number";
    }
}

const char *twodfq_reply_message(uint32_t kind) {
    switch (kind) {
    case TWODFQ_REQUEST: return "the request is submitted";
    case TWODFQ_RUN: return "the worker runs the request";
    case TWODFQ_ACCEPTED: return "the call is accepted";
    case TWODFQ_IDLE: return "nothing waits, and more may come";
    case TWODFQ_DRAINED: return "nothing waits, and nothing more will come";
    case TWODFQ_RETIRED: return "the worker is not among those that there are now";
    case TWODFQ_WITHDRAWN: return "the request is withdrawn";
    case TWODFQ_NOTHING: return "nothing waits";
    case TWODFQ_FORESEEN: return "a take would give a request";
    case TWODFQ_REFUSED_CLOSED: return "the history is closed";
    case TWODFQ_REFUSED_TENANT: return "no tenant has this number";
    case TWODFQ_REFUSED_KIND: return "no kind has this number";
    case TWODFQ_REFUSED_COST: return "a cost or use may be at most 1000000000 microseconds, and a declared one not 0";
    case TWODFQ_REFUSED_SLOTS: return "as many requests wait as may";
    case TWODFQ_REFUSED_FULL: return "the history lacks room for the call and what must follow it";
    case TWODFQ_REFUSED_WORKER: return "no worker has this number";
    case TWODFQ_REFUSED_BUSY: return "the worker runs a request already";
    case TWODFQ_REFUSED_NOT_RUNNING: return "the worker runs nothing";
    case TWODFQ_REFUSED_FALLING: return "a use or cost is less than was reported before";
    case TWODFQ_REFUSED_WEIGHT: return "a weight may be 1 to 100000";
    case TWODFQ_REFUSED_WORKERS: return "there may be 1 to as many workers as at the opening";
    case TWODFQ_REFUSED_NOT_WAITING: return "the request does not wait";
    case TWODFQ_NO_SCHEDULER: return "the handle holds no scheduler";
    default: return "no kind of a reply has this number";
    }
}
