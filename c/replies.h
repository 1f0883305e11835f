// Replies as lines of text, as `twodfq script` writes them.
#ifndef REPLIES_H
#define REPLIES_H

#include <inttypes.h>
#include <stdio.h>

#include "twodfq.h"

static void write_reply(twodfq_reply reply) {
    static const char *const refusals[] = {
        [TWODFQ_REFUSED_TENANT] = "tenant", [TWODFQ_REFUSED_KIND] = "kind", [TWODFQ_REFUSED_COST] = "cost",
        [TWODFQ_REFUSED_SLOTS] = "slots", [TWODFQ_REFUSED_FULL] = "full", [TWODFQ_REFUSED_WORKER] = "worker",
        [TWODFQ_REFUSED_WEIGHT] = "weight", [TWODFQ_REFUSED_WORKERS] = "workers",
    };
    switch (reply.kind) {
    case TWODFQ_REQUEST: printf("request %" PRIu32 "\n", reply.request); break;
    case TWODFQ_RUN: printf("run %" PRIu32 " %" PRIu64 " %" PRIu64 "\n", reply.request, reply.first, reply.second); break;
    case TWODFQ_ACCEPTED: puts("ok"); break;
    case TWODFQ_IDLE: puts("idle"); break;
    case TWODFQ_DRAINED: puts("drained"); break;
    case TWODFQ_RETIRED: printf("retired %" PRIu64 "\n", reply.first); break;
    case TWODFQ_WITHDRAWN: printf("withdrawn %" PRIu64 "\n", reply.second); break;
    case TWODFQ_REFUSED_CLOSED: puts("refused closed"); break;
    case TWODFQ_REFUSED_BUSY: printf("refused busy %" PRIu32 "\n", reply.request); break;
    case TWODFQ_REFUSED_NOT_WAITING: printf("refused not-waiting %" PRIu32 "\n", reply.request); break;
    case TWODFQ_REFUSED_NOT_RUNNING: puts("refused not-running"); break;
    case TWODFQ_REFUSED_FALLING: printf("refused falling %" PRIu64 " %" PRIu64 "\n", reply.first, reply.second); break;
    case TWODFQ_NO_SCHEDULER: puts("no scheduler"); break;
    default: printf("refused %s %" PRIu64 "\n", refusals[reply.kind], reply.first);
    }
}

#endif
