// The calls of examples/first.script: two tenants on one worker. It writes the replies.
#include "replies.h"

int main(void) {
    twodfq scheduler = TWODFQ_NONE;
    uint32_t weights[] = { 1, 1 };
    twodfq_opening opening = {
        .workers = 1,
        .kinds = 1,
        .entries = 100,
        .requests = 10,
        .policy = TWODFQ_2DFQ,
        .estimate = TWODFQ_DECLARED,
        .initial = 1000,
    };
    uint32_t status = twodfq_open(&scheduler, &opening, weights, 2);
    if (status != TWODFQ_OPENED) {
        fprintf(stderr, "first: no scheduler, status %" PRIu32 "\n", status);
        return 1;
    }
    enum { SEARCH, BACKUP };
    write_reply(twodfq_submit(&scheduler, 0, 0, SEARCH, 0, 10, 100));
    write_reply(twodfq_submit(&scheduler, 0, 0, SEARCH, 0, 10, 101));
    write_reply(twodfq_submit(&scheduler, 0, 0, SEARCH, 0, 10, 102));
    write_reply(twodfq_submit(&scheduler, 1, 0, BACKUP, 0, 10, 200));
    write_reply(twodfq_take(&scheduler, 9, 0, 0));
    for (uint64_t moment = 10; moment <= 40; moment += 10) {
        write_reply(twodfq_done(&scheduler, 9, moment, 0, 10));
        write_reply(twodfq_take(&scheduler, 9, moment, 0));
    }
    write_reply(twodfq_close(&scheduler, 0, 40));
    write_reply(twodfq_take(&scheduler, 9, 41, 0));
    write_reply(twodfq_submit(&scheduler, 0, 42, SEARCH, 0, 10, 103));
    twodfq_free(&scheduler);
}
