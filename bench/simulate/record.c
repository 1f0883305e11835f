// The record of a run, and its print.
#include <inttypes.h>
#include <math.h>
#include <stdio.h>
#include <stdlib.h>

#include "simulate.h"

static void *room_for(size_t count) {
    void *room = calloc(count ? count : 1, sizeof(double));
    if (!room) fail("out of memory");
    return room;
}

void open_record(record *opened, const situation *of) {
    opened->slots = (of->to - of->from) / of->slot;
    for (uint32_t tenant = 0; tenant < of->tenants; tenant++) opened->lags[tenant] = room_for(opened->slots);
}

void see_wait(record *in, uint32_t group, double wait) {
    if (in->waits_count[group] == in->waits_room[group]) {
        in->waits_room[group] = in->waits_room[group] ? 2 * in->waits_room[group] : 4096;
        in->waits[group] = realloc(in->waits[group], in->waits_room[group] * sizeof(double));
        if (!in->waits[group]) fail("out of memory");
    }
    in->waits[group][in->waits_count[group]++] = wait;
}

// The ideal server serves up to a moment: each tenant that is there has a backlog all the time, so all get equal parts.
static void pour(record *in, const situation *of, uint64_t moment) {
    if (in->backlogged) in->fluid += (double)(moment - in->fluid_moment) * of->workers / in->backlogged;
    in->fluid_moment = moment;
}

void see_join(record *in, const situation *of, uint32_t tenant, uint64_t moment) {
    pour(in, of, moment);
    in->fluid_before[tenant] = in->fluid;
    in->backlogged++;
}

// Keeps a tenant's lag after a slot: its fluid service, which is at most the cost of its requests, less the work done for it.
void see_lag(record *in, const situation *of, uint32_t tenant, uint64_t moment, double work) {
    pour(in, of, moment);
    double fluid = in->fluid - in->fluid_before[tenant];
    if (in->wanted[tenant] > 0 && fluid > in->wanted[tenant]) fluid = in->wanted[tenant];
    in->lags[tenant][(moment - of->from) / of->slot - 1] = fluid - work;
}

static int compare(const void *one, const void *other) {
    double a = *(const double *)one, b = *(const double *)other;
    return (a > b) - (a < b);
}

// The value at a rank in thousandths, rounded up, of values in order.
static double at_rank(const double *values, size_t count, size_t thousandths) {
    size_t rank = (thousandths * count + 999) / 1000;
    return count ? values[(rank ? rank : 1) - 1] : 0;
}

static double spread(const double *lags, size_t count) {
    double sum = 0, squares = 0;
    for (size_t i = 0; i < count; i++) sum += lags[i];
    double mean = sum / (double)count;
    for (size_t i = 0; i < count; i++) squares += (lags[i] - mean) * (lags[i] - mean);
    return sqrt(squares / (double)count);
}

// Lags are kept where all tenants have a backlog all the time.
static bool has_lags(const situation *in) {
    for (uint32_t place = 0; place < in->groups_count; place++)
        if (!in->groups[place].backlog) return false;
    return true;
}

static void print_spread(const record *of, const situation *in, uint32_t place, uint32_t first) {
    double sum = 0;
    uint32_t tenants = in->groups[place].tenants;
    for (uint32_t tenant = first; tenant < first + tenants; tenant++) sum += spread(of->lags[tenant], of->slots);
    printf("spread %u %.3f\n", place, sum / tenants);
}

static void print_group(record *of, const situation *in, uint32_t place, uint32_t first) {
    double seconds = (double)(in->to - in->from) / 1e6;
    if (has_lags(in)) print_spread(of, in, place, first);
    double *waits = of->waits[place];
    size_t count = of->waits_count[place];
    if (count) qsort(waits, count, sizeof *waits, compare);
    printf("wait %u %.0f %.0f %.0f %.0f\n", place, at_rank(waits, count, 500), at_rank(waits, count, 900),
        at_rank(waits, count, 990), at_rank(waits, count, 999));
    printf("done %u %.3f\n", place, (double)of->done[place] / seconds);
}

static void print_lags(record *of, const situation *in) {
    for (uint32_t tenant = 0; tenant < in->tenants; tenant++) {
        double *lags = of->lags[tenant];
        qsort(lags, of->slots, sizeof *lags, compare);
        printf("lag %u %.0f", tenant, lags[0]);
        static const size_t ranks[] = { 500, 900, 990, 1000 };
        for (int rank = 0; rank < 4; rank++) printf(" %.0f", at_rank(lags, of->slots, ranks[rank]));
        putchar('\n');
    }
}

void print_record(record *of, const situation *in) {
    for (uint32_t place = 0, first = 0; place < in->groups_count; first += in->groups[place++].tenants)
        print_group(of, in, place, first);
    printf("busy %.4f\n", of->busy / (double)(in->to - in->from) / in->workers);
    if (in->shows_series) {
        printf("series");
        for (size_t slot = 0; slot < of->slots; slot++) printf(" %.0f", of->lags[0][slot]);
        putchar('\n');
    }
    if (in->shows_lags) print_lags(of, in);
}
