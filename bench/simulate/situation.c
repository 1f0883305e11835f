// Reads a situation: lines of a word and its values, on standard input.
#include <stdio.h>
#include <stdlib.h>
#include <string.h>

#include "simulate.h"

static const char *const disciplines[] = { "wfq", "wf2q", "msf2q", "2dfq", "2dfq+", "one-queue", "round-robin", "deficit", "lanes" };
static const char *const estimates[] = { "declared", "recent", "pessimistic" };
static const char *const laws[] = { "fixed", "near", "log-uniform", "two-humped" };
#define COUNT(names) (sizeof(names) / sizeof *(names))

void fail(const char *why) {
    fprintf(stderr, "simulate: %s\n", why);
    exit(1);
}

static void refuse(const char *text) {
    fprintf(stderr, "simulate: not understood: %s\n", text);
    exit(1);
}

static uint32_t place_of(const char *word, const char *const names[], size_t count) {
    for (size_t i = 0; i < count; i++)
        if (strcmp(word, names[i]) == 0) return (uint32_t)i;
    refuse(word);
    return 0;
}

static void read_group(situation *read, const char *values) {
    char name[32];
    group *added = &read->groups[read->groups_count];
    if (read->groups_count == MOST_GROUPS) fail("too many groups");
    int count = sscanf(values, "%u %31s %lf %lf %lf %lu %u %u %lf", &added->tenants, name, &added->low, &added->high, &added->part,
        &added->declared, &added->backlog, &added->most, &added->interval);
    if (count != 9) fail("a line of tenants has nine values");
    added->law = place_of(name, laws, COUNT(laws));
    read->groups_count++;
    read->tenants += added->tenants;
    if (read->tenants > MOST_TENANTS) fail("too many tenants");
}

static bool read_serve(situation *read, const char *values) {
    char name[32], estimate[32];
    if (sscanf(values, "%31s %31s", name, estimate) != 2) return false;
    read->discipline = place_of(name, disciplines, COUNT(disciplines));
    read->estimate = place_of(estimate, estimates, COUNT(estimates));
    return true;
}

static bool read_line(situation *read, const char *word, const char *values) {
    if (strcmp(word, "tenants") == 0) {
        read_group(read, values);
        return true;
    }
    if (strcmp(word, "workers") == 0) return sscanf(values, "%u", &read->workers) == 1;
    if (strcmp(word, "seed") == 0) return sscanf(values, "%lu", &read->seed) == 1;
    if (strcmp(word, "window") == 0) return sscanf(values, "%lu %lu %lu", &read->from, &read->to, &read->slot) == 3;
    if (strcmp(word, "joins") == 0) return sscanf(values, "%lu", &read->joins) == 1;
    if (strcmp(word, "patience") == 0) return sscanf(values, "%lf", &read->patience) == 1;
    if (strcmp(word, "lanes") == 0) return sscanf(values, "%u", &read->lanes) == 1;
    if (strcmp(word, "quantum") == 0) return sscanf(values, "%lu", &read->quantum) == 1;
    if (strcmp(word, "show") == 0) {
        read->shows_lags = strstr(values, "lags") != NULL;
        read->shows_series = strstr(values, "series") != NULL;
        return true;
    }
    return strcmp(word, "serve") == 0 && read_serve(read, values);
}

void read_situation(situation *read) {
    char line[256], word[32];
    int length;
    while (fgets(line, sizeof line, stdin)) {
        if (sscanf(line, "%31s %n", word, &length) != 1) continue;
        if (!read_line(read, word, line + length)) refuse(line);
    }
    bool is_whole = read->workers >= 1 && read->workers <= MOST_WORKERS && read->tenants && read->slot && read->to > read->from;
    if (!is_whole) fail("no workers, no tenants or no window");
}

uint32_t group_of(const situation *of, uint32_t tenant) {
    uint32_t place = 0;
    for (uint32_t before = of->groups[0].tenants; before <= tenant; before += of->groups[place].tenants) place++;
    return place;
}
