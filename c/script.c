// Makes the calls of a script (docs/FORMATS.md), which is read from standard input and not checked, and writes the
// output of `twodfq script --print both`: the replies, and the journal, by the entries of the history. It reads the new
// entries after each call.
//
//   script [KEEP]            with this number of the last entries kept: 1 is enough
#include <stdlib.h>
#include <string.h>

#include "replies.h"

enum { MOST_TENANTS = 4096, WORDS = 8 };

static char *head[MOST_TENANTS + 128]; // the lines of the head, for the journal
static size_t head_lines;
static uint32_t weights[MOST_TENANTS];
static twodfq_line *entries; // the entries read so far
static size_t entries_read, entries_room;

static uint64_t number(const char *word) { return strtoull(word, NULL, 10); }

static uint32_t place(const char *const names[], uint32_t count, const char *word) {
    uint32_t i = 0;
    while (i < count && strcmp(names[i], word)) i++;
    return i;
}

// The line's words, which end with null pointers.
static void split(char *line, char *words[WORDS]) {
    memset(words, 0, WORDS * sizeof *words);
    size_t count = 0;
    for (char *word = strtok(line, " "); word && count < WORDS; word = strtok(NULL, " ")) words[count++] = word;
}

static void read_config(char *words[WORDS], twodfq_opening *opening) {
    static const char *const policies[] = { "wfq", "wf2q", "msf2q", "2dfq", "2dfq+" };
    static const char *const estimates[] = { "declared", "recent", "pessimistic" };
    opening->workers = (uint32_t)number(words[1]);
    opening->policy = place(policies, 5, words[2]);
    opening->estimate = place(estimates, 3, words[3]);
    opening->initial = number(words[4]);
    opening->entries = (uint32_t)number(words[5]);
    opening->requests = (uint32_t)number(words[6]);
}

static void open(twodfq *scheduler, const twodfq_opening *opening, uint32_t tenants) {
    uint32_t status = twodfq_open(scheduler, opening, weights, tenants);
    if (status == TWODFQ_OPENED) return;
    fprintf(stderr, "script: no scheduler, status %" PRIu32 "\n", status);
    exit(1);
}

static twodfq_reply call(twodfq *scheduler, char *words[WORDS]) {
    uint64_t n[WORDS] = { 0 };
    for (size_t i = 1; i < WORDS && words[i]; i++) n[i] = number(words[i]);
    uint32_t who = (uint32_t)n[1], first = (uint32_t)n[3], second = (uint32_t)n[4];
    const char *name = words[0];
    if (!strcmp(name, "submit")) return twodfq_submit(scheduler, who, n[2], first, second, n[5], n[6]);
    if (!strcmp(name, "take")) return twodfq_take(scheduler, who, n[2], first);
    if (!strcmp(name, "report")) return twodfq_report(scheduler, who, n[2], first, n[4]);
    if (!strcmp(name, "done")) return twodfq_done(scheduler, who, n[2], first, n[4]);
    if (!strcmp(name, "weight")) return twodfq_weight(scheduler, who, n[2], first, second);
    if (!strcmp(name, "workers")) return twodfq_workers(scheduler, who, n[2], first);
    if (!strcmp(name, "withdraw")) return twodfq_withdraw(scheduler, who, n[2], first);
    return twodfq_close(scheduler, who, n[2]);
}

static void write_entry(twodfq_line e) {
    static const char *const names[] = { "submit", "take", "report", "done", "close", "weight", "workers", "withdraw" };
    printf("%s %" PRIu32 " %" PRIu64, names[e.kind], e.who, e.moment);
    switch (e.kind) {
    case TWODFQ_ENTRY_SUBMIT:
        printf(" %" PRIu32 " %" PRIu32 " %" PRIu32 " %" PRIu64 " %" PRIu64, e.request, e.tenant, e.request_kind, e.amount, e.label);
        break;
    case TWODFQ_ENTRY_TAKE:
    case TWODFQ_ENTRY_REPORT:
    case TWODFQ_ENTRY_DONE: printf(" %" PRIu32 " %" PRIu32 " %" PRIu64, e.worker, e.request, e.amount); break;
    case TWODFQ_ENTRY_WEIGHT: printf(" %" PRIu32 " %" PRIu64, e.tenant, e.amount); break;
    case TWODFQ_ENTRY_WORKERS: printf(" %" PRIu64, e.amount); break;
    case TWODFQ_ENTRY_WITHDRAW: printf(" %" PRIu32, e.request);
    }
    putchar('\n');
}

// Reads the new entries of the history.
static void read_on(twodfq *scheduler) {
    twodfq_line line;
    while ((line = twodfq_entry(scheduler, entries_read)).kind != TWODFQ_ENTRY_NONE) {
        if (entries_read == entries_room) entries = realloc(entries, (entries_room = 2 * entries_room + 64) * sizeof *entries);
        if (!entries) exit(1);
        entries[entries_read++] = line;
    }
    if (line.amount <= entries_read) return;
    fprintf(stderr, "script: the entries below %" PRIu64 " are gone\n", line.amount);
    exit(1);
}

static void write_journal(void) {
    int version = 1;
    for (size_t i = 0; i < entries_read && version < 3; i++) {
        if (entries[i].kind == TWODFQ_ENTRY_WITHDRAW) version = 3;
        if (entries[i].kind == TWODFQ_ENTRY_WEIGHT || entries[i].kind == TWODFQ_ENTRY_WORKERS) version = 2;
    }
    printf("journal %d\n", version);
    for (size_t i = 0; i < head_lines; i++) puts(head[i]);
    for (size_t i = 0; i < entries_read; i++) write_entry(entries[i]);
}

int main(int count, char **arguments) {
    static char line[1024];
    twodfq scheduler = TWODFQ_NONE;
    twodfq_opening opening = { .keep = count > 1 ? (uint32_t)number(arguments[1]) : 0 };
    uint32_t tenants = 0;
    bool is_open = false;
    char *words[WORDS];
    while (fgets(line, sizeof line, stdin)) {
        line[strcspn(line, "\n")] = 0;
        char *whole = strdup(line);
        split(line, words);
        bool is_head = true;
        if (!strcmp(words[0], "config")) read_config(words, &opening);
        else if (!strcmp(words[0], "tenant")) weights[tenants++] = (uint32_t)number(words[2]);
        else if (!strcmp(words[0], "kind")) opening.kinds++;
        else is_head = false;
        if (is_head) {
            head[head_lines++] = whole;
            continue;
        }
        free(whole);
        if (!strcmp(words[0], "script")) continue;
        if (!is_open) open(&scheduler, &opening, tenants);
        is_open = true;
        write_reply(call(&scheduler, words));
        read_on(&scheduler);
    }
    if (!is_open) open(&scheduler, &opening, tenants);
    twodfq_free(&scheduler);
    write_journal();
    free(entries);
    for (size_t i = 0; i < head_lines; i++) free(head[i]);
}
