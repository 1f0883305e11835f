// The version, and the texts: each status and each kind that the header names has a text of its own, and numbers
// without a name have another. c/build writes the header's names into names.h.
#include <stdio.h>
#include <stdlib.h>
#include <string.h>

#include "twodfq.h"

typedef struct {
    const char *name;
    uint32_t number;
} named;

#define NAME(name) { #name, name },
static const named statuses[] = {
#define STATUS NAME
#define KIND(name)
#include "names.h"
#undef STATUS
#undef KIND
};
static const named kinds[] = {
#define STATUS(name)
#define KIND NAME
#include "names.h"
};

static void want(const char *what, const char *name, bool is_so) {
    if (is_so) return;
    fprintf(stderr, "messages: not so: %s: %s\n", what, name);
    exit(1);
}

static bool is_named(const named *of, size_t count, uint32_t number) {
    for (size_t i = 0; i < count; i++)
        if (of[i].number == number) return true;
    return false;
}

static void check(const named *of, size_t count, const char *(*message)(uint32_t)) {
    const char *unnamed = message(UINT32_MAX);
    for (size_t i = 0; i < count; i++) {
        const char *text = message(of[i].number);
        want("a text of its own", of[i].name, strcmp(text, unnamed) != 0);
        for (size_t j = 0; j < i; j++) want("a text of its own", of[i].name, strcmp(text, message(of[j].number)) != 0);
    }
    for (uint32_t number = 0; number < 1000; number++)
        if (!is_named(of, count, number)) want("no text where there is no name", "a number", message(number) == unnamed);
}

int main(void) {
    char version[32];
    snprintf(version, sizeof version, "%d.%d", TWODFQ_VERSION_MAJOR, TWODFQ_VERSION_MINOR);
    want("the version in numbers", TWODFQ_VERSION, strcmp(version, TWODFQ_VERSION) == 0);
    want("the version of the library", twodfq_version(), strcmp(twodfq_version(), TWODFQ_VERSION) == 0);
    size_t status_count = sizeof statuses / sizeof *statuses, kind_count = sizeof kinds / sizeof *kinds;
    check(statuses, status_count, twodfq_open_message);
    check(kinds, kind_count, twodfq_reply_message);
    printf("messages: a text for each of %zu statuses and %zu kinds of replies\n", status_count, kind_count);
}
