// The functions by which the archive takes and gives back memory, over malloc, realloc and free. A program may define
// the three itself, over one allocator whose blocks are aligned to 16 where their size is a multiple of it.
#include <stdbool.h>
#include <stddef.h>
#include <stdlib.h>

// Whether there was memory, and a pointer that is not null in either case.
typedef struct {
    bool ok;
    void *at;
} tried;

static char nothing;

static tried told(void *at) { return at ? (tried){ true, at } : (tried){ false, &nothing }; }

tried rattle_alloc(size_t size, size_t align) { return told(malloc(size ? size : align)); }

tried rattle_realloc(void *at, size_t kept, size_t size, size_t align) {
    (void)kept;
    return told(realloc(at, size ? size : align));
}

void rattle_dealloc(void *at) { free(at); }
