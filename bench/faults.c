// Preloaded into the program by `bench/faults`: counts its allocations, its reads of standard input, its writes of standard output
// and of messages, and the threads that it starts, and has one of these calls fail, or all from it on. Reads and writes can be cut
// down to one byte each.
#define _GNU_SOURCE
#include <dlfcn.h>
#include <errno.h>
#include <pthread.h>
#include <stdatomic.h>
#include <stddef.h>
#include <stdint.h>
#include <stdlib.h>
#include <sys/mman.h>
#include <sys/syscall.h>
#include <sys/uio.h>
#include <unistd.h>

enum { ALLOCATION, READ, WRITE, MESSAGE, START, KINDS };

// Shared with `bench/faults`, which writes the calls that fail and reads the counts: all are numbers of 64 bits.
struct plan {
    int64_t kind, at, to;      // the calls from `at` to `to` of this kind fail, counted from 1
    int64_t error;             // with this error; 0: they move no byte
    int64_t one_byte;          // whether every read and write moves one byte at most
    _Atomic int64_t calls[KINDS];
    _Atomic int64_t failed;
};

static struct plan *plan;

typedef int starts(pthread_t *, const pthread_attr_t *, void *(*)(void *), void *);
static starts *start;

// Whether this thread is starting another: memory that the C library takes for that is no allocation of the program.
static _Thread_local int is_starting __attribute__((tls_model("initial-exec")));

__attribute__((constructor)) static void begin(void) {
    start = (starts *)dlsym(RTLD_NEXT, "pthread_create");
    const char *file = getenv("FAULTS_PLAN");
    if (!file) return;
    void *shared = mmap(NULL, sizeof *plan, PROT_READ | PROT_WRITE, MAP_SHARED, atoi(file), 0);
    if (shared == MAP_FAILED) abort();
    plan = shared;
}

static int fails(int kind) {
    if (!plan || is_starting) return 0;
    int64_t number = atomic_fetch_add(&plan->calls[kind], 1) + 1;
    if (plan->kind != kind || number < plan->at || number > plan->to) return 0;
    atomic_fetch_add(&plan->failed, 1);
    errno = plan->error;
    return 1;
}

extern void *__libc_malloc(size_t), *__libc_calloc(size_t, size_t);
extern void *__libc_realloc(void *, size_t), *__libc_memalign(size_t, size_t);

void *malloc(size_t size) { return fails(ALLOCATION) ? NULL : __libc_malloc(size); }

void *calloc(size_t count, size_t size) { return fails(ALLOCATION) ? NULL : __libc_calloc(count, size); }

void *realloc(void *old, size_t size) { return fails(ALLOCATION) ? NULL : __libc_realloc(old, size); }

void *memalign(size_t align, size_t size) { return fails(ALLOCATION) ? NULL : __libc_memalign(align, size); }

void *aligned_alloc(size_t align, size_t size) { return memalign(align, size); }

int posix_memalign(void **made, size_t align, size_t size) {
    void *given = memalign(align, size);
    if (given) *made = given;
    return given ? 0 : ENOMEM;
}

int pthread_create(pthread_t *made, const pthread_attr_t *how, void *(*body)(void *), void *given) {
    if (fails(START)) return errno;
    is_starting = 1;
    int answer = start(made, how, body, given);
    is_starting = 0;
    return answer;
}

// The result of a failed read or write.
static ssize_t failure(void) { return plan->error ? -1 : 0; }

static size_t cut(size_t count) { return plan && plan->one_byte && count > 1 ? 1 : count; }

ssize_t read(int file, void *to, size_t count) {
    if (file == STDIN_FILENO && fails(READ)) return failure();
    return syscall(SYS_read, file, to, file == STDIN_FILENO ? cut(count) : count);
}

ssize_t write(int file, const void *from, size_t count) {
    if (file == STDOUT_FILENO && fails(WRITE)) return failure();
    if (file == STDERR_FILENO && fails(MESSAGE)) return failure();
    return syscall(SYS_write, file, from, file == STDOUT_FILENO || file == STDERR_FILENO ? cut(count) : count);
}

// The names by which the C library's own code calls them.
ssize_t __read(int, void *, size_t) __attribute__((alias("read")));
ssize_t __write(int, const void *, size_t) __attribute__((alias("write")));

// The first piece that is not empty is moved in place of all: a call may move less than it was asked to.
static struct iovec first(const struct iovec *pieces, int count) {
    int at = 0;
    while (at + 1 < count && !pieces[at].iov_len) at++;
    return count > 0 ? pieces[at] : (struct iovec){0};
}

ssize_t readv(int file, const struct iovec *pieces, int count) {
    struct iovec piece = first(pieces, count);
    return read(file, piece.iov_base, piece.iov_len);
}

ssize_t writev(int file, const struct iovec *pieces, int count) {
    struct iovec piece = first(pieces, count);
    return write(file, piece.iov_base, piece.iov_len);
}
