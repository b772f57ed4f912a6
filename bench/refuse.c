/* Refuses allocations of the program into which it is loaded (LD_PRELOAD): with REFUSE=N the N-th one, counted from 0, and
 * with REFUSE=N- each one from the N-th on. Where one is refused it says so by a byte on file descriptor 9. */
#define _GNU_SOURCE
#include <dlfcn.h>
#include <errno.h>
#include <stdatomic.h>
#include <stddef.h>
#include <stdlib.h>
#include <string.h>
#include <unistd.h>

static atomic_long made;
static long refused = -1;
static int all_behind;

static void *(*real_malloc)(size_t);
static void *(*real_calloc)(size_t, size_t);
static void *(*real_realloc)(void *, size_t);
static void *(*real_aligned_alloc)(size_t, size_t);
static int (*real_posix_memalign)(void **, size_t, size_t);

/* What dlsym itself takes, before the real calloc is known. */
static char early[4096];
static size_t early_used;

__attribute__((constructor)) static void begin(void) {
    real_calloc = dlsym(RTLD_NEXT, "calloc");
    real_malloc = dlsym(RTLD_NEXT, "malloc");
    real_realloc = dlsym(RTLD_NEXT, "realloc");
    real_aligned_alloc = dlsym(RTLD_NEXT, "aligned_alloc");
    real_posix_memalign = dlsym(RTLD_NEXT, "posix_memalign");
    const char *at = getenv("REFUSE");
    all_behind = at && at[0] && at[strlen(at) - 1] == '-';
    refused = at ? atol(at) : -1;
    atomic_store(&made, 0);
}

static int is_refused(void) {
    long n = atomic_fetch_add(&made, 1);
    if (refused < 0 || n < refused || (n > refused && !all_behind)) return 0;
    if (write(9, "r", 1) < 0) { /* nobody listens */ }
    errno = ENOMEM;
    return 1;
}

void *malloc(size_t size) {
    if (!real_malloc) begin();
    return is_refused() ? NULL : real_malloc(size);
}

void *calloc(size_t count, size_t size) {
    if (!real_calloc) {
        void *place = early + early_used;
        early_used += (count * size + 15) & ~(size_t)15;
        return early_used <= sizeof early ? place : NULL;
    }
    return is_refused() ? NULL : real_calloc(count, size);
}

void *realloc(void *old, size_t size) {
    if (!real_realloc) begin();
    return is_refused() ? NULL : real_realloc(old, size);
}

void *aligned_alloc(size_t alignment, size_t size) {
    if (!real_aligned_alloc) begin();
    return is_refused() ? NULL : real_aligned_alloc(alignment, size);
}

int posix_memalign(void **place, size_t alignment, size_t size) {
    if (!real_posix_memalign) begin();
    return is_refused() ? ENOMEM : real_posix_memalign(place, alignment, size);
}
