/* Interrupts each second call of read and write, from the first on, of the program into which it is loaded (LD_PRELOAD), as a
 * signal with a handler does: the call takes and gives nothing, and says so by EINTR. */
#define _GNU_SOURCE
#include <dlfcn.h>
#include <errno.h>
#include <unistd.h>

static int reads, writes;

static int is_interrupted(int *calls) {
    if ((*calls)++ % 2) return 0;
    errno = EINTR;
    return 1;
}

ssize_t read(int file, void *place, size_t size) {
    ssize_t (*real)(int, void *, size_t) = dlsym(RTLD_NEXT, "read");
    return is_interrupted(&reads) ? -1 : real(file, place, size);
}

ssize_t write(int file, const void *place, size_t size) {
    ssize_t (*real)(int, const void *, size_t) = dlsym(RTLD_NEXT, "write");
    return is_interrupted(&writes) ? -1 : real(file, place, size);
}
