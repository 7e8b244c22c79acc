// Loaded before the C library, refuses memory: the call of malloc or realloc with the number REFUSE_AT (from 1), and,
// if REFUSE_REST is set, all that come after it. How many calls there were is written to the file REFUSE_COUNT.
#define _GNU_SOURCE
#include <dlfcn.h>
#include <fcntl.h>
#include <stdatomic.h>
#include <stdio.h>
#include <stdlib.h>
#include <unistd.h>

static atomic_long calls;
static long at;
static int rest;
static void *(*real_malloc)(size_t);
static void *(*real_realloc)(void *, size_t);

__attribute__((constructor)) static void begin(void) {
    real_malloc = dlsym(RTLD_NEXT, "malloc");
    real_realloc = dlsym(RTLD_NEXT, "realloc");
    const char *number = getenv("REFUSE_AT");
    at = number ? atol(number) : 0;
    rest = getenv("REFUSE_REST") != NULL;
    atomic_store(&calls, 0);
}

static int is_refused(void) {
    long number = atomic_fetch_add(&calls, 1) + 1;
    return at > 0 && (number == at || (rest && number > at));
}

void *malloc(size_t size) {
    if (!real_malloc) real_malloc = dlsym(RTLD_NEXT, "malloc");
    return is_refused() ? NULL : real_malloc(size);
}

void *realloc(void *old, size_t size) {
    if (!real_realloc) real_realloc = dlsym(RTLD_NEXT, "realloc");
    return is_refused() ? NULL : real_realloc(old, size);
}

// The program ends by _exit, which runs no destructor.
void _exit(int status) {
    const char *path = getenv("REFUSE_COUNT");
    if (path) {
        char text[32];
        int length = snprintf(text, sizeof text, "%ld\n", atomic_load(&calls));
        int file = open(path, O_WRONLY | O_CREAT | O_TRUNC, 0600);
        if (file >= 0) {
            if (write(file, text, length) < 0) { /* the reader sees an empty file */ }
            close(file);
        }
    }
    void (*real_exit)(int) = dlsym(RTLD_NEXT, "_exit");
    real_exit(status);
    __builtin_unreachable();
}
