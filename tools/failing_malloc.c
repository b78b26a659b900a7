// A library to be preloaded: the allocation of the number FAIL_AT fails; with COUNT set, how many there were is written at the end.
#define _GNU_SOURCE
#include <dlfcn.h>
#include <stdio.h>
#include <stdlib.h>
#include <unistd.h>

static long count, fail_at = -1;
static int ready;
static void *(*real_malloc)(size_t), *(*real_realloc)(void *, size_t);

__attribute__((constructor)) static void start(void) {
    real_malloc = dlsym(RTLD_NEXT, "malloc");
    real_realloc = dlsym(RTLD_NEXT, "realloc");
    if (getenv("FAIL_AT")) fail_at = atol(getenv("FAIL_AT"));
    ready = 1;
}

static int fails(void) {
    return ready && ++count == fail_at;
}

void *malloc(size_t size) {
    if (!real_malloc) real_malloc = dlsym(RTLD_NEXT, "malloc");
    return fails() ? 0 : real_malloc(size);
}

void *realloc(void *old, size_t size) {
    return fails() ? 0 : real_realloc(old, size);
}

__attribute__((destructor)) static void end(void) {
    char line[64];
    if (getenv("COUNT") && write(2, line, snprintf(line, sizeof line, "%ld\n", count)) < 0) _exit(70);
}
