/* A library that is loaded before libc: fdatasync and fsync take SLOW_SYNC_MS milliseconds longer. bench/floods.c has servers load it.
 *
 *     cc -shared -fPIC -O2 -o /tmp/slow_sync.so bench/slow_sync.c -ldl */
#define _GNU_SOURCE
#include <dlfcn.h>
#include <stdlib.h>
#include <time.h>

static int after_a_while(const char *name, int file) {
    const char *text = getenv("SLOW_SYNC_MS");
    long ms = text ? atol(text) : 0;
    struct timespec wait = {.tv_sec = ms / 1000, .tv_nsec = ms % 1000 * 1000000};
    int (*call)(int) = (int (*)(int))dlsym(RTLD_NEXT, name);
    nanosleep(&wait, NULL);
    return call(file);
}

int fdatasync(int file) {
    return after_a_while("fdatasync", file);
}

int fsync(int file) {
    return after_a_while("fsync", file);
}
