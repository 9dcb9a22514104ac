/* Stands before the C library's clock: the steady clock runs HURRY times as fast from the first call, so that a test need not wait ten
   minutes until data expire. */
#define _GNU_SOURCE
#include <dlfcn.h>
#include <stdlib.h>
#include <time.h>

static const long long SECOND = 1000000000;

static int (*real)(clockid_t, struct timespec *);
static long long began, factor;

int clock_gettime(clockid_t id, struct timespec *at) {
    if (!real) {
        const char *word = getenv("HURRY");
        real = (int (*)(clockid_t, struct timespec *))dlsym(RTLD_NEXT, "clock_gettime");
        factor = word ? atoll(word) : 1;
    }
    int status = real(id, at);
    if (status || id != CLOCK_MONOTONIC)
        return status;
    long long now = at->tv_sec * SECOND + at->tv_nsec;
    if (!began)
        began = now;
    now = began + (now - began) * factor;
    at->tv_sec = now / SECOND;
    at->tv_nsec = now % SECOND;
    return 0;
}
