/* Stands before the C library's call for the next connection: the first calls fail with the numbers that FAIL names, one after the other. */
#define _GNU_SOURCE
#include <dlfcn.h>
#include <errno.h>
#include <stdlib.h>
#include <sys/socket.h>

int accept4(int fd, struct sockaddr *restrict peer, socklen_t *restrict size, int flags) {
    static const char *left;
    static int (*next)(int, struct sockaddr *restrict, socklen_t *restrict, int);
    if (!next) {
        next = (int (*)(int, struct sockaddr *restrict, socklen_t *restrict, int))dlsym(RTLD_NEXT, "accept4");
        left = getenv("FAIL");
    }
    char *end = NULL;
    long number = left ? strtol(left, &end, 10) : 0;
    if (number == 0)
        return next(fd, peer, size, flags);
    left = end;
    errno = (int)number;
    return -1;
}
