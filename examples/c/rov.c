/* rov ADDR PORT: fetches the records of a cache, follows it, and judges the routes of standard input, each a line `PREFIX/LENGTH ORIGIN`,
 * by the records that are committed then. ORIGIN is the number of an AS, or `none`. */
#define _POSIX_C_SOURCE 200809L
#include "rpkirtr.h"

#include <arpa/inet.h>
#include <ctype.h>
#include <errno.h>
#include <netdb.h>
#include <poll.h>
#include <stdio.h>
#include <stdlib.h>
#include <string.h>
#include <sys/socket.h>
#include <time.h>
#include <unistd.h>

static uint64_t now(void)
{
    struct timespec t;
    clock_gettime(CLOCK_MONOTONIC, &t);
    return (uint64_t)t.tv_sec;
}

/* A connection to the first address that answers; -1 if none does. */
static int dial(const char *host, const char *port)
{
    struct addrinfo hints, *found, *a;
    int fd = -1, error;
    memset(&hints, 0, sizeof hints);
    hints.ai_socktype = SOCK_STREAM;
    error = getaddrinfo(host, port, &hints, &found);
    if (error != 0) {
        fprintf(stderr, "rov: %s port %s has no address: %s\n", host, port, gai_strerror(error));
        return -1;
    }
    for (a = found; a != NULL && fd < 0; a = a->ai_next) {
        fd = socket(a->ai_family, a->ai_socktype, a->ai_protocol);
        if (fd < 0 || connect(fd, a->ai_addr, a->ai_addrlen) != 0) {
            error = errno;
            if (fd >= 0)
                close(fd);
            fd = -1;
        }
    }
    freeaddrinfo(found);
    if (fd < 0)
        fprintf(stderr, "rov: no connection to %s port %s: %s\n", host, port, strerror(error));
    return fd;
}

/* Says why the connection has ended; 0. */
static int ended(const char *why)
{
    fprintf(stderr, "rov: %s\n", why);
    return 0;
}

/* Sends what is to be sent; 0 if the connection failed. */
static int send_all(rpkirtr_router *h, int fd)
{
    uint8_t room[512];
    size_t pulled;
    while (rpkirtr_router_pull(h, room, sizeof room, &pulled) == RPKIRTR_OK && pulled > 0) {
        size_t sent = 0;
        while (sent < pulled) {
            ssize_t n = send(fd, room + sent, pulled - sent, MSG_NOSIGNAL);
            if (n < 0)
                return ended(strerror(errno));
            sent += (size_t)n;
        }
    }
    return 1;
}

/* 1 unless the link has ended. */
static int is_linked(rpkirtr_router *h)
{
    static const char *const ends[] = {"", "an Error Report was sent", "an Error Report was received",
        "a malformed Error Report was received", "out of memory", "the records expired", "the cache has too many records"};
    rpkirtr_link link;
    rpkirtr_router_link(h, &link);
    if (link.state == RPKIRTR_ENDED)
        fprintf(stderr, "rov: the link ended: %s (code %d)\n", ends[link.end], link.code);
    return link.state != RPKIRTR_ENDED;
}

/* Reads once and hands over what came; 0 if the connection ended. No more is taken before what is to be sent is pulled. */
static int read_some(rpkirtr_router *h, int fd)
{
    uint8_t bytes[65536];
    ssize_t n = recv(fd, bytes, sizeof bytes, 0);
    size_t at = 0, taken;
    if (n <= 0)
        return ended(n == 0 ? "the cache closed the connection" : strerror(errno));
    while (at < (size_t)n) {
        rpkirtr_router_receive(h, bytes + at, (size_t)n - at, now(), &taken);
        at += taken;
        if (!send_all(h, fd) || !is_linked(h))
            return 0;
    }
    return 1;
}

/* Reads a number, and moves past it; 0 if there is none, or one that is too large. */
static int read_number(char **at, unsigned long most, unsigned long *number)
{
    if (!isdigit((unsigned char)**at))
        return 0;
    errno = 0;
    *number = strtoul(*at, at, 10);
    return errno == 0 && *number <= most;
}

/* A route of a line `PREFIX/LENGTH ORIGIN`; 0 if it is none. */
static int read_route(char *line, rpkirtr_route *route)
{
    char *at = strchr(line, '/');
    unsigned long len, origin = 0;
    memset(route, 0, sizeof *route);
    if (at == NULL)
        return 0;
    *at++ = 0;
    if (inet_pton(AF_INET, line, route->addr) == 1)
        route->family = 4;
    else if (inet_pton(AF_INET6, line, route->addr) == 1)
        route->family = 6;
    else
        return 0;
    if (!read_number(&at, 128, &len) || *at++ != ' ')
        return 0;
    route->has_origin = strncmp(at, "none", 4) != 0;
    if (route->has_origin && !read_number(&at, 0xffffffffUL, &origin))
        return 0;
    if (!route->has_origin)
        at += 4;
    route->len = (uint8_t)len;
    route->origin = (uint32_t)origin;
    return *at == '\n' || *at == 0;
}

static void judge(rpkirtr_router *h, char *line)
{
    static const char *const words[] = {"not-found", "valid", "invalid"};
    rpkirtr_route route;
    rpkirtr_state state;
    if (!read_route(line, &route) || rpkirtr_router_state(h, &route, &state) != RPKIRTR_OK)
        puts("bad route");
    else
        puts(words[state]);
    fflush(stdout);
}

/* How many milliseconds the router has nothing to do, if no bytes come: a minute at most. */
static int pause_of(rpkirtr_router *h)
{
    uint64_t at, moment = now();
    rpkirtr_router_wake_at(h, &at);
    if (at <= moment)
        return 0;
    return at - moment < 60 ? (int)(at - moment) * 1000 : 60000;
}

/* Follows the cache, and judges routes once records are committed, until standard input ends; 0 if the connection ended before. */
static int follow(rpkirtr_router *h, int fd)
{
    char line[256];
    for (;;) {
        rpkirtr_committed committed;
        struct pollfd fds[2];
        rpkirtr_router_committed(h, &committed);
        fds[0].fd = fd;
        fds[1].fd = committed.is_committed ? STDIN_FILENO : -1;
        fds[0].events = fds[1].events = POLLIN;
        fds[0].revents = fds[1].revents = 0;
        if (poll(fds, 2, pause_of(h)) < 0 && errno != EINTR)
            return ended(strerror(errno));
        rpkirtr_router_tick(h, now());
        if (!send_all(h, fd) || !is_linked(h) || (fds[0].revents != 0 && !read_some(h, fd)))
            return 0;
        if (fds[1].revents != 0) {
            if (fgets(line, sizeof line, stdin) == NULL)
                return 1;
            judge(h, line);
        }
    }
}

int main(int argc, char **argv)
{
    rpkirtr_router h = RPKIRTR_EMPTY_INIT;
    int fd, done;
    if (argc != 3) {
        fprintf(stderr, "usage: rov ADDR PORT\n");
        return 2;
    }
    /* (poll does not see a line that stdio has read already) */
    setvbuf(stdin, NULL, _IONBF, 0);
    fd = dial(argv[1], argv[2]);
    if (fd < 0)
        return 1;
    if (rpkirtr_router_new(&h) != RPKIRTR_OK) {
        fprintf(stderr, "rov: out of memory\n");
        return 4;
    }
    rpkirtr_router_connect(&h, now());
    done = send_all(&h, fd) && follow(&h, fd);
    close(fd);
    rpkirtr_router_free(&h);
    return done ? 0 : 1;
}
