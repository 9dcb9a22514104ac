/* What bench/c_library.py runs: c_library MODE RECORDS ROUTES ANSWER, MODE being index, router or rtrlib. RECORDS and ROUTES are files of
 * rpkirtr_record and rpkirtr_route, ANSWER the bytes of a cache's answer. It prints seconds, bytes held and the states that were counted. */
#include "rpkirtr.h"

#include <arpa/inet.h>
#include <malloc.h>
#include <rtrlib/rtrlib.h>
#include <stdio.h>
#include <stdlib.h>
#include <string.h>
#include <time.h>

struct input {
    rpkirtr_record *records;
    rpkirtr_route *routes;
    uint8_t *answer;
    size_t record_count, route_count, answer_len;
};

/* What was measured: seconds to fill and of the longest call, bytes held, seconds to judge, and how many states of each kind. */
struct found {
    double fill, longest, judge;
    size_t held;
    unsigned long states[3];
};

static double seconds(void)
{
    struct timespec t;
    clock_gettime(CLOCK_PROCESS_CPUTIME_ID, &t);
    return (double)t.tv_sec + (double)t.tv_nsec / 1e9;
}

static size_t held(void)
{
    struct mallinfo2 info = mallinfo2();
    return info.uordblks + info.hblkhd;
}

static void *slurp(const char *path, size_t *len)
{
    FILE *file = fopen(path, "rb");
    void *bytes;
    if (file == NULL || fseek(file, 0, SEEK_END) != 0)
        exit(3);
    *len = (size_t)ftell(file);
    rewind(file);
    bytes = malloc(*len + 1);
    if (bytes == NULL || fread(bytes, 1, *len, file) != *len)
        exit(3);
    fclose(file);
    return bytes;
}

static void over_index(const struct input *in, struct found *found)
{
    rpkirtr_index h = RPKIRTR_EMPTY_INIT;
    size_t before = held(), bad;
    double began = seconds();
    if (rpkirtr_index_new(&h, in->records, in->record_count, &bad) != RPKIRTR_OK)
        exit(4);
    found->fill = found->longest = seconds() - began;
    found->held = held() - before;
    began = seconds();
    for (size_t i = 0; i < in->route_count; i++) {
        rpkirtr_state state;
        rpkirtr_index_state(&h, &in->routes[i], &state);
        found->states[state]++;
    }
    found->judge = seconds() - began;
    rpkirtr_index_free(&h);
}

static void over_router(const struct input *in, struct found *found)
{
    rpkirtr_router h = RPKIRTR_EMPTY_INIT;
    uint8_t room[64];
    size_t before = held(), at = 0, taken = 1;
    double began = seconds();
    if (rpkirtr_router_new(&h) != RPKIRTR_OK)
        exit(4);
    rpkirtr_router_connect(&h, 0);
    rpkirtr_router_pull(&h, room, sizeof room, &taken);
    while (at < in->answer_len && taken > 0) {
        size_t piece = in->answer_len - at < 65536 ? in->answer_len - at : 65536;
        double call = seconds();
        rpkirtr_router_receive(&h, in->answer + at, piece, 0, &taken);
        call = seconds() - call;
        found->longest = call > found->longest ? call : found->longest;
        at += taken;
    }
    found->fill = seconds() - began;
    found->held = held() - before;
    began = seconds();
    for (size_t i = 0; i < in->route_count; i++) {
        rpkirtr_state state;
        rpkirtr_router_state(&h, &in->routes[i], &state);
        found->states[state]++;
    }
    found->judge = seconds() - began;
    rpkirtr_router_free(&h);
}

static struct lrtr_ip_addr address(const uint8_t *octets, int family)
{
    struct lrtr_ip_addr ip;
    memset(&ip, 0, sizeof ip);
    ip.ver = family == 4 ? LRTR_IPV4 : LRTR_IPV6;
    for (int i = 0; i < (family == 4 ? 1 : 4); i++) {
        uint32_t word;
        memcpy(&word, octets + 4 * i, 4);
        if (family == 4)
            ip.u.addr4.addr = ntohl(word);
        else
            ip.u.addr6.addr[i] = ntohl(word);
    }
    return ip;
}

static void over_rtrlib(const struct input *in, struct found *found)
{
    struct lrtr_ip_addr *ips = malloc(in->route_count * sizeof *ips);
    struct rtr_socket socket;
    struct pfx_table table;
    size_t before = held();
    double began = seconds();
    if (ips == NULL)
        exit(4);
    memset(&socket, 0, sizeof socket);
    pfx_table_init(&table, NULL);
    for (size_t i = 0; i < in->record_count; i++) {
        const rpkirtr_record *record = &in->records[i];
        struct pfx_record it;
        memset(&it, 0, sizeof it);
        it.prefix = address(record->addr, record->family);
        it.min_len = record->len;
        it.max_len = record->max_len;
        it.asn = record->asn;
        it.socket = &socket;
        if (pfx_table_add(&table, &it) != PFX_SUCCESS)
            exit(4);
    }
    found->fill = seconds() - began;
    found->held = held() - before;
    for (size_t i = 0; i < in->route_count; i++)
        ips[i] = address(in->routes[i].addr, in->routes[i].family);
    began = seconds();
    for (size_t i = 0; i < in->route_count; i++) {
        enum pfxv_state state;
        pfx_table_validate(&table, in->routes[i].origin, &ips[i], in->routes[i].len, &state);
        found->states[state == BGP_PFXV_STATE_VALID ? 1 : state == BGP_PFXV_STATE_INVALID ? 2 : 0]++;
    }
    found->judge = seconds() - began;
}

int main(int argc, char **argv)
{
    struct input in;
    struct found found;
    size_t records, routes;
    memset(&found, 0, sizeof found);
    if (argc != 5)
        return 2;
    in.records = slurp(argv[2], &records);
    in.routes = slurp(argv[3], &routes);
    in.answer = slurp(argv[4], &in.answer_len);
    in.record_count = records / sizeof *in.records;
    in.route_count = routes / sizeof *in.routes;
    if (strcmp(argv[1], "index") == 0)
        over_index(&in, &found);
    else if (strcmp(argv[1], "router") == 0)
        over_router(&in, &found);
    else
        over_rtrlib(&in, &found);
    printf("%.6f %.6f %.6f %zu %lu %lu %lu\n", found.fill, found.longest, found.judge, found.held, found.states[0], found.states[1], found.states[2]);
    return 0;
}
