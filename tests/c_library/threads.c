/* Look-ups by several threads: each on a handle of its own that rpkirtr_index_share made, and all of them on one handle. No look-up fails, answers
 * otherwise than alone, or empties a handle. */
#include "rpkirtr.h"

#include <pthread.h>
#include <stdio.h>
#include <stdlib.h>
#include <string.h>

#define THREADS 4
#define RECORDS 100

/* Cache Response; 10.0.0.0/8-16 of AS 64496; End of Data of serial 7 in session 258, version 1 */
static const uint8_t answer[] = {
    1, 3, 1, 2, 0, 0, 0, 8,
    1, 4, 0, 0, 0, 0, 0, 20, 1, 8, 16, 0, 10, 0, 0, 0, 0, 0, 251, 240,
    1, 7, 1, 2, 0, 0, 0, 24, 0, 0, 0, 7, 0, 0, 14, 16, 0, 0, 2, 88, 0, 0, 28, 32,
};
/* AS 64496, 192.0.2.0/24 */
static const uint8_t roa_bytes[] = {
    0x30, 0x17, 0x02, 0x03, 0x00, 0xfb, 0xf0, 0x30, 0x10, 0x30, 0x0e, 0x04, 0x02, 0x00, 0x01,
    0x30, 0x08, 0x30, 0x06, 0x03, 0x04, 0x00, 0xc0, 0x00, 0x02,
};

static rpkirtr_index one = RPKIRTR_EMPTY_INIT;
static rpkirtr_router router = RPKIRTR_EMPTY_INIT;
static rpkirtr_roa roa = RPKIRTR_EMPTY_INIT;
static int rounds;

struct job {
    rpkirtr_index own;
    const rpkirtr_index *index;
    long faults;
};

static rpkirtr_route route(uint8_t second)
{
    rpkirtr_route r;
    memset(&r, 0, sizeof r);
    r.addr[0] = 10;
    r.addr[1] = second;
    r.origin = 1;
    r.family = 4;
    r.len = 16;
    r.has_origin = 1;
    return r;
}

/* 10.K.0.0/16 of AS 1 is valid if the index has a record of it. */
static long look_up(const rpkirtr_index *index)
{
    long faults = 0;
    int k;
    for (k = 0; k < 2 * RECORDS; k++) {
        rpkirtr_route r = route((uint8_t)k);
        rpkirtr_record room[2];
        rpkirtr_state state;
        size_t count, n;
        faults += rpkirtr_index_state(index, &r, &state) != RPKIRTR_OK || state != (k < RECORDS ? RPKIRTR_VALID : RPKIRTR_NOT_FOUND);
        faults += rpkirtr_index_count(index, &count) != RPKIRTR_OK || count != RECORDS;
        faults += rpkirtr_index_covering(index, &r, room, 2, &n) != RPKIRTR_OK || n != (size_t)(k < RECORDS);
    }
    return faults;
}

/* The other look-ups that may run at once */
static long look_around(void)
{
    rpkirtr_link link;
    rpkirtr_committed committed;
    rpkirtr_traffic traffic = RPKIRTR_TRAFFIC_INIT;
    rpkirtr_config config = RPKIRTR_CONFIG_INIT;
    rpkirtr_record room[2];
    rpkirtr_state state;
    rpkirtr_route r = route(1);
    uint64_t at;
    uint32_t asn;
    size_t n;
    long faults = 0;
    r.origin = 64496;
    faults += rpkirtr_router_state(&router, &r, &state) != RPKIRTR_OK || state != RPKIRTR_VALID;
    faults += rpkirtr_router_count(&router, &n) != RPKIRTR_OK || n != 1;
    faults += rpkirtr_router_record(&router, 0, room) != RPKIRTR_OK || room[0].asn != 64496;
    faults += rpkirtr_router_records(&router, 0, room, 2, &n) != RPKIRTR_OK || n != 1;
    faults += rpkirtr_router_covering(&router, &r, room, 2, &n) != RPKIRTR_OK || n != 1;
    faults += rpkirtr_router_withdrawn(&router, 0, room, 2, &n) != RPKIRTR_OK || n != 0;
    faults += rpkirtr_router_announced(&router, 0, room, 2, &n) != RPKIRTR_OK || n != 1;
    faults += rpkirtr_router_link(&router, &link) != RPKIRTR_OK || link.state != RPKIRTR_IDLE;
    faults += rpkirtr_router_committed(&router, &committed) != RPKIRTR_OK || committed.serial != 7;
    faults += rpkirtr_router_traffic(&router, &traffic) != RPKIRTR_OK || traffic.received.bytes != sizeof answer;
    faults += rpkirtr_router_config(&router, &config) != RPKIRTR_OK || config.refresh != 3600;
    faults += rpkirtr_router_next_query_at(&router, &at) != RPKIRTR_OK || at != 3605;
    faults += rpkirtr_router_wake_at(&router, &at) != RPKIRTR_OK || at != 3605;
    faults += rpkirtr_router_connect_failed(&router, 10, &at) != RPKIRTR_OK || at != 610;
    faults += rpkirtr_roa_asn(&roa, &asn) != RPKIRTR_OK || asn != 64496;
    faults += rpkirtr_roa_count(&roa, &n) != RPKIRTR_OK || n != 1;
    faults += rpkirtr_roa_records(&roa, 0, room, 2, &n) != RPKIRTR_OK || n != 1;
    return faults;
}

static void *work(void *given)
{
    struct job *job = given;
    int k;
    for (k = 0; k < rounds; k++) {
        rpkirtr_index made = RPKIRTR_EMPTY_INIT, further = RPKIRTR_EMPTY_INIT;
        job->faults += look_up(job->index) + look_around();
        job->faults += rpkirtr_router_index(&router, &made) != RPKIRTR_OK || rpkirtr_index_free(&made) != RPKIRTR_OK;
        job->faults += rpkirtr_index_share(job->index, &further) != RPKIRTR_OK || look_up(&further) || rpkirtr_index_free(&further) != RPKIRTR_OK;
    }
    if (job->index == &job->own)
        job->faults += rpkirtr_index_free(&job->own) != RPKIRTR_OK;
    return NULL;
}

/* All threads look up at once: on handles of their own, or all on one. */
static long all_at_once(int has_own)
{
    struct job jobs[THREADS];
    pthread_t threads[THREADS];
    long faults = 0;
    int k;
    for (k = 0; k < THREADS; k++) {
        memset(&jobs[k], 0, sizeof jobs[k]);
        jobs[k].index = &one;
        if (has_own) {
            faults += rpkirtr_index_share(&one, &jobs[k].own) != RPKIRTR_OK;
            jobs[k].index = &jobs[k].own;
        }
    }
    for (k = 0; k < THREADS; k++)
        if (pthread_create(&threads[k], NULL, work, &jobs[k]) != 0)
            return 1;
    for (k = 0; k < THREADS; k++) {
        pthread_join(threads[k], NULL);
        faults += jobs[k].faults;
    }
    return faults;
}

int main(int argc, char **argv)
{
    rpkirtr_record records[RECORDS];
    uint8_t room[8];
    size_t bad, n, withdraws, announces;
    rpkirtr_fault fault;
    long faults = 0, own, together;
    int k;
    rounds = argc > 1 ? atoi(argv[1]) : 100;
    memset(records, 0, sizeof records);
    for (k = 0; k < RECORDS; k++) {
        records[k].addr[0] = 10;
        records[k].addr[1] = (uint8_t)k;
        records[k].asn = 1;
        records[k].family = 4;
        records[k].len = records[k].max_len = 16;
    }
    faults += rpkirtr_index_new(&one, records, RECORDS, &bad) != RPKIRTR_OK;
    faults += rpkirtr_router_new(&router) != RPKIRTR_OK || rpkirtr_router_connect(&router, 5) != RPKIRTR_OK;
    faults += rpkirtr_router_pull(&router, room, sizeof room, &n) != RPKIRTR_OK;
    faults += rpkirtr_router_receive(&router, answer, sizeof answer, 5, &n) != RPKIRTR_OK || n != sizeof answer;
    faults += rpkirtr_router_changes_begin(&router, &withdraws, &announces) != RPKIRTR_OK || announces != 1;
    faults += rpkirtr_roa_new(&roa, roa_bytes, sizeof roa_bytes, &fault) != RPKIRTR_OK;
    own = all_at_once(1);
    together = all_at_once(0);
    faults += look_up(&one) + look_around();
    faults += rpkirtr_index_free(&one) != RPKIRTR_OK || rpkirtr_router_free(&router) != RPKIRTR_OK || rpkirtr_roa_free(&roa) != RPKIRTR_OK;
    if (faults || own || together)
        fprintf(stderr, "threads.c: %ld faults on handles of their own, %ld on one handle, %ld besides\n", own, together, faults);
    return faults || own || together;
}
