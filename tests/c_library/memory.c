/* Each request for memory of the calls of a cache and an index is refused in turn. The call says so and changes nothing, so that the same call succeeds after it.
 * Linked with --wrap=malloc and --wrap=realloc. */
#include "rpkirtr.h"

#include <stdio.h>
#include <stdlib.h>
#include <string.h>

void *__real_malloc(size_t size);
void *__real_realloc(void *at, size_t size);

/* How many requests are granted before the one that is refused: none is refused if it is negative */
static long granted = -1;
static int is_refused;

static int refuses(void)
{
    if (granted == 0)
        is_refused = 1;
    return granted-- == 0;
}

void *__wrap_malloc(size_t size)
{
    return refuses() ? NULL : __real_malloc(size);
}

void *__wrap_realloc(void *at, size_t size)
{
    return refuses() ? NULL : __real_realloc(at, size);
}

static int without_memory, faults;

static void expect(int holds, const char *what, int line)
{
    if (!holds) {
        fprintf(stderr, "memory.c:%d: %s\n", line, what);
        faults++;
    }
}
#define EXPECT(condition) expect((condition), #condition, __LINE__)

static int is_without_memory(rpkirtr_status status)
{
    without_memory += status == RPKIRTR_NO_MEMORY;
    return status == RPKIRTR_NO_MEMORY;
}
/* A call, made again if there was no memory */
#define CALL(call) EXPECT((is_without_memory(status = (call)) ? (call) : status) == RPKIRTR_OK)

static void a_run(void)
{
    static const uint8_t reset_query[] = {1, 2, 0, 0, 0, 0, 0, 8}, serial_query[] = {1, 1, 1, 2, 0, 0, 0, 12, 0, 0, 0, 7};
    rpkirtr_cache h = RPKIRTR_EMPTY_INIT;
    rpkirtr_index index = RPKIRTR_EMPTY_INIT, further = RPKIRTR_EMPTY_INIT;
    rpkirtr_record records[40];
    rpkirtr_status status;
    uint8_t unchanged, room[1024];
    uint32_t fault, conn, serial, k;
    size_t bad, n;
    memset(records, 0, sizeof records);
    for (k = 0; k < 40; k++) {
        records[k].addr[0] = (uint8_t)k;
        records[k].family = 4;
        records[k].len = 8;
        records[k].max_len = 24;
    }
    CALL(rpkirtr_cache_new(&h, 258, 772, 7, 16, 3600, 600, 7200, &fault));
    CALL(rpkirtr_cache_publish(&h, records, 20, &bad, &unchanged));
    for (k = 0; k < 9; k++) {
        CALL(rpkirtr_cache_open(&h, &conn));
        EXPECT(conn == k);
    }
    EXPECT(rpkirtr_cache_close(&h, 4) == RPKIRTR_OK);
    CALL(rpkirtr_cache_open(&h, &conn));
    EXPECT(conn == 4);
    CALL(rpkirtr_cache_publish(&h, records + 10, 30, &bad, &unchanged));
    EXPECT(unchanged == 0);
    EXPECT(rpkirtr_cache_current(&h, &serial, &n) == RPKIRTR_OK && serial == 8 && n == 30);
    EXPECT(rpkirtr_cache_receive(&h, 0, reset_query, sizeof reset_query, &n) == RPKIRTR_OK && n == 8);
    EXPECT(rpkirtr_cache_pull(&h, 0, room, sizeof room, &n) == RPKIRTR_OK && n == 8 + 30 * 20 + 24);
    /* without memory for the change, an Error Report of code 1 is due */
    EXPECT(rpkirtr_cache_receive(&h, 1, serial_query, sizeof serial_query, &n) == RPKIRTR_OK && n == 12);
    EXPECT(rpkirtr_cache_pull(&h, 1, room, sizeof room, &n) == RPKIRTR_OK && n > 8);
    without_memory += room[1] == 10 && room[3] == 1;
    EXPECT(rpkirtr_cache_free(&h) == RPKIRTR_OK);
    CALL(rpkirtr_index_new(&index, records, 20, &bad));
    CALL(rpkirtr_index_share(&index, &further));
    EXPECT(rpkirtr_index_free(&index) == RPKIRTR_OK);
    EXPECT(rpkirtr_index_count(&further, &n) == RPKIRTR_OK && n == 20);
    EXPECT(rpkirtr_index_free(&further) == RPKIRTR_OK);
}

int main(void)
{
    long count;
    for (count = 0; count < 1000 && faults == 0; count++) {
        without_memory = is_refused = 0;
        granted = count;
        a_run();
        EXPECT(without_memory == is_refused);
        if (!is_refused)
            return faults != 0;
    }
    return 1;
}
