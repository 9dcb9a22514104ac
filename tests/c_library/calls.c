/* What each call of rpkirtr.h answers: to a cache's records, and to each misuse. */
#include "rpkirtr.h"

#include <stdio.h>
#include <string.h>

static int faults = 0;

static void expect(int holds, const char *what, int line)
{
    if (!holds) {
        fprintf(stderr, "calls.c:%d: %s\n", line, what);
        faults++;
    }
}
#define EXPECT(condition) expect((condition), #condition, __LINE__)

static rpkirtr_route route(uint8_t family, const char *addr, size_t addr_len, uint8_t len, uint32_t origin)
{
    rpkirtr_route r;
    memset(&r, 0, sizeof r);
    memcpy(r.addr, addr, addr_len);
    r.origin = origin;
    r.family = family;
    r.len = len;
    r.has_origin = 1;
    return r;
}

static rpkirtr_record record(uint8_t family, const char *addr, size_t addr_len, uint8_t len, uint8_t max_len, uint32_t asn)
{
    rpkirtr_record r;
    memset(&r, 0, sizeof r);
    memcpy(r.addr, addr, addr_len);
    r.asn = asn;
    r.family = family;
    r.len = len;
    r.max_len = max_len;
    return r;
}

#define V4(addr, len, origin) route(4, addr, 4, len, origin)
#define NET_10 "\x0a\0\0\0"
#define NET_192 "\xc0\0\x02\0"
#define DB8 "\x20\x01\x0d\xb8"

/* Cache Response; 10.0.0.0/8-16 of AS 64496; 2001:db8::/32-48 of AS 64497; End of Data of serial 7 in session 258, version 1 */
static const uint8_t answer[] = {
    1, 3, 1, 2, 0, 0, 0, 8,
    1, 4, 0, 0, 0, 0, 0, 20, 1, 8, 16, 0, 10, 0, 0, 0, 0, 0, 251, 240,
    1, 6, 0, 0, 0, 0, 0, 32, 1, 32, 48, 0, 0x20, 0x01, 0x0d, 0xb8, 0, 0, 0, 0, 0, 0, 0, 0, 0, 0, 0, 0, 0, 0, 251, 241,
    1, 7, 1, 2, 0, 0, 0, 24, 0, 0, 0, 7, 0, 0, 14, 16, 0, 0, 2, 88, 0, 0, 28, 32,
};
static const uint8_t reset_query[] = {1, 2, 0, 0, 0, 0, 0, 8};

static void texts(void)
{
    static const struct {
        rpkirtr_status status;
        const char *text;
    } means[] = {
        {RPKIRTR_OK, "the call succeeded"},
        {RPKIRTR_EMPTY, "the handle is empty"},
        {RPKIRTR_LIVE, "the handle is live and has to be freed first"},
        {RPKIRTR_NO_MEMORY, "out of memory"},
        {RPKIRTR_BAD_RECORD, "a malformed record"},
        {RPKIRTR_BAD_ROUTE, "a malformed route"},
        {RPKIRTR_BAD_VERSION, "no such version of the protocol"},
        {RPKIRTR_RANGE, "an index at or past the end, or too many records"},
        {RPKIRTR_NOT_LINKED, "no connection, or one that has ended"},
        {RPKIRTR_BUSY, "a query is outstanding"},
        {RPKIRTR_BAD_PAYLOAD, "a malformed payload"},
        {RPKIRTR_BAD_TIMING, "intervals that are not valid"},
        {RPKIRTR_NO_CONNECTION, "no connection has this number"},
        {RPKIRTR_NO_DATA, "nothing is published"},
        {RPKIRTR_BAD_KEEP, "no version to be kept, or too many"},
        {RPKIRTR_BAD_STRUCTURE, "a structure of another size, or a malformed one"},
        {-1, "no such status"},
        {INT32_MAX, "no such status"},
    };
    rpkirtr_text text;
    size_t k, j;
    for (k = 0; k < sizeof means / sizeof means[0]; k++) {
        memset(&text, 7, sizeof text);
        EXPECT(rpkirtr_strerror(means[k].status, &text) == RPKIRTR_OK && strcmp(text.text, means[k].text) == 0);
        for (j = strlen(means[k].text); j < sizeof text.text; j++)
            EXPECT(text.text[j] == 0);
    }
    EXPECT(rpkirtr_version(&text) == RPKIRTR_OK && strcmp(text.text, "1.1.0") == 0);
    EXPECT(rpkirtr_abi_version() == RPKIRTR_ABI_VERSION);
}

static void expect_text(rpkirtr_status status, const rpkirtr_text *text, const char *wanted, int line)
{
    size_t k;
    expect(status == RPKIRTR_OK && strcmp(text->text, wanted) == 0, wanted, line);
    for (k = strlen(wanted); k < sizeof text->text; k++)
        expect(text->text[k] == 0, wanted, line);
}
#define NAMES(call, number, wanted) (memset(&text, 7, sizeof text), status = call(number, &text), expect_text(status, &text, wanted, __LINE__))

static void names(void)
{
    static const char *const faults_of[] = {
        "no such fault",
        "an element is longer than what holds it",
        "another element was expected",
        "a length is indefinite, or not in its shortest form",
        "the content of an element is not valid",
        "bytes remain",
        "a version is encoded, which may only be left out",
        "the AS number is negative or greater than 4294967295",
        "the address family is neither IPv4 nor IPv6, or it occurs twice",
        "no address family, or a family without addresses",
        "the prefix is longer than an address of its family",
        "the maximum length is out of its range",
        "the entries are not in strictly ascending order",
        "the manifest number is negative, or longer than 20 octets",
        "nextUpdate is not later than thisUpdate",
        "the hash algorithm is not SHA-256",
        "not a file name of a manifest",
        "a hash is not 256 bits long",
        "a file name occurs twice",
        "more than 65536 entries or files",
        "the maximum length equals the prefix length",
        "no such fault",
    };
    rpkirtr_status status;
    rpkirtr_text text;
    uint32_t k;
    NAMES(rpkirtr_state_name, RPKIRTR_NOT_FOUND, "not-found");
    NAMES(rpkirtr_state_name, RPKIRTR_VALID, "valid");
    NAMES(rpkirtr_state_name, RPKIRTR_INVALID, "invalid");
    NAMES(rpkirtr_state_name, -1, "no such state");
    NAMES(rpkirtr_link_name, RPKIRTR_CLOSED, "closed");
    NAMES(rpkirtr_link_name, RPKIRTR_IDLE, "idle");
    NAMES(rpkirtr_link_name, RPKIRTR_ASKED, "asked");
    NAMES(rpkirtr_link_name, RPKIRTR_ANSWERING, "answering");
    NAMES(rpkirtr_link_name, RPKIRTR_ENDED, "ended");
    NAMES(rpkirtr_link_name, 5, "no such link");
    NAMES(rpkirtr_end_name, 0, "no such end");
    NAMES(rpkirtr_end_name, RPKIRTR_END_REPORT_SENT, "the cache was sent an Error Report");
    NAMES(rpkirtr_end_name, RPKIRTR_END_REPORT_RECEIVED, "the cache sent an Error Report");
    NAMES(rpkirtr_end_name, RPKIRTR_END_MALFORMED, "the cache sent a malformed Error Report");
    NAMES(rpkirtr_end_name, RPKIRTR_END_MEMORY, "out of memory");
    NAMES(rpkirtr_end_name, RPKIRTR_END_EXPIRED, "the committed version expired");
    NAMES(rpkirtr_end_name, RPKIRTR_END_TOO_MANY, "the answer has more than 16777215 records");
    NAMES(rpkirtr_end_name, 7, "no such end");
    for (k = 0; k < sizeof faults_of / sizeof faults_of[0]; k++)
        NAMES(rpkirtr_fault_name, k, faults_of[k]);
}

static void empty_handles(void)
{
    rpkirtr_router h = RPKIRTR_EMPTY_INIT;
    rpkirtr_index i = RPKIRTR_EMPTY_INIT;
    rpkirtr_route r = V4(NET_10, 8, 1);
    rpkirtr_record out, zero;
    rpkirtr_link link;
    rpkirtr_committed committed;
    rpkirtr_state state = RPKIRTR_VALID;
    uint8_t room[4];
    uint64_t at = 5;
    size_t n = 5, m = 5;
    memset(&zero, 0, sizeof zero);
    memset(&out, 1, sizeof out);
    EXPECT(rpkirtr_router_free(&h) == RPKIRTR_EMPTY);
    EXPECT(rpkirtr_router_speak(&h, 1) == RPKIRTR_EMPTY);
    EXPECT(rpkirtr_router_connect(&h, 1) == RPKIRTR_EMPTY);
    EXPECT(rpkirtr_router_receive(&h, answer, sizeof answer, 1, &n) == RPKIRTR_EMPTY && n == 0);
    n = 5;
    EXPECT(rpkirtr_router_pull(&h, room, sizeof room, &n) == RPKIRTR_EMPTY && n == 0);
    EXPECT(rpkirtr_router_connection_closed(&h, 1) == RPKIRTR_EMPTY);
    EXPECT(rpkirtr_router_tick(&h, 1) == RPKIRTR_EMPTY);
    EXPECT(rpkirtr_router_ask(&h) == RPKIRTR_EMPTY);
    EXPECT(rpkirtr_router_next_query_at(&h, &at) == RPKIRTR_EMPTY && at == RPKIRTR_NEVER);
    at = 5;
    EXPECT(rpkirtr_router_wake_at(&h, &at) == RPKIRTR_EMPTY && at == RPKIRTR_NEVER);
    EXPECT(rpkirtr_router_index(&h, &i) == RPKIRTR_EMPTY && i.opaque_ == NULL);
    EXPECT(rpkirtr_router_link(&h, &link) == RPKIRTR_EMPTY && link.state == RPKIRTR_CLOSED);
    EXPECT(rpkirtr_router_committed(&h, &committed) == RPKIRTR_EMPTY && committed.is_committed == 0);
    n = 5;
    EXPECT(rpkirtr_router_count(&h, &n) == RPKIRTR_EMPTY && n == 0);
    EXPECT(rpkirtr_router_state(&h, &r, &state) == RPKIRTR_EMPTY && state == RPKIRTR_NOT_FOUND);
    EXPECT(rpkirtr_router_record(&h, 0, &out) == RPKIRTR_EMPTY && memcmp(&out, &zero, sizeof out) == 0);
    n = 5;
    EXPECT(rpkirtr_router_records(&h, 0, &out, 1, &n) == RPKIRTR_EMPTY && n == 0);
    n = 5;
    EXPECT(rpkirtr_router_covering(&h, &r, &out, 1, &n) == RPKIRTR_EMPTY && n == 0);
    EXPECT(rpkirtr_router_changes_begin(&h, &n, &m) == RPKIRTR_EMPTY && n == 0 && m == 0);
    n = 5;
    EXPECT(rpkirtr_router_withdrawn(&h, 0, &out, 1, &n) == RPKIRTR_EMPTY && n == 0);
    n = 5;
    EXPECT(rpkirtr_router_announced(&h, 0, &out, 1, &n) == RPKIRTR_EMPTY && n == 0);
    EXPECT(rpkirtr_router_changes_taken(&h) == RPKIRTR_EMPTY);
    EXPECT(rpkirtr_index_free(&i) == RPKIRTR_EMPTY);
    n = 5;
    EXPECT(rpkirtr_index_count(&i, &n) == RPKIRTR_EMPTY && n == 0);
    state = RPKIRTR_VALID;
    EXPECT(rpkirtr_index_state(&i, &r, &state) == RPKIRTR_EMPTY && state == RPKIRTR_NOT_FOUND);
    n = 5;
    EXPECT(rpkirtr_index_covering(&i, &r, &out, 1, &n) == RPKIRTR_EMPTY && n == 0);
}

/* What is no route, and what state it has: a prefix longer than its family, host bits, no family, bytes behind an IPv4 address, padding */
static void bad_routes(rpkirtr_router *h)
{
    rpkirtr_route bad[6];
    size_t k, n;
    bad[0] = V4(NET_10, 33, 1);
    bad[1] = V4("\x0a\0\0\1", 8, 1);
    bad[2] = route(5, NET_10, 4, 8, 1);
    bad[3] = V4(NET_10, 8, 1);
    bad[3].addr[15] = 1;
    bad[4] = route(6, DB8, 4, 129, 1);
    bad[5] = V4(NET_10, 8, 1);
    bad[5].zero_ = 1;
    for (k = 0; k < 6; k++) {
        rpkirtr_state state = RPKIRTR_VALID;
        EXPECT(rpkirtr_router_state(h, &bad[k], &state) == RPKIRTR_BAD_ROUTE && state == RPKIRTR_NOT_FOUND);
        EXPECT(rpkirtr_router_covering(h, &bad[k], NULL, 0, &n) == RPKIRTR_BAD_ROUTE && n == 0);
    }
}

static rpkirtr_state state_of(rpkirtr_router *h, rpkirtr_route r)
{
    rpkirtr_state state = -1;
    EXPECT(rpkirtr_router_state(h, &r, &state) == RPKIRTR_OK);
    return state;
}

static void a_router(void)
{
    rpkirtr_router h = RPKIRTR_EMPTY_INIT;
    rpkirtr_index table = RPKIRTR_EMPTY_INIT;
    rpkirtr_state state;
    rpkirtr_route none = V4(NET_10, 8, 0), db8 = route(6, DB8, 4, 40, 64497);
    rpkirtr_record out, all[3], first = record(4, NET_10, 4, 8, 16, 64496), second = record(6, DB8, 4, 32, 48, 64497);
    rpkirtr_link link;
    rpkirtr_committed committed;
    uint8_t room[64];
    uint64_t at;
    size_t n = 9, m = 9, taken = 0;
    none.has_origin = 0;
    EXPECT(rpkirtr_router_new(&h) == RPKIRTR_OK);
    EXPECT(rpkirtr_router_new(&h) == RPKIRTR_LIVE);
    EXPECT(rpkirtr_router_wake_at(&h, &at) == RPKIRTR_OK && at == RPKIRTR_NEVER);
    EXPECT(rpkirtr_router_ask(&h) == RPKIRTR_NOT_LINKED);
    EXPECT(rpkirtr_router_speak(&h, 2) == RPKIRTR_BAD_VERSION);
    EXPECT(rpkirtr_router_speak(&h, 1) == RPKIRTR_OK);
    EXPECT(rpkirtr_router_connect(&h, 100) == RPKIRTR_OK);
    EXPECT(rpkirtr_router_link(&h, &link) == RPKIRTR_OK && link.state == RPKIRTR_ASKED);
    EXPECT(rpkirtr_router_ask(&h) == RPKIRTR_BUSY);
    EXPECT(rpkirtr_router_pull(&h, NULL, 0, &n) == RPKIRTR_OK && n == 0);
    EXPECT(rpkirtr_router_pull(&h, room, 3, &n) == RPKIRTR_OK && n == 3 && memcmp(room, reset_query, 3) == 0);
    EXPECT(rpkirtr_router_pull(&h, room, sizeof room, &n) == RPKIRTR_OK && n == 5 && memcmp(room, reset_query + 3, 5) == 0);
    EXPECT(rpkirtr_router_receive(&h, NULL, 0, 100, &n) == RPKIRTR_OK && n == 0);
    while (taken < sizeof answer) {
        EXPECT(rpkirtr_router_receive(&h, answer + taken, sizeof answer - taken < 7 ? sizeof answer - taken : 7, 101, &n) == RPKIRTR_OK && n > 0);
        if (n == 0)
            break;
        taken += n;
    }
    EXPECT(rpkirtr_router_link(&h, &link) == RPKIRTR_OK && link.state == RPKIRTR_IDLE && link.end == 0);
    EXPECT(rpkirtr_router_committed(&h, &committed) == RPKIRTR_OK && committed.is_committed == 1 && committed.version == 1);
    EXPECT(committed.session == 258 && committed.serial == 7 && committed.moment == 101);
    EXPECT(committed.refresh == 3600 && committed.retry == 600 && committed.expire == 7200);
    EXPECT(rpkirtr_router_next_query_at(&h, &at) == RPKIRTR_OK && at == 101 + 3600);
    EXPECT(rpkirtr_router_wake_at(&h, &at) == RPKIRTR_OK && at == 101 + 3600);
    EXPECT(rpkirtr_router_count(&h, &n) == RPKIRTR_OK && n == 2);
    EXPECT(rpkirtr_router_record(&h, 0, &out) == RPKIRTR_OK && memcmp(&out, &first, sizeof out) == 0);
    EXPECT(rpkirtr_router_record(&h, 1, &out) == RPKIRTR_OK && memcmp(&out, &second, sizeof out) == 0);
    EXPECT(rpkirtr_router_record(&h, 2, &out) == RPKIRTR_RANGE && out.family == 0);
    EXPECT(rpkirtr_router_record(&h, SIZE_MAX, &out) == RPKIRTR_RANGE);
    memset(all, 7, sizeof all);
    EXPECT(rpkirtr_router_records(&h, 0, all, 3, &n) == RPKIRTR_OK && n == 2 && memcmp(&all[1], &second, sizeof out) == 0);
    EXPECT(all[2].family == 7);
    EXPECT(rpkirtr_router_records(&h, 1, all, 3, &n) == RPKIRTR_OK && n == 1 && memcmp(&all[0], &second, sizeof out) == 0);
    EXPECT(rpkirtr_router_records(&h, 2, all, 3, &n) == RPKIRTR_OK && n == 0);
    EXPECT(state_of(&h, V4(NET_10, 16, 64496)) == RPKIRTR_VALID);
    EXPECT(state_of(&h, V4(NET_10, 17, 64496)) == RPKIRTR_INVALID);
    EXPECT(state_of(&h, V4(NET_10, 8, 64497)) == RPKIRTR_INVALID);
    EXPECT(state_of(&h, none) == RPKIRTR_INVALID);
    EXPECT(state_of(&h, V4(NET_192, 24, 64496)) == RPKIRTR_NOT_FOUND);
    EXPECT(state_of(&h, db8) == RPKIRTR_VALID);
    EXPECT(rpkirtr_router_covering(&h, &db8, all, 3, &n) == RPKIRTR_OK && n == 1 && memcmp(&all[0], &second, sizeof out) == 0);
    EXPECT(rpkirtr_router_covering(&h, &db8, NULL, 0, &n) == RPKIRTR_OK && n == 1);
    bad_routes(&h);
    EXPECT(rpkirtr_router_index(&h, &table) == RPKIRTR_OK);
    EXPECT(rpkirtr_router_index(&h, &table) == RPKIRTR_LIVE);
    EXPECT(rpkirtr_index_count(&table, &n) == RPKIRTR_OK && n == 2);
    EXPECT(rpkirtr_router_announced(&h, 0, all, 3, &n) == RPKIRTR_OK && n == 0);
    EXPECT(rpkirtr_router_changes_taken(&h) == RPKIRTR_OK);
    EXPECT(rpkirtr_router_changes_begin(&h, &n, &m) == RPKIRTR_OK && n == 0 && m == 2);
    EXPECT(rpkirtr_router_announced(&h, 1, all, 3, &n) == RPKIRTR_OK && n == 1 && memcmp(&all[0], &second, sizeof out) == 0);
    EXPECT(rpkirtr_router_changes_taken(&h) == RPKIRTR_OK);
    EXPECT(rpkirtr_router_changes_begin(&h, &n, &m) == RPKIRTR_OK && n == 0 && m == 0);
    EXPECT(rpkirtr_router_tick(&h, 101 + 3600) == RPKIRTR_OK);
    EXPECT(rpkirtr_router_pull(&h, room, sizeof room, &n) == RPKIRTR_OK && n == 12 && room[1] == 1 && room[11] == 7);
    EXPECT(rpkirtr_router_connection_closed(&h, 4000) == RPKIRTR_OK);
    EXPECT(rpkirtr_router_wake_at(&h, &at) == RPKIRTR_OK && at == 101 + 7201);
    EXPECT(rpkirtr_router_tick(&h, at - 1) == RPKIRTR_OK);
    EXPECT(rpkirtr_router_count(&h, &n) == RPKIRTR_OK && n == 2);
    EXPECT(rpkirtr_router_tick(&h, at) == RPKIRTR_OK);
    EXPECT(rpkirtr_router_count(&h, &n) == RPKIRTR_OK && n == 0);
    EXPECT(rpkirtr_router_wake_at(&h, &at) == RPKIRTR_OK && at == RPKIRTR_NEVER);
    EXPECT(rpkirtr_index_state(&table, &db8, &state) == RPKIRTR_OK && state == RPKIRTR_VALID);
    EXPECT(rpkirtr_index_free(&table) == RPKIRTR_OK);
    EXPECT(rpkirtr_router_index(&h, &table) == RPKIRTR_OK);
    EXPECT(rpkirtr_index_count(&table, &n) == RPKIRTR_OK && n == 0);
    EXPECT(rpkirtr_index_free(&table) == RPKIRTR_OK);
    EXPECT(rpkirtr_router_changes_begin(&h, &n, &m) == RPKIRTR_OK && n == 2 && m == 0);
    EXPECT(rpkirtr_router_withdrawn(&h, 0, all, 3, &n) == RPKIRTR_OK && n == 2 && memcmp(&all[0], &first, sizeof out) == 0);
    EXPECT(rpkirtr_router_free(&h) == RPKIRTR_OK && h.opaque_ == NULL);
    EXPECT(rpkirtr_router_free(&h) == RPKIRTR_EMPTY);
    EXPECT(rpkirtr_router_count(&h, &n) == RPKIRTR_EMPTY);
    EXPECT(rpkirtr_router_new(&h) == RPKIRTR_OK);
    EXPECT(rpkirtr_router_free(&h) == RPKIRTR_OK);
}

static void an_index(void)
{
    rpkirtr_index h = RPKIRTR_EMPTY_INIT;
    rpkirtr_record records[3], out;
    rpkirtr_route r = V4(NET_10, 16, 64496), bad = V4(NET_10, 33, 1);
    rpkirtr_state state;
    size_t n = 9;
    records[0] = record(6, DB8, 4, 32, 48, 64497);
    records[1] = record(4, NET_10, 4, 8, 16, 64496);
    records[2] = records[0];
    EXPECT(rpkirtr_index_new(&h, records, 3, &n) == RPKIRTR_OK && n == 0);
    EXPECT(rpkirtr_index_new(&h, records, 3, &n) == RPKIRTR_LIVE);
    EXPECT(rpkirtr_index_count(&h, &n) == RPKIRTR_OK && n == 2);
    EXPECT(rpkirtr_index_state(&h, &r, &state) == RPKIRTR_OK && state == RPKIRTR_VALID);
    EXPECT(rpkirtr_index_state(&h, &bad, &state) == RPKIRTR_BAD_ROUTE && state == RPKIRTR_NOT_FOUND);
    EXPECT(rpkirtr_index_covering(&h, &r, &out, 1, &n) == RPKIRTR_OK && n == 1 && memcmp(&out, &records[1], sizeof out) == 0);
    EXPECT(rpkirtr_index_covering(&h, &bad, &out, 1, &n) == RPKIRTR_BAD_ROUTE && n == 0);
    EXPECT(rpkirtr_index_free(&h) == RPKIRTR_OK && h.opaque_ == NULL);
    EXPECT(rpkirtr_index_free(&h) == RPKIRTR_EMPTY);
    records[2].max_len = 31;
    EXPECT(rpkirtr_index_new(&h, records, 3, &n) == RPKIRTR_BAD_RECORD && n == 2 && h.opaque_ == NULL);
    records[2] = records[1];
    records[1].zero_ = 1;
    EXPECT(rpkirtr_index_new(&h, records, 3, &n) == RPKIRTR_BAD_RECORD && n == 1);
    records[1] = record(4, NET_10, 4, 7, 16, 64496);
    records[1].addr[0] = 11;
    EXPECT(rpkirtr_index_new(&h, records, 3, &n) == RPKIRTR_BAD_RECORD && n == 1);
    records[2].zero_ = 1;
    EXPECT(rpkirtr_index_new(&h, records, 3, &n) == RPKIRTR_BAD_RECORD && n == 1);
    EXPECT(rpkirtr_index_new(&h, NULL, 0, &n) == RPKIRTR_OK);
    EXPECT(rpkirtr_index_state(&h, &r, &state) == RPKIRTR_OK && state == RPKIRTR_NOT_FOUND);
    EXPECT(rpkirtr_index_free(&h) == RPKIRTR_OK);
}

/* Two handles of one index: each answers, and is freed, on its own. */
static void a_shared_index(void)
{
    rpkirtr_index h = RPKIRTR_EMPTY_INIT, further = RPKIRTR_EMPTY_INIT, third = RPKIRTR_EMPTY_INIT;
    rpkirtr_record ten = record(4, NET_10, 4, 8, 16, 64496), out;
    rpkirtr_route r = V4(NET_10, 16, 64496);
    rpkirtr_state state;
    size_t n;
    EXPECT(rpkirtr_index_share(&h, &further) == RPKIRTR_EMPTY && further.opaque_ == NULL);
    EXPECT(rpkirtr_index_new(&h, &ten, 1, &n) == RPKIRTR_OK);
    EXPECT(rpkirtr_index_share(&h, &further) == RPKIRTR_OK && further.opaque_ != NULL && further.opaque_ != h.opaque_);
    EXPECT(rpkirtr_index_share(&h, &further) == RPKIRTR_LIVE);
    EXPECT(rpkirtr_index_share(&third, &further) == RPKIRTR_EMPTY);
    EXPECT(rpkirtr_index_share(&further, &third) == RPKIRTR_OK);
    EXPECT(rpkirtr_index_free(&h) == RPKIRTR_OK);
    EXPECT(rpkirtr_index_count(&further, &n) == RPKIRTR_OK && n == 1);
    EXPECT(rpkirtr_index_state(&further, &r, &state) == RPKIRTR_OK && state == RPKIRTR_VALID);
    EXPECT(rpkirtr_index_free(&further) == RPKIRTR_OK && further.opaque_ == NULL);
    EXPECT(rpkirtr_index_covering(&third, &r, &out, 1, &n) == RPKIRTR_OK && n == 1 && memcmp(&out, &ten, sizeof out) == 0);
    EXPECT(rpkirtr_index_free(&third) == RPKIRTR_OK && rpkirtr_index_free(&third) == RPKIRTR_EMPTY);
}

static void an_index_of_lists(void)
{
    rpkirtr_index h = RPKIRTR_EMPTY_INIT;
    rpkirtr_record records[4];
    rpkirtr_list lists[3];
    rpkirtr_route r = V4(NET_10, 16, 64496);
    rpkirtr_state state;
    size_t list = 9, n = 9;
    records[0] = record(6, DB8, 4, 32, 48, 64497);
    records[1] = record(4, NET_10, 4, 8, 16, 64496);
    records[2] = records[0];
    records[3] = record(4, NET_192, 4, 24, 24, 64496);
    lists[0].records = records;
    lists[0].records_len = 2;
    lists[1].records = NULL;
    lists[1].records_len = 0;
    lists[2].records = records + 2;
    lists[2].records_len = 2;
    EXPECT(rpkirtr_index_new_of(&h, lists, 3, &list, &n) == RPKIRTR_OK && list == 0 && n == 0);
    EXPECT(rpkirtr_index_new_of(&h, lists, 3, &list, &n) == RPKIRTR_LIVE && list == 0 && n == 0);
    EXPECT(rpkirtr_index_count(&h, &n) == RPKIRTR_OK && n == 3);
    EXPECT(rpkirtr_index_state(&h, &r, &state) == RPKIRTR_OK && state == RPKIRTR_VALID);
    EXPECT(rpkirtr_index_free(&h) == RPKIRTR_OK);
    records[3].max_len = 33;
    EXPECT(rpkirtr_index_new_of(&h, lists, 3, &list, &n) == RPKIRTR_BAD_RECORD && list == 2 && n == 1 && h.opaque_ == NULL);
    records[2].max_len = 31;
    EXPECT(rpkirtr_index_new_of(&h, lists, 3, &list, &n) == RPKIRTR_BAD_RECORD && list == 2 && n == 0);
    EXPECT(rpkirtr_index_new_of(&h, lists, 2, &list, &n) == RPKIRTR_OK && list == 0 && n == 0);
    EXPECT(rpkirtr_index_count(&h, &n) == RPKIRTR_OK && n == 2);
    EXPECT(rpkirtr_index_free(&h) == RPKIRTR_OK);
    EXPECT(rpkirtr_index_new_of(&h, NULL, 0, &list, &n) == RPKIRTR_OK);
    EXPECT(rpkirtr_index_count(&h, &n) == RPKIRTR_OK && n == 0);
    EXPECT(rpkirtr_index_free(&h) == RPKIRTR_OK);
}

/* A ROA of AS 64496 for 10.0.0.0/8-16 and 10.64.0.0/10 */
static const uint8_t roa_bytes[] = {
    0x30, 0x22, 0x02, 0x03, 0x00, 0xfb, 0xf0, 0x30, 0x1b, 0x30, 0x19, 0x04, 0x02, 0x00, 0x01, 0x30, 0x13,
    0x30, 0x07, 0x03, 0x02, 0x00, 0x0a, 0x02, 0x01, 0x10,
    0x30, 0x08, 0x03, 0x03, 0x06, 0x0a, 0x40, 0x02, 0x01, 0x0b,
};

/* A ROA of AS 64496 for 2001:db8::/32, without a maximum length */
static const uint8_t roa_v6_bytes[] = {
    0x30, 0x18, 0x02, 0x03, 0x00, 0xfb, 0xf0, 0x30, 0x11, 0x30, 0x0f, 0x04, 0x02, 0x00, 0x02, 0x30, 0x09, 0x30, 0x07,
    0x03, 0x05, 0x00, 0x20, 0x01, 0x0d, 0xb8,
};

static void a_roa(void)
{
    rpkirtr_roa h = RPKIRTR_EMPTY_INIT;
    rpkirtr_fault fault;
    rpkirtr_record all[3], first = record(4, NET_10, 4, 8, 16, 64496), second = record(4, "\x0a\x40\0\0", 4, 10, 11, 64496);
    uint8_t wrong[sizeof roa_bytes];
    uint32_t asn = 9;
    size_t n = 9, k;
    EXPECT(rpkirtr_roa_free(&h) == RPKIRTR_EMPTY);
    EXPECT(rpkirtr_roa_asn(&h, &asn) == RPKIRTR_EMPTY && asn == 0);
    EXPECT(rpkirtr_roa_count(&h, &n) == RPKIRTR_EMPTY && n == 0);
    n = 9;
    EXPECT(rpkirtr_roa_records(&h, 0, all, 3, &n) == RPKIRTR_EMPTY && n == 0);
    EXPECT(rpkirtr_roa_new(&h, roa_bytes, sizeof roa_bytes, &fault) == RPKIRTR_OK && fault.kind == 0 && fault.offset == 0);
    EXPECT(rpkirtr_roa_new(&h, roa_bytes, sizeof roa_bytes, &fault) == RPKIRTR_LIVE && fault.kind == 0);
    EXPECT(rpkirtr_roa_asn(&h, &asn) == RPKIRTR_OK && asn == 64496);
    EXPECT(rpkirtr_roa_count(&h, &n) == RPKIRTR_OK && n == 2);
    EXPECT(rpkirtr_roa_records(&h, 0, all, 3, &n) == RPKIRTR_OK && n == 2);
    EXPECT(memcmp(&all[0], &first, sizeof first) == 0 && memcmp(&all[1], &second, sizeof second) == 0);
    EXPECT(rpkirtr_roa_records(&h, 1, all, 3, &n) == RPKIRTR_OK && n == 1 && memcmp(&all[0], &second, sizeof second) == 0);
    EXPECT(rpkirtr_roa_records(&h, SIZE_MAX, all, 3, &n) == RPKIRTR_OK && n == 0);
    EXPECT(rpkirtr_roa_free(&h) == RPKIRTR_OK && h.opaque_ == NULL);
    EXPECT(rpkirtr_roa_free(&h) == RPKIRTR_EMPTY);
    first = record(6, DB8, 4, 32, 32, 64496);
    EXPECT(rpkirtr_roa_new(&h, roa_v6_bytes, sizeof roa_v6_bytes, &fault) == RPKIRTR_OK);
    EXPECT(rpkirtr_roa_records(&h, 0, all, 3, &n) == RPKIRTR_OK && n == 1 && memcmp(&all[0], &first, sizeof first) == 0);
    EXPECT(rpkirtr_roa_free(&h) == RPKIRTR_OK);
    for (k = 0; k < sizeof roa_bytes; k++)
        EXPECT(rpkirtr_roa_new(&h, roa_bytes, k, &fault) == RPKIRTR_BAD_PAYLOAD && fault.kind > 0 && fault.offset <= k && h.opaque_ == NULL);
    /* a maximum length of 7 for a prefix of length 8: fault 11 */
    memcpy(wrong, roa_bytes, sizeof wrong);
    wrong[25] = 7;
    EXPECT(rpkirtr_roa_new(&h, wrong, sizeof wrong, &fault) == RPKIRTR_BAD_PAYLOAD && fault.kind == 11 && fault.offset == 23 && fault.zero_ == 0);
    EXPECT(rpkirtr_roa_new(&h, NULL, 0, &fault) == RPKIRTR_BAD_PAYLOAD);
}

/* A manifest of number 1, from 2025-01-01 to the day after, that lists a.crl */
static const uint8_t manifest_bytes[] = {
    0x30, 0x5e, 0x02, 0x01, 0x01,
    0x18, 0x0f, '2', '0', '2', '5', '0', '1', '0', '1', '0', '0', '0', '0', '0', '0', 'Z',
    0x18, 0x0f, '2', '0', '2', '5', '0', '1', '0', '2', '0', '0', '0', '0', '0', '0', 'Z',
    0x06, 0x09, 0x60, 0x86, 0x48, 0x01, 0x65, 0x03, 0x04, 0x02, 0x01,
    0x30, 0x2c, 0x30, 0x2a, 0x16, 0x05, 'a', '.', 'c', 'r', 'l', 0x03, 0x21, 0x00,
    0xba, 0x78, 0x16, 0xbf, 0x8f, 0x01, 0xcf, 0xea, 0x41, 0x41, 0x40, 0xde, 0x5d, 0xae, 0x22, 0x23,
    0xb0, 0x03, 0x61, 0xa3, 0x96, 0x17, 0x7a, 0x9c, 0xb4, 0x10, 0xff, 0x61, 0xf2, 0x00, 0x15, 0xad,
};

static void a_manifest(void)
{
    rpkirtr_manifest h = RPKIRTR_EMPTY_INIT;
    rpkirtr_fault fault;
    rpkirtr_digest digest, zero;
    uint8_t room[8], wrong[sizeof manifest_bytes];
    uint64_t at = 9, next = 9;
    size_t n = 9, k;
    memset(&zero, 0, sizeof zero);
    memset(&digest, 7, sizeof digest);
    EXPECT(rpkirtr_manifest_free(&h) == RPKIRTR_EMPTY);
    EXPECT(rpkirtr_manifest_number(&h, room, sizeof room, &n) == RPKIRTR_EMPTY && n == 0);
    EXPECT(rpkirtr_manifest_times(&h, &at, &next) == RPKIRTR_EMPTY && at == 0 && next == 0);
    n = 9;
    EXPECT(rpkirtr_manifest_count(&h, &n) == RPKIRTR_EMPTY && n == 0);
    n = 9;
    EXPECT(rpkirtr_manifest_file(&h, 0, room, sizeof room, &n, &digest) == RPKIRTR_EMPTY && n == 0 && memcmp(&digest, &zero, 32) == 0);
    EXPECT(rpkirtr_manifest_new(&h, manifest_bytes, sizeof manifest_bytes, &fault) == RPKIRTR_OK && fault.kind == 0 && fault.offset == 0);
    EXPECT(rpkirtr_manifest_new(&h, manifest_bytes, sizeof manifest_bytes, &fault) == RPKIRTR_LIVE && fault.kind == 0);
    memset(room, 7, sizeof room);
    EXPECT(rpkirtr_manifest_number(&h, room, sizeof room, &n) == RPKIRTR_OK && n == 1 && room[0] == 1 && room[1] == 7);
    EXPECT(rpkirtr_manifest_number(&h, NULL, 0, &n) == RPKIRTR_OK && n == 1);
    EXPECT(rpkirtr_manifest_times(&h, &at, &next) == RPKIRTR_OK && at == 1735689600 && next == 1735776000);
    EXPECT(rpkirtr_manifest_count(&h, &n) == RPKIRTR_OK && n == 1);
    EXPECT(rpkirtr_manifest_file(&h, 0, room, sizeof room, &n, &digest) == RPKIRTR_OK && n == 5 && memcmp(room, "a.crl\7", 6) == 0);
    EXPECT(memcmp(digest.octets, manifest_bytes + sizeof manifest_bytes - 32, 32) == 0);
    memset(room, 7, sizeof room);
    EXPECT(rpkirtr_manifest_file(&h, 0, room, 2, &n, &digest) == RPKIRTR_OK && n == 5 && memcmp(room, "a.\7", 3) == 0);
    EXPECT(rpkirtr_manifest_file(&h, 1, room, sizeof room, &n, &digest) == RPKIRTR_RANGE && n == 0 && memcmp(&digest, &zero, 32) == 0 && room[0] == 'a');
    EXPECT(rpkirtr_manifest_file(&h, SIZE_MAX, NULL, 0, &n, &digest) == RPKIRTR_RANGE && n == 0);
    EXPECT(rpkirtr_manifest_free(&h) == RPKIRTR_OK && h.opaque_ == NULL);
    EXPECT(rpkirtr_manifest_free(&h) == RPKIRTR_EMPTY);
    for (k = 0; k < sizeof manifest_bytes; k++)
        EXPECT(rpkirtr_manifest_new(&h, manifest_bytes, k, &fault) == RPKIRTR_BAD_PAYLOAD && fault.kind > 0 && fault.offset <= k && h.opaque_ == NULL);
    /* nextUpdate is thisUpdate: fault 14. The name is a.Crl: fault 16. */
    memcpy(wrong, manifest_bytes, sizeof wrong);
    wrong[31] = '1';
    EXPECT(rpkirtr_manifest_new(&h, wrong, sizeof wrong, &fault) == RPKIRTR_BAD_PAYLOAD && fault.kind == 14 && fault.offset == 22 && fault.zero_ == 0);
    wrong[31] = '2';
    wrong[58] = 'C';
    EXPECT(rpkirtr_manifest_new(&h, wrong, sizeof wrong, &fault) == RPKIRTR_BAD_PAYLOAD && fault.kind == 16 && fault.offset == 54);
}

static void an_empty_cache(void)
{
    rpkirtr_cache h = RPKIRTR_EMPTY_INIT;
    rpkirtr_record one = record(4, NET_10, 4, 8, 16, 64496);
    uint8_t room[4], flag = 9;
    uint32_t conn = 9, serial = 9;
    size_t n = 9;
    EXPECT(rpkirtr_cache_free(&h) == RPKIRTR_EMPTY);
    EXPECT(rpkirtr_cache_publish(&h, &one, 1, &n, &flag) == RPKIRTR_EMPTY && n == 0 && flag == 0);
    n = 9;
    EXPECT(rpkirtr_cache_current(&h, &serial, &n) == RPKIRTR_EMPTY && serial == 0 && n == 0);
    EXPECT(rpkirtr_cache_open(&h, &conn) == RPKIRTR_EMPTY && conn == 0);
    EXPECT(rpkirtr_cache_close(&h, 0) == RPKIRTR_EMPTY);
    n = 9;
    EXPECT(rpkirtr_cache_receive(&h, 0, reset_query, sizeof reset_query, &n) == RPKIRTR_EMPTY && n == 0);
    n = 9;
    EXPECT(rpkirtr_cache_pull(&h, 0, room, sizeof room, &n) == RPKIRTR_EMPTY && n == 0);
    flag = 9;
    EXPECT(rpkirtr_cache_notify(&h, 0, &flag) == RPKIRTR_EMPTY && flag == 0);
    flag = 9;
    EXPECT(rpkirtr_cache_has_bytes(&h, 0, &flag) == RPKIRTR_EMPTY && flag == 0);
    flag = 9;
    EXPECT(rpkirtr_cache_is_open(&h, 0, &flag) == RPKIRTR_EMPTY && flag == 0);
}

static void the_settings_of_a_cache(void)
{
    rpkirtr_cache h = RPKIRTR_EMPTY_INIT;
    uint32_t fault = 9;
    EXPECT(rpkirtr_cache_new(&h, 1, 2, 3, 16, 0, 600, 7200, &fault) == RPKIRTR_BAD_TIMING && fault == RPKIRTR_TIMING_RANGE && h.opaque_ == NULL);
    EXPECT(rpkirtr_cache_new(&h, 1, 2, 3, 16, 3600, 7201, 7200, &fault) == RPKIRTR_BAD_TIMING && fault == RPKIRTR_TIMING_RANGE);
    EXPECT(rpkirtr_cache_new(&h, 1, 2, 3, 16, 3600, 600, 172801, &fault) == RPKIRTR_BAD_TIMING && fault == RPKIRTR_TIMING_RANGE);
    EXPECT(rpkirtr_cache_new(&h, 1, 2, 3, 0, 3600, 600, 3600, &fault) == RPKIRTR_BAD_TIMING && fault == RPKIRTR_TIMING_EXPIRE);
    EXPECT(rpkirtr_cache_new(&h, 1, 2, 3, 0, 3600, 600, 7200, &fault) == RPKIRTR_BAD_KEEP && fault == 0);
    EXPECT(rpkirtr_cache_new(&h, 1, 2, 3, 65537, 3600, 600, 7200, &fault) == RPKIRTR_BAD_KEEP && fault == 0 && h.opaque_ == NULL);
    EXPECT(rpkirtr_cache_new(&h, 1, 2, 3, 1, 86400, 7200, 172800, &fault) == RPKIRTR_OK && fault == 0);
    EXPECT(rpkirtr_cache_free(&h) == RPKIRTR_OK && h.opaque_ == NULL);
    EXPECT(rpkirtr_cache_new(&h, 1, 2, 3, 65536, 1, 1, 600, &fault) == RPKIRTR_OK && fault == 0);
    EXPECT(rpkirtr_cache_new(&h, 1, 2, 3, 0, 0, 0, 0, &fault) == RPKIRTR_LIVE && fault == 0);
    EXPECT(rpkirtr_cache_free(&h) == RPKIRTR_OK);
    EXPECT(rpkirtr_cache_free(&h) == RPKIRTR_EMPTY);
}

static void the_numbers_of_connections(void)
{
    rpkirtr_cache h = RPKIRTR_EMPTY_INIT;
    uint32_t fault, conn = 9;
    uint8_t flag = 9;
    size_t n;
    EXPECT(rpkirtr_cache_new(&h, 1, 2, 3, 16, 3600, 600, 7200, &fault) == RPKIRTR_OK);
    EXPECT(rpkirtr_cache_close(&h, 0) == RPKIRTR_NO_CONNECTION);
    EXPECT(rpkirtr_cache_open(&h, &conn) == RPKIRTR_OK && conn == 0);
    EXPECT(rpkirtr_cache_open(&h, &conn) == RPKIRTR_OK && conn == 1);
    EXPECT(rpkirtr_cache_open(&h, &conn) == RPKIRTR_OK && conn == 2);
    EXPECT(rpkirtr_cache_close(&h, 1) == RPKIRTR_OK);
    EXPECT(rpkirtr_cache_close(&h, 1) == RPKIRTR_NO_CONNECTION);
    EXPECT(rpkirtr_cache_is_open(&h, 1, &flag) == RPKIRTR_NO_CONNECTION && flag == 0);
    EXPECT(rpkirtr_cache_is_open(&h, 2, &flag) == RPKIRTR_OK && flag == 1);
    EXPECT(rpkirtr_cache_is_open(&h, 3, &flag) == RPKIRTR_NO_CONNECTION && flag == 0);
    flag = 9;
    EXPECT(rpkirtr_cache_has_bytes(&h, UINT32_MAX, &flag) == RPKIRTR_NO_CONNECTION && flag == 0);
    flag = 9;
    EXPECT(rpkirtr_cache_notify(&h, 1, &flag) == RPKIRTR_NO_CONNECTION && flag == 0);
    n = 9;
    EXPECT(rpkirtr_cache_receive(&h, 1, reset_query, sizeof reset_query, &n) == RPKIRTR_NO_CONNECTION && n == 0);
    n = 9;
    EXPECT(rpkirtr_cache_pull(&h, 1, NULL, 0, &n) == RPKIRTR_NO_CONNECTION && n == 0);
    EXPECT(rpkirtr_cache_open(&h, &conn) == RPKIRTR_OK && conn == 1);
    EXPECT(rpkirtr_cache_open(&h, &conn) == RPKIRTR_OK && conn == 3);
    EXPECT(rpkirtr_cache_free(&h) == RPKIRTR_OK);
}

/* Its serial and how many records it has */
static void expect_current(rpkirtr_cache *h, uint32_t serial, size_t count, int line)
{
    uint32_t told = 9;
    size_t n = 9;
    expect(rpkirtr_cache_current(h, &told, &n) == RPKIRTR_OK && told == serial && n == count, "the current version", line);
}

static void a_cache(void)
{
    static const uint8_t reset_query_0[] = {0, 2, 0, 0, 0, 0, 0, 8}, response_0[] = {0, 3, 3, 4, 0, 0, 0, 8};
    static const uint8_t notify[] = {1, 0, 1, 2, 0, 0, 0, 12, 0, 0, 0, 8}, serial_query[] = {1, 1, 1, 2, 0, 0, 0, 12, 0, 0, 0, 7};
    static const uint8_t changed[] = {
        1, 3, 1, 2, 0, 0, 0, 8,
        1, 6, 0, 0, 0, 0, 0, 32, 0, 32, 48, 0, 0x20, 0x01, 0x0d, 0xb8, 0, 0, 0, 0, 0, 0, 0, 0, 0, 0, 0, 0, 0, 0, 251, 241,
        1, 7, 1, 2, 0, 0, 0, 24, 0, 0, 0, 8, 0, 0, 14, 16, 0, 0, 2, 88, 0, 0, 28, 32,
    };
    static const uint8_t unknown[] = {1, 99, 0, 0, 0, 0, 0, 8};
    rpkirtr_cache h = RPKIRTR_EMPTY_INIT;
    rpkirtr_router r = RPKIRTR_EMPTY_INIT;
    rpkirtr_committed committed;
    rpkirtr_record records[3];
    uint8_t room[128], flag = 9;
    uint32_t fault, serial = 9, first = 9, second = 9, third = 9;
    size_t n = 9, taken = 9;
    records[0] = record(6, DB8, 4, 32, 48, 64497);
    records[1] = record(4, NET_10, 4, 8, 16, 64496);
    records[2] = records[0];
    EXPECT(rpkirtr_cache_new(&h, 258, 772, 7, 16, 3600, 600, 7200, &fault) == RPKIRTR_OK);
    EXPECT(rpkirtr_cache_current(&h, &serial, &n) == RPKIRTR_NO_DATA && serial == 0 && n == 0);
    EXPECT(rpkirtr_cache_open(&h, &first) == RPKIRTR_OK && rpkirtr_cache_open(&h, &second) == RPKIRTR_OK);
    EXPECT(rpkirtr_cache_notify(&h, first, &flag) == RPKIRTR_OK && flag == 0);
    EXPECT(rpkirtr_cache_receive(&h, second, reset_query, sizeof reset_query, &n) == RPKIRTR_OK && n == 8);
    EXPECT(rpkirtr_cache_pull(&h, second, room, sizeof room, &n) == RPKIRTR_OK && n >= 16 && room[1] == 10 && room[3] == 2);
    EXPECT(rpkirtr_cache_close(&h, second) == RPKIRTR_OK);
    records[2].max_len = 31;
    EXPECT(rpkirtr_cache_publish(&h, records, 3, &n, &flag) == RPKIRTR_BAD_RECORD && n == 2 && flag == 0);
    EXPECT(rpkirtr_cache_current(&h, &serial, &n) == RPKIRTR_NO_DATA);
    records[2] = records[0];
    EXPECT(rpkirtr_cache_publish(&h, records, 3, &n, &flag) == RPKIRTR_OK && n == 0 && flag == 0);
    expect_current(&h, 7, 2, __LINE__);
    EXPECT(rpkirtr_cache_publish(&h, records, 2, &n, &flag) == RPKIRTR_OK && n == 0 && flag == 1);
    expect_current(&h, 7, 2, __LINE__);
    EXPECT(rpkirtr_cache_has_bytes(&h, first, &flag) == RPKIRTR_OK && flag == 0);
    EXPECT(rpkirtr_cache_receive(&h, first, reset_query, 3, &n) == RPKIRTR_OK && n == 3);
    EXPECT(rpkirtr_cache_receive(&h, first, reset_query + 3, 5, &n) == RPKIRTR_OK && n == 5);
    EXPECT(rpkirtr_cache_has_bytes(&h, first, &flag) == RPKIRTR_OK && flag == 1);
    EXPECT(rpkirtr_cache_receive(&h, first, reset_query, sizeof reset_query, &n) == RPKIRTR_OK && n == 0);
    EXPECT(rpkirtr_cache_pull(&h, first, room, 5, &n) == RPKIRTR_OK && n == 5 && memcmp(room, answer, 5) == 0);
    EXPECT(rpkirtr_cache_notify(&h, first, &flag) == RPKIRTR_OK && flag == 0);
    EXPECT(rpkirtr_cache_pull(&h, first, room, sizeof room, &n) == RPKIRTR_OK && n == sizeof answer - 5 && memcmp(room, answer + 5, n) == 0);
    EXPECT(rpkirtr_cache_open(&h, &third) == RPKIRTR_OK && third == second);
    EXPECT(rpkirtr_cache_receive(&h, third, reset_query_0, sizeof reset_query_0, &n) == RPKIRTR_OK && n == 8);
    EXPECT(rpkirtr_cache_pull(&h, third, room, sizeof room, &n) == RPKIRTR_OK && n > 8 && memcmp(room, response_0, 8) == 0);
    EXPECT(rpkirtr_cache_publish(&h, records + 1, 1, &n, &flag) == RPKIRTR_OK && flag == 0);
    expect_current(&h, 8, 1, __LINE__);
    EXPECT(rpkirtr_cache_notify(&h, first, &flag) == RPKIRTR_OK && flag == 1);
    EXPECT(rpkirtr_cache_pull(&h, first, room, sizeof room, &n) == RPKIRTR_OK && n == sizeof notify && memcmp(room, notify, n) == 0);
    EXPECT(rpkirtr_cache_receive(&h, first, serial_query, sizeof serial_query, &n) == RPKIRTR_OK && n == 12);
    EXPECT(rpkirtr_cache_pull(&h, first, room, sizeof room, &n) == RPKIRTR_OK && n == sizeof changed && memcmp(room, changed, n) == 0);
    EXPECT(rpkirtr_cache_receive(&h, first, unknown, sizeof unknown, &n) == RPKIRTR_OK && n > 0);
    EXPECT(rpkirtr_cache_is_open(&h, first, &flag) == RPKIRTR_OK && flag == 0);
    EXPECT(rpkirtr_cache_pull(&h, first, room, sizeof room, &n) == RPKIRTR_OK && n >= 16 && room[1] == 10 && room[3] == 5);
    EXPECT(rpkirtr_cache_receive(&h, first, reset_query, sizeof reset_query, &n) == RPKIRTR_OK && n == 0);
    EXPECT(rpkirtr_cache_close(&h, first) == RPKIRTR_OK);
    /* both ends of the library */
    EXPECT(rpkirtr_cache_open(&h, &first) == RPKIRTR_OK && first == 0);
    EXPECT(rpkirtr_router_new(&r) == RPKIRTR_OK && rpkirtr_router_connect(&r, 100) == RPKIRTR_OK);
    EXPECT(rpkirtr_router_pull(&r, room, sizeof room, &n) == RPKIRTR_OK);
    EXPECT(rpkirtr_cache_receive(&h, first, room, n, &taken) == RPKIRTR_OK && taken == n);
    EXPECT(rpkirtr_cache_pull(&h, first, room, sizeof room, &n) == RPKIRTR_OK);
    EXPECT(rpkirtr_router_receive(&r, room, n, 101, &taken) == RPKIRTR_OK && taken == n);
    EXPECT(rpkirtr_router_committed(&r, &committed) == RPKIRTR_OK && committed.session == 258 && committed.serial == 8 && committed.version == 1);
    EXPECT(rpkirtr_router_free(&r) == RPKIRTR_OK);
    EXPECT(rpkirtr_cache_free(&h) == RPKIRTR_OK && h.opaque_ == NULL);
}

/* Hands the whole answer to a router that has connected at 100. */
static void answered(rpkirtr_router *h)
{
    uint8_t room[64];
    size_t n;
    EXPECT(rpkirtr_router_connect(h, 100) == RPKIRTR_OK);
    EXPECT(rpkirtr_router_pull(h, room, sizeof room, &n) == RPKIRTR_OK && n == 8);
    EXPECT(rpkirtr_router_receive(h, answer, sizeof answer, 101, &n) == RPKIRTR_OK);
}

/* A router with intervals of its own, which keeps refresh and expire. What is refused changes nothing. */
static void a_configured_router(void)
{
    rpkirtr_router h = RPKIRTR_EMPTY_INIT;
    rpkirtr_config config = RPKIRTR_CONFIG_INIT, told = RPKIRTR_CONFIG_INIT;
    rpkirtr_committed committed;
    uint64_t at;
    uint32_t fault = 9;
    EXPECT(rpkirtr_router_configure(&h, &config, &fault) == RPKIRTR_EMPTY && fault == 0);
    EXPECT(rpkirtr_router_config(&h, &told) == RPKIRTR_EMPTY && memcmp(&told, &config, sizeof told) == 0);
    EXPECT(rpkirtr_router_new(&h) == RPKIRTR_OK);
    EXPECT(rpkirtr_router_config(&h, &told) == RPKIRTR_OK && memcmp(&told, &config, sizeof told) == 0);
    config.keeps_refresh = config.keeps_expire = 1;
    config.refresh = 60;
    config.size_ = 20;
    fault = 9;
    EXPECT(rpkirtr_router_configure(&h, &config, &fault) == RPKIRTR_BAD_STRUCTURE && fault == 0);
    config.size_ = sizeof config;
    config.zero_ = 1;
    EXPECT(rpkirtr_router_configure(&h, &config, &fault) == RPKIRTR_BAD_STRUCTURE && fault == 0);
    config.zero_ = 0;
    config.retry = 7201;
    EXPECT(rpkirtr_router_configure(&h, &config, &fault) == RPKIRTR_BAD_TIMING && fault == RPKIRTR_TIMING_RANGE);
    config.retry = 7200;
    EXPECT(rpkirtr_router_configure(&h, &config, &fault) == RPKIRTR_BAD_TIMING && fault == RPKIRTR_TIMING_EXPIRE);
    config.most = 0;
    EXPECT(rpkirtr_router_configure(&h, &config, &fault) == RPKIRTR_RANGE && fault == 0);
    config.most = 16777215;
    EXPECT(rpkirtr_router_config(&h, &told) == RPKIRTR_OK && told.refresh == 3600 && told.keeps_refresh == 0);
    told.size_ = 8;
    told.refresh = 7;
    EXPECT(rpkirtr_router_config(&h, &told) == RPKIRTR_BAD_STRUCTURE && told.size_ == 8 && told.refresh == 7);
    told.size_ = sizeof told;
    config.expire = 7201;
    EXPECT(rpkirtr_router_configure(&h, &config, &fault) == RPKIRTR_OK && fault == 0);
    EXPECT(rpkirtr_router_config(&h, &told) == RPKIRTR_OK && memcmp(&told, &config, sizeof told) == 0);
    EXPECT(rpkirtr_router_connect(&h, 10) == RPKIRTR_OK && rpkirtr_router_connection_closed(&h, 20) == RPKIRTR_OK);
    EXPECT(rpkirtr_router_next_query_at(&h, &at) == RPKIRTR_OK && at == 20 + 7200);
    answered(&h);
    EXPECT(rpkirtr_router_committed(&h, &committed) == RPKIRTR_OK && committed.is_committed == 1);
    EXPECT(committed.refresh == 60 && committed.retry == 600 && committed.expire == 7201);
    EXPECT(rpkirtr_router_wake_at(&h, &at) == RPKIRTR_OK && at == 101 + 60);
    EXPECT(rpkirtr_router_free(&h) == RPKIRTR_OK);
}

/* The loop of a caller whose connections fail: the next attempt is one retry interval later, before a first connection and after one. */
static void a_router_that_fails_to_connect(void)
{
    rpkirtr_router h = RPKIRTR_EMPTY_INIT;
    rpkirtr_config config = RPKIRTR_CONFIG_INIT;
    rpkirtr_link link;
    uint64_t at = 9, next;
    uint32_t fault;
    EXPECT(rpkirtr_router_connect_failed(&h, 100, &at) == RPKIRTR_EMPTY && at == RPKIRTR_NEVER);
    EXPECT(rpkirtr_router_new(&h) == RPKIRTR_OK);
    EXPECT(rpkirtr_router_connect_failed(&h, 100, &at) == RPKIRTR_OK && at == 700);
    EXPECT(rpkirtr_router_next_query_at(&h, &next) == RPKIRTR_OK && next == RPKIRTR_NEVER);
    EXPECT(rpkirtr_router_connect_failed(&h, at, &at) == RPKIRTR_OK && at == 1300);
    EXPECT(rpkirtr_router_connect(&h, at) == RPKIRTR_OK && rpkirtr_router_connection_closed(&h, at) == RPKIRTR_OK);
    EXPECT(rpkirtr_router_next_query_at(&h, &at) == RPKIRTR_OK && at == 1900);
    EXPECT(rpkirtr_router_connect_failed(&h, at, &at) == RPKIRTR_OK && at == 2500);
    config.retry = 30;
    EXPECT(rpkirtr_router_configure(&h, &config, &fault) == RPKIRTR_OK);
    EXPECT(rpkirtr_router_connect_failed(&h, at, &at) == RPKIRTR_OK && at == 2530);
    answered(&h);
    EXPECT(rpkirtr_router_connection_closed(&h, 3000) == RPKIRTR_OK);
    EXPECT(rpkirtr_router_connect_failed(&h, 3000, &at) == RPKIRTR_OK && at == 3600);
    EXPECT(rpkirtr_router_connect_failed(&h, RPKIRTR_NEVER - 1, &at) == RPKIRTR_OK && at == RPKIRTR_NEVER);
    EXPECT(rpkirtr_router_link(&h, &link) == RPKIRTR_OK && link.state == RPKIRTR_CLOSED);
    EXPECT(rpkirtr_router_free(&h) == RPKIRTR_OK);
}

/* An answer of two records ends the link of a router that may hold one. One that may hold two commits it. */
static void a_router_of_one_record(void)
{
    uint32_t most;
    for (most = 1; most <= 2; most++) {
        rpkirtr_router h = RPKIRTR_EMPTY_INIT;
        rpkirtr_config config = RPKIRTR_CONFIG_INIT;
        rpkirtr_link link;
        uint32_t fault;
        size_t n = 9;
        config.most = most;
        EXPECT(rpkirtr_router_new(&h) == RPKIRTR_OK && rpkirtr_router_configure(&h, &config, &fault) == RPKIRTR_OK);
        answered(&h);
        EXPECT(rpkirtr_router_link(&h, &link) == RPKIRTR_OK);
        EXPECT(most == 1 ? link.state == RPKIRTR_ENDED && link.end == RPKIRTR_END_TOO_MANY : link.state == RPKIRTR_IDLE);
        EXPECT(rpkirtr_router_count(&h, &n) == RPKIRTR_OK && n == (most == 1 ? 0 : 2));
        EXPECT(rpkirtr_router_free(&h) == RPKIRTR_OK);
    }
}

static void expect_carried(const rpkirtr_carried *carried, uint64_t bytes, const uint64_t *pdus, int line)
{
    static const uint8_t zero[5] = {0};
    expect(carried->bytes == bytes, "bytes", line);
    expect(memcmp(carried->pdus, pdus, sizeof carried->pdus) == 0, "PDUs", line);
    expect(memcmp(carried->zero_, zero, sizeof zero) == 0, "padding", line);
}
#define CARRIED(carried, bytes, pdus) expect_carried(&(carried), bytes, pdus, __LINE__)

static void expect_report(const rpkirtr_carried *carried, uint8_t has, uint16_t code, const char *text, int line)
{
    size_t k;
    expect(carried->has_report == has && carried->code == code, "report", line);
    expect(strcmp(carried->text.text, text) == 0, "text", line);
    for (k = strlen(text); k < sizeof carried->text.text; k++)
        expect(carried->text.text[k] == 0, "text", line);
}
#define REPORT(carried, has, code, text) expect_report(&(carried), has, code, text, __LINE__)

static const uint64_t no_pdus[11] = {0};

/* What a router's latest connection carried: what was taken, not what was handed over, and what was pulled, not what there was room for. */
static void a_router_tells_its_traffic(void)
{
    static const uint64_t answered_pdus[11] = {0, 0, 0, 1, 1, 0, 1, 1, 0, 0, 0}, queried[11] = {0, 0, 1}, told[11] = {1, 0, 0, 1, 1, 0, 1, 1, 0, 0, 0};
    static const uint64_t asked_twice[11] = {0, 1, 1};
    uint8_t notified[12 + 8] = {1, 0, 1, 2, 0, 0, 0, 12, 0, 0, 0, 8, 1, 8, 0, 0, 0, 0, 0, 8}, room[64];
    rpkirtr_router h = RPKIRTR_EMPTY_INIT;
    rpkirtr_traffic traffic, zero = RPKIRTR_TRAFFIC_INIT, other;
    size_t n;
    memset(&traffic, 7, sizeof traffic);
    other = traffic;
    EXPECT(rpkirtr_router_traffic(&h, &traffic) == RPKIRTR_EMPTY && memcmp(&traffic, &other, sizeof traffic) == 0);
    traffic.size_ = sizeof traffic;
    EXPECT(rpkirtr_router_traffic(&h, &traffic) == RPKIRTR_EMPTY && memcmp(&traffic, &zero, sizeof traffic) == 0);
    EXPECT(rpkirtr_router_new(&h) == RPKIRTR_OK);
    for (other.size_ = 340; other.size_ <= 348; other.size_ += 8) {
        traffic = other;
        EXPECT(rpkirtr_router_traffic(&h, &traffic) == RPKIRTR_BAD_STRUCTURE && memcmp(&traffic, &other, sizeof traffic) == 0);
    }
    memset(&traffic, 7, sizeof traffic);
    traffic.size_ = sizeof traffic;
    EXPECT(rpkirtr_router_traffic(&h, &traffic) == RPKIRTR_OK && memcmp(&traffic, &zero, sizeof traffic) == 0);
    EXPECT(rpkirtr_router_receive(&h, answer, sizeof answer, 1, &n) == RPKIRTR_OK && n == 0);
    EXPECT(rpkirtr_router_traffic(&h, &traffic) == RPKIRTR_OK && memcmp(&traffic, &zero, sizeof traffic) == 0);
    EXPECT(rpkirtr_router_connect(&h, 100) == RPKIRTR_OK);
    EXPECT(rpkirtr_router_receive(&h, answer, sizeof answer, 100, &n) == RPKIRTR_OK && n == 0);
    EXPECT(rpkirtr_router_pull(&h, room, 3, &n) == RPKIRTR_OK && n == 3);
    EXPECT(rpkirtr_router_traffic(&h, &traffic) == RPKIRTR_OK);
    CARRIED(traffic.received, 0, no_pdus);
    CARRIED(traffic.sent, 3, no_pdus);
    EXPECT(rpkirtr_router_pull(&h, room, sizeof room, &n) == RPKIRTR_OK && n == 5);
    EXPECT(rpkirtr_router_receive(&h, answer, sizeof answer - 1, 101, &n) == RPKIRTR_OK && n == sizeof answer - 1);
    EXPECT(rpkirtr_router_receive(&h, answer + n, 1, 101, &n) == RPKIRTR_OK && n == 1);
    EXPECT(rpkirtr_router_traffic(&h, &traffic) == RPKIRTR_OK && traffic.size_ == sizeof traffic && traffic.zero_ == 0);
    CARRIED(traffic.received, sizeof answer, answered_pdus);
    REPORT(traffic.received, 0, 0, "");
    CARRIED(traffic.sent, 8, queried);
    EXPECT(rpkirtr_router_receive(&h, notified, sizeof notified, 102, &n) == RPKIRTR_OK && n == 12);
    EXPECT(rpkirtr_router_pull(&h, room, sizeof room, &n) == RPKIRTR_OK && n == 12);
    EXPECT(rpkirtr_router_connection_closed(&h, 103) == RPKIRTR_OK && rpkirtr_router_tick(&h, 104) == RPKIRTR_OK);
    EXPECT(rpkirtr_router_traffic(&h, &traffic) == RPKIRTR_OK);
    CARRIED(traffic.received, sizeof answer + 12, told);
    CARRIED(traffic.sent, 20, asked_twice);
    EXPECT(rpkirtr_router_connect(&h, 105) == RPKIRTR_OK);
    EXPECT(rpkirtr_router_traffic(&h, &traffic) == RPKIRTR_OK && memcmp(&traffic, &zero, sizeof traffic) == 0);
    EXPECT(rpkirtr_router_free(&h) == RPKIRTR_OK);
}

/* An Error Report of code 1, with this text, is handed to a router that has sent its query. */
static void reported(rpkirtr_router *h, const char *text, size_t len)
{
    uint8_t pdu[16 + 255] = {1, 10, 0, 1, 0, 0, 0, 0, 0, 0, 0, 0, 0, 0, 0, 0}, room[64];
    size_t n;
    pdu[6] = (uint8_t)((16 + len) >> 8);
    pdu[7] = (uint8_t)(16 + len);
    pdu[15] = (uint8_t)len;
    memcpy(pdu + 16, text, len);
    EXPECT(rpkirtr_router_connect(h, 100) == RPKIRTR_OK);
    EXPECT(rpkirtr_router_pull(h, room, sizeof room, &n) == RPKIRTR_OK);
    EXPECT(rpkirtr_router_receive(h, pdu, 16 + len, 101, &n) == RPKIRTR_OK && n == 16 + len);
}

/* The texts of the Error Reports that came, and the code of one that was sent */
static void a_router_tells_reports(void)
{
    static const uint64_t one_report[11] = {0, 0, 0, 0, 0, 0, 0, 0, 0, 0, 1};
    static const uint8_t second[8] = {1, 3, 1, 2, 0, 0, 0, 9};
    rpkirtr_router h = RPKIRTR_EMPTY_INIT;
    rpkirtr_traffic traffic = RPKIRTR_TRAFFIC_INIT;
    rpkirtr_link link;
    uint8_t room[256];
    char text[255], wanted[64] = {0};
    size_t n;
    memset(text, 'x', sizeof text);
    EXPECT(rpkirtr_router_new(&h) == RPKIRTR_OK);
    reported(&h, "no such session", 15);
    EXPECT(rpkirtr_router_traffic(&h, &traffic) == RPKIRTR_OK);
    CARRIED(traffic.received, 16 + 15, one_report);
    REPORT(traffic.received, 1, 1, "no such session");
    REPORT(traffic.sent, 0, 0, "");
    reported(&h, "a\ttab and a line\nanother", 24);
    EXPECT(rpkirtr_router_traffic(&h, &traffic) == RPKIRTR_OK);
    REPORT(traffic.received, 1, 1, "a");
    for (n = 62; n <= 64; n++) {
        reported(&h, text, n);
        memset(wanted, 'x', n < 63 ? n : 63);
        EXPECT(rpkirtr_router_traffic(&h, &traffic) == RPKIRTR_OK);
        REPORT(traffic.received, 1, 1, wanted);
    }
    reported(&h, text, sizeof text);
    EXPECT(rpkirtr_router_traffic(&h, &traffic) == RPKIRTR_OK);
    REPORT(traffic.received, 1, 1, wanted);
    EXPECT(rpkirtr_router_connect(&h, 200) == RPKIRTR_OK);
    EXPECT(rpkirtr_router_pull(&h, room, sizeof room, &n) == RPKIRTR_OK && n == 8);
    EXPECT(rpkirtr_router_receive(&h, second, sizeof second, 201, &n) == RPKIRTR_OK && n == sizeof second);
    EXPECT(rpkirtr_router_pull(&h, room, sizeof room, &n) == RPKIRTR_OK && n > 16 && room[1] == 10);
    EXPECT(rpkirtr_router_link(&h, &link) == RPKIRTR_OK && link.end == RPKIRTR_END_REPORT_SENT);
    EXPECT(rpkirtr_router_traffic(&h, &traffic) == RPKIRTR_OK && traffic.sent.bytes == 8 + n);
    EXPECT(traffic.sent.has_report == 1 && traffic.sent.code == link.code && link.code == room[3] && traffic.sent.pdus[10] == 1);
    EXPECT(traffic.received.has_report == 0 && traffic.received.bytes == sizeof second);
    EXPECT(rpkirtr_router_free(&h) == RPKIRTR_OK);
}

int main(void)
{
    texts();
    names();
    empty_handles();
    a_router();
    a_configured_router();
    a_router_that_fails_to_connect();
    a_router_of_one_record();
    a_router_tells_its_traffic();
    a_router_tells_reports();
    an_index();
    a_shared_index();
    an_index_of_lists();
    a_roa();
    a_manifest();
    an_empty_cache();
    the_settings_of_a_cache();
    the_numbers_of_connections();
    a_cache();
    return faults != 0;
}
