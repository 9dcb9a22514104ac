/* random_calls SEED COUNT: so many random calls in random order on handles that are live, empty or freed. Each answers a status of its
 * own, and none does harm: run it under AddressSanitizer. */
#include "rpkirtr.h"

#include <stdio.h>
#include <stdlib.h>
#include <string.h>

static uint64_t seed;

static uint32_t below(uint32_t most)
{
    seed ^= seed << 13;
    seed ^= seed >> 7;
    seed ^= seed << 17;
    return (uint32_t)(seed >> 32) % most;
}

static void fill(uint8_t *bytes, size_t len)
{
    size_t k;
    for (k = 0; k < len; k++)
        bytes[k] = below(3) == 0 ? (uint8_t)below(256) : (uint8_t)below(3);
}

/* A record that is one in three of four cases */
static rpkirtr_record a_record(void)
{
    rpkirtr_record r;
    memset(&r, 0, sizeof r);
    r.family = below(2) == 0 ? 4 : 6;
    r.addr[0] = (uint8_t)below(4);
    r.len = (uint8_t)(8 + below(3));
    r.max_len = (uint8_t)(r.len + below(20));
    r.asn = below(5);
    if (below(4) == 0)
        fill((uint8_t *)&r, sizeof r);
    return r;
}

static rpkirtr_route a_route(void)
{
    rpkirtr_record record = a_record();
    rpkirtr_route r;
    memcpy(&r, &record, sizeof r);
    r.has_origin = (uint8_t)below(2);
    return r;
}

/* Bytes of a cache: an answer of a few records, or anything */
static size_t an_answer(uint8_t *bytes)
{
    static const uint8_t begin[] = {1, 3, 0, 1, 0, 0, 0, 8};
    static const uint8_t end[] = {1, 7, 0, 1, 0, 0, 0, 24, 0, 0, 0, 1, 0, 0, 0, 9, 0, 0, 0, 5, 0, 0, 2, 88};
    size_t len = 0;
    uint32_t k, count = below(9);
    if (below(40) == 0) {
        len = below(120);
        fill(bytes, len);
        return len;
    }
    memcpy(bytes, begin, sizeof begin);
    len += sizeof begin;
    for (k = 0; k < count; k++) {
        uint8_t pdu[20] = {1, 4, 0, 0, 0, 0, 0, 20, 1, 8, 16, 0, 0, 0, 0, 0, 0, 0, 0, 0};
        pdu[8] = below(30) != 0;
        pdu[12] = (uint8_t)below(250);
        pdu[19] = (uint8_t)below(4);
        memcpy(bytes + len, pdu, sizeof pdu);
        len += sizeof pdu;
    }
    memcpy(bytes + len, end, sizeof end);
    bytes[len + 11] = (uint8_t)below(9);
    return len + sizeof end;
}

static void judge(rpkirtr_status status, rpkirtr_status most)
{
    if (status < RPKIRTR_OK || status > most) {
        fprintf(stderr, "status %d\n", (int)status);
        exit(1);
    }
}

static void a_router_call(rpkirtr_router *h, uint64_t now)
{
    uint8_t bytes[512];
    rpkirtr_record room[4];
    rpkirtr_route route = a_route();
    rpkirtr_state state;
    rpkirtr_link link;
    rpkirtr_committed committed;
    rpkirtr_config config = RPKIRTR_CONFIG_INIT;
    rpkirtr_traffic traffic = RPKIRTR_TRAFFIC_INIT;
    uint32_t fault;
    uint64_t at;
    size_t n = 99, m = 99, len;
    switch (below(22)) {
    case 0:
        if (below(10) == 0)
            judge(rpkirtr_router_free(h), RPKIRTR_EMPTY);
        break;
    case 1: case 2: judge(rpkirtr_router_new(h), RPKIRTR_NO_MEMORY); break;
    case 3: judge(rpkirtr_router_speak(h, (uint8_t)below(3)), RPKIRTR_BAD_VERSION); break;
    case 4: judge(rpkirtr_router_connect(h, now), RPKIRTR_EMPTY); break;
    case 5: case 6: case 7: case 8:
        len = an_answer(bytes);
        judge(rpkirtr_router_receive(h, bytes, len, now, &n), RPKIRTR_EMPTY);
        if (n > len)
            abort();
        break;
    case 9: case 10:
        len = below(40);
        judge(rpkirtr_router_pull(h, bytes, len, &n), RPKIRTR_EMPTY);
        if (n > len)
            abort();
        break;
    case 11: judge(rpkirtr_router_connection_closed(h, now), RPKIRTR_EMPTY); judge(rpkirtr_router_connect_failed(h, now, &at), RPKIRTR_EMPTY); break;
    case 12: judge(rpkirtr_router_tick(h, now), RPKIRTR_EMPTY); break;
    case 13: judge(rpkirtr_router_ask(h), RPKIRTR_BUSY); break;
    case 14: judge(rpkirtr_router_next_query_at(h, &at), RPKIRTR_EMPTY); judge(rpkirtr_router_wake_at(h, &at), RPKIRTR_EMPTY); judge(rpkirtr_router_link(h, &link), RPKIRTR_EMPTY); break;
    case 15: judge(rpkirtr_router_committed(h, &committed), RPKIRTR_EMPTY); judge(rpkirtr_router_count(h, &n), RPKIRTR_EMPTY); break;
    case 16:
        if (rpkirtr_router_state(h, &route, &state) != RPKIRTR_OK && state != RPKIRTR_NOT_FOUND)
            abort();
        break;
    case 17: judge(rpkirtr_router_record(h, below(6), room), RPKIRTR_RANGE); judge(rpkirtr_router_records(h, below(6), room, below(5), &n), RPKIRTR_EMPTY); break;
    case 18: judge(rpkirtr_router_covering(h, &route, room, below(5), &n), RPKIRTR_BAD_ROUTE); break;
    case 19:
        config.most = (uint32_t)below(5);
        config.keeps_expire = (uint8_t)below(2);
        config.expire = (uint32_t)below(8000);
        config.zero_ = below(10) == 0;
        judge(rpkirtr_router_configure(h, &config, &fault), RPKIRTR_BAD_STRUCTURE);
        if (below(10) == 0)
            config.size_ = (uint32_t)below(30);
        judge(rpkirtr_router_config(h, &config), RPKIRTR_BAD_STRUCTURE);
        break;
    case 20:
        if (below(10) == 0)
            traffic.size_ = (uint32_t)below(400);
        judge(rpkirtr_router_traffic(h, &traffic), RPKIRTR_BAD_STRUCTURE);
        if (traffic.received.text.text[63] != 0 || traffic.sent.text.text[63] != 0)
            abort();
        break;
    default:
        judge(rpkirtr_router_changes_begin(h, &n, &m), RPKIRTR_NO_MEMORY);
        judge(rpkirtr_router_withdrawn(h, below(3), room, below(5), &n), RPKIRTR_EMPTY);
        judge(rpkirtr_router_announced(h, below(3), room, below(5), &n), RPKIRTR_EMPTY);
        if (below(2) == 0)
            judge(rpkirtr_router_changes_taken(h), RPKIRTR_EMPTY);
    }
}

static void an_index_call(rpkirtr_index *h, rpkirtr_index *other, rpkirtr_router *from)
{
    rpkirtr_record records[6];
    rpkirtr_list lists[3];
    rpkirtr_text text;
    rpkirtr_route route = a_route();
    rpkirtr_state state;
    size_t n = 99, m = 99, k, count = below(7);
    for (k = 0; k < count; k++)
        records[k] = a_record();
    for (k = 0; k < 3; k++) {
        lists[k].records = records + count / 3 * k;
        lists[k].records_len = count / 3;
    }
    switch (below(9)) {
    case 8: judge(rpkirtr_index_share(other, h), RPKIRTR_NO_MEMORY); break;
    case 5: judge(rpkirtr_index_new_of(h, lists, below(4), &m, &n), RPKIRTR_RANGE); break;
    case 6: judge(rpkirtr_router_index(from, h), RPKIRTR_NO_MEMORY); break;
    case 7:
        judge(rpkirtr_strerror((rpkirtr_status)below(20) - 5, &text), RPKIRTR_OK);
        judge(rpkirtr_state_name((rpkirtr_state)below(9) - 3, &text), RPKIRTR_OK);
        judge(rpkirtr_link_name((uint8_t)below(9), &text), RPKIRTR_OK);
        judge(rpkirtr_end_name((uint8_t)below(9), &text), RPKIRTR_OK);
        judge(rpkirtr_fault_name(below(25), &text), RPKIRTR_OK);
        break;
    case 0: judge(rpkirtr_index_free(h), RPKIRTR_EMPTY); break;
    case 1: judge(rpkirtr_index_new(h, records, count, &n), RPKIRTR_RANGE); break;
    case 2: judge(rpkirtr_index_count(h, &n), RPKIRTR_EMPTY); break;
    case 3:
        if (rpkirtr_index_state(h, &route, &state) != RPKIRTR_OK && state != RPKIRTR_NOT_FOUND)
            abort();
        break;
    default: judge(rpkirtr_index_covering(h, &route, records, below(7), &n), RPKIRTR_BAD_ROUTE);
    }
}

static void a_roa_call(rpkirtr_roa *h)
{
    static const uint8_t good[] = {
        0x30, 0x18, 0x02, 0x03, 0x00, 0xfb, 0xf0, 0x30, 0x11, 0x30, 0x0f, 0x04, 0x02, 0x00, 0x01, 0x30, 0x09, 0x30, 0x07,
        0x03, 0x02, 0x00, 0x0a, 0x02, 0x01, 0x10,
    };
    uint8_t bytes[sizeof good];
    rpkirtr_record room[4];
    rpkirtr_fault fault;
    uint32_t asn;
    size_t n = 99;
    switch (below(5)) {
    case 0: judge(rpkirtr_roa_free(h), RPKIRTR_EMPTY); break;
    case 1: judge(rpkirtr_roa_asn(h, &asn), RPKIRTR_EMPTY); judge(rpkirtr_roa_count(h, &n), RPKIRTR_EMPTY); break;
    case 2: judge(rpkirtr_roa_records(h, below(3), room, below(5), &n), RPKIRTR_EMPTY); break;
    default:
        memcpy(bytes, good, sizeof good);
        if (below(2) == 0)
            bytes[below(sizeof good)] = (uint8_t)below(256);
        judge(rpkirtr_roa_new(h, bytes, below(8) == 0 ? below(sizeof good) : sizeof good, &fault), RPKIRTR_BAD_PAYLOAD);
    }
}

static void a_manifest_call(rpkirtr_manifest *h)
{
    static const uint8_t begin[] = {0x30, 0x5e, 0x02, 0x01, 0x01}, end[] = {
        0x06, 0x09, 0x60, 0x86, 0x48, 0x01, 0x65, 0x03, 0x04, 0x02, 0x01, 0x30, 0x2c, 0x30, 0x2a, 0x16, 0x05, 'a', '.', 'c', 'r', 'l', 0x03, 0x21, 0x00,
    };
    uint8_t bytes[96], room[8];
    rpkirtr_fault fault;
    rpkirtr_digest digest;
    uint64_t at, next;
    size_t n = 99;
    switch (below(6)) {
    case 0: judge(rpkirtr_manifest_free(h), RPKIRTR_EMPTY); break;
    case 1: judge(rpkirtr_manifest_number(h, room, below(9), &n), RPKIRTR_EMPTY); judge(rpkirtr_manifest_times(h, &at, &next), RPKIRTR_EMPTY); break;
    case 2: judge(rpkirtr_manifest_count(h, &n), RPKIRTR_EMPTY); break;
    case 3: judge(rpkirtr_manifest_file(h, below(3), room, below(9), &n, &digest), RPKIRTR_RANGE); break;
    default:
        fill(bytes, sizeof bytes);
        memcpy(bytes, begin, sizeof begin);
        memcpy(bytes + 5, "\x18\x0f" "20250101000000Z", 17);
        memcpy(bytes + 22, "\x18\x0f" "20250102000000Z", 17);
        memcpy(bytes + 39, end, sizeof end);
        if (below(2) == 0)
            bytes[below(sizeof bytes)] = (uint8_t)below(256);
        judge(rpkirtr_manifest_new(h, bytes, below(8) == 0 ? below(sizeof bytes) : sizeof bytes, &fault), RPKIRTR_BAD_PAYLOAD);
    }
}

/* Bytes of a router: a query, or anything */
static size_t a_query(uint8_t *bytes)
{
    static const uint8_t reset[] = {1, 2, 0, 0, 0, 0, 0, 8}, serial[] = {1, 1, 0, 1, 0, 0, 0, 12, 0, 0, 0, 0};
    size_t len = below(20);
    if (below(20) == 0) {
        fill(bytes, len);
        return len;
    }
    len = below(2) == 0 ? sizeof reset : sizeof serial;
    memcpy(bytes, len == sizeof reset ? reset : serial, len);
    bytes[0] = below(5) != 0;
    bytes[len - 1] = len == sizeof reset ? 8 : (uint8_t)below(20);
    return below(10) == 0 ? below((uint32_t)len) : len;
}

static void a_cache_call(rpkirtr_cache *h)
{
    rpkirtr_record records[6];
    uint8_t bytes[200], flag;
    uint32_t conn = below(5), serial, fault;
    size_t n = 99, k, len, count = below(7);
    switch (below(13)) {
    case 0:
        if (below(20) == 0)
            judge(rpkirtr_cache_free(h), RPKIRTR_EMPTY);
        break;
    case 1: judge(rpkirtr_cache_new(h, 1, 2, below(9), below(4), below(4), below(4), 598 + below(9), &fault), RPKIRTR_BAD_KEEP); break;
    case 2:
        for (k = 0; k < count; k++)
            records[k] = a_record();
        judge(rpkirtr_cache_publish(h, records, count, &n, &flag), RPKIRTR_RANGE);
        break;
    case 3: judge(rpkirtr_cache_current(h, &serial, &n), RPKIRTR_NO_DATA); break;
    case 4: case 5:
        if (rpkirtr_cache_open(h, &conn) == RPKIRTR_OK && conn >= 4)
            judge(rpkirtr_cache_close(h, conn), RPKIRTR_OK);
        break;
    case 6: judge(rpkirtr_cache_close(h, conn), RPKIRTR_NO_CONNECTION); break;
    case 7: case 8:
        len = a_query(bytes);
        judge(rpkirtr_cache_receive(h, conn, bytes, len, &n), RPKIRTR_NO_CONNECTION);
        if (n > len)
            abort();
        break;
    case 9: case 10:
        len = below(sizeof bytes);
        judge(rpkirtr_cache_pull(h, conn, bytes, len, &n), RPKIRTR_NO_CONNECTION);
        if (n > len)
            abort();
        break;
    case 11: judge(rpkirtr_cache_notify(h, conn, &flag), RPKIRTR_NO_CONNECTION); break;
    default:
        judge(rpkirtr_cache_has_bytes(h, conn, &flag), RPKIRTR_NO_CONNECTION);
        judge(rpkirtr_cache_is_open(h, conn, &flag), RPKIRTR_NO_CONNECTION);
    }
}

int main(int argc, char **argv)
{
    rpkirtr_router routers[3] = {RPKIRTR_EMPTY_INIT, RPKIRTR_EMPTY_INIT, RPKIRTR_EMPTY_INIT};
    rpkirtr_index indexes[2] = {RPKIRTR_EMPTY_INIT, RPKIRTR_EMPTY_INIT};
    rpkirtr_roa roa = RPKIRTR_EMPTY_INIT;
    rpkirtr_manifest manifest = RPKIRTR_EMPTY_INIT;
    rpkirtr_cache caches[2] = {RPKIRTR_EMPTY_INIT, RPKIRTR_EMPTY_INIT};
    unsigned long k, count;
    uint64_t now = 0;
    if (argc != 3)
        return 2;
    seed = strtoull(argv[1], NULL, 10) * 2 + 1;
    count = strtoul(argv[2], NULL, 10);
    for (k = 0; k < count; k++) {
        now += below(100) == 0 ? below(700) : 0;
        if (below(10) == 0)
            a_roa_call(&roa);
        else if (below(10) == 0)
            a_manifest_call(&manifest);
        else if (below(4) == 0)
            a_cache_call(&caches[below(2)]);
        else if (below(4) == 0) {
            uint32_t at = below(2);
            an_index_call(&indexes[at], &indexes[1 - at], &routers[below(3)]);
        } else
            a_router_call(&routers[below(3)], now);
    }
    for (k = 0; k < 3; k++)
        rpkirtr_router_free(&routers[k]);
    for (k = 0; k < 2; k++)
        rpkirtr_index_free(&indexes[k]);
    for (k = 0; k < 2; k++)
        rpkirtr_cache_free(&caches[k]);
    rpkirtr_roa_free(&roa);
    rpkirtr_manifest_free(&manifest);
    return 0;
}
