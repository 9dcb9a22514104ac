/* rpkirtr.h: both ends of the RPKI-to-Router protocol (RFC 6810, RFC 8210), origin validation (RFC 6811), and the payloads of ROAs (RFC 9582) and
 * manifests (RFC 9286).
 *
 * The library does no input or output: the caller owns sockets and clocks. It passes the bytes that it received to the library, and sends the
 * bytes that it pulls. A time is in seconds of one clock that the caller chooses. Times never go back, and are below RPKIRTR_NEVER.
 *
 * What the caller must keep, which no proof covers:
 * - A handle begins as RPKIRTR_EMPTY_INIT and is changed by these functions alone. It is never copied: only its address is passed.
 * - One call at a time is made on a handle. Calls on different handles may run at once, also on handles of one index that
 *   rpkirtr_index_share made. A handle may be used by one thread after another, except that of a cache, which stays on the thread that made
 *   it. No call is made in a signal handler.
 * - A call of a `const` handle does not write the handle. Such calls on one handle of a router, index, ROA or manifest may also run at
 *   once, while no other call is made on it: this is tested. What is proved is one call at a time, so one handle for each thread.
 * - Pointers are not NULL, and point to as many valid elements as the length beside them says. They are aligned as their types want. A
 *   pointer may be NULL if its length is 0. An output overlaps neither another argument nor the records of a list.
 * - malloc, realloc and free are of one allocator, and align as C wants.
 *
 * Each call except rpkirtr_abi_version returns a status, and writes all its outputs whatever it returns. The elements of a buffer after those
 * copied are left unchanged. A structure with a wrong `size_` is not written.
 */
#ifndef RPKIRTR_H
#define RPKIRTR_H

#include <stddef.h>
#include <stdint.h>

#ifdef __cplusplus
extern "C" {
#endif

/* The status that a call returns. The numbers are fixed. */
typedef int32_t rpkirtr_status;
#define RPKIRTR_OK 0           /* the call did what it says */
#define RPKIRTR_EMPTY 1        /* the handle is empty: it was never made, or was freed */
#define RPKIRTR_LIVE 2         /* the handle is live: it has to be freed first */
#define RPKIRTR_NO_MEMORY 3    /* out of memory; nothing changed */
#define RPKIRTR_BAD_RECORD 4   /* a malformed record */
#define RPKIRTR_BAD_ROUTE 5    /* a malformed route */
#define RPKIRTR_BAD_VERSION 6  /* not a version of the protocol */
#define RPKIRTR_RANGE 7        /* an index at or past the end, too many records or connections, or a router that may hold none */
#define RPKIRTR_NOT_LINKED 8   /* there is no connection, or it has ended */
#define RPKIRTR_BUSY 9         /* a query is outstanding */
#define RPKIRTR_BAD_PAYLOAD 10 /* a malformed payload: `fault` says why */
#define RPKIRTR_BAD_TIMING 11  /* intervals that are not valid: `fault` says why */
#define RPKIRTR_NO_CONNECTION 12 /* no connection of the cache has this number */
#define RPKIRTR_NO_DATA 13     /* nothing is published */
#define RPKIRTR_BAD_KEEP 14    /* 0, or more than 65536, versions to be kept */
#define RPKIRTR_BAD_STRUCTURE 15 /* a structure of another size, or with padding that is not zero */

/* What is at fault in intervals (RFC 8210 section 6) */
#define RPKIRTR_TIMING_RANGE 1  /* an interval is out of its range */
#define RPKIRTR_TIMING_EXPIRE 2 /* the expire interval is not larger than both others */

/* A text that ends with a zero byte. The rest of the array is zero. */
typedef struct rpkirtr_text {
    char text[64];
} rpkirtr_text;

/* The state of a route (RFC 6811 section 2). It is RPKIRTR_NOT_FOUND whenever the status is not RPKIRTR_OK. */
typedef int32_t rpkirtr_state;
#define RPKIRTR_NOT_FOUND 0
#define RPKIRTR_VALID 1
#define RPKIRTR_INVALID 2

/* A validated ROA payload. The address is in network order: IPv4 in the first four bytes, and the rest 0. No bit after the first `len` is
 * set. `family` is 4 or 6, `len` is at most `max_len`, which is at most 32 or 128, and `zero_` is 0. */
typedef struct rpkirtr_record {
    uint8_t addr[16];
    uint32_t asn;
    uint8_t family;
    uint8_t len;
    uint8_t max_len;
    uint8_t zero_;
} rpkirtr_record;

/* A route, with the origin NONE if `has_origin` is 0. The prefix is as that of a record, and `zero_` is 0. */
typedef struct rpkirtr_route {
    uint8_t addr[16];
    uint32_t origin;
    uint8_t family;
    uint8_t len;
    uint8_t has_origin;
    uint8_t zero_;
} rpkirtr_route;

/* The link of a router to its cache. If it ended, `end` says how, and `code` is the code of the Error Report (RFC 8210 section 12), if
 * there was one. */
typedef struct rpkirtr_link {
    uint8_t state;
    uint8_t end;
    uint16_t code;
} rpkirtr_link;
#define RPKIRTR_CLOSED 0     /* there is no connection */
#define RPKIRTR_IDLE 1       /* no query is outstanding */
#define RPKIRTR_ASKED 2      /* a query is outstanding */
#define RPKIRTR_ANSWERING 3  /* an answer has begun */
#define RPKIRTR_ENDED 4      /* it has ended, and the connection has yet to be closed */
#define RPKIRTR_END_REPORT_SENT 1       /* an Error Report of this code was sent */
#define RPKIRTR_END_REPORT_RECEIVED 2   /* an Error Report of this code was received */
#define RPKIRTR_END_MALFORMED 3         /* a malformed Error Report was received */
#define RPKIRTR_END_MEMORY 4            /* out of memory */
#define RPKIRTR_END_EXPIRED 5           /* the committed version expired */
#define RPKIRTR_END_TOO_MANY 6          /* an answer with more records than the router may hold */

/* What a caller configures of a router: intervals of its own, in seconds, whether it keeps each of them, and the most records that it may
 * hold. An interval that is kept holds whatever the cache says. Any other holds if the cache says none: in version 0 of the protocol, and
 * for retry before the first commit. `refresh` is from 1 to 86400, `retry` from 1 to 7200, `expire` from 600 to 172800 and larger than both
 * others. A `most` above 16777215 counts as that, and 0 is refused. `size_` is the size of the structure, `zero_` is 0, and `keeps_` is 0 for no. */
typedef struct rpkirtr_config {
    uint32_t size_;
    uint32_t refresh;
    uint32_t retry;
    uint32_t expire;
    uint32_t most;
    uint8_t keeps_refresh;
    uint8_t keeps_retry;
    uint8_t keeps_expire;
    uint8_t zero_;
} rpkirtr_config;
#define RPKIRTR_CONFIG_INIT {24, 3600, 600, 7200, 16777215, 0, 0, 0, 0}

/* What one direction of a connection carried: its bytes, and its whole PDUs by the number of their type (RFC 8210 section 5). Five is no
 * type, and its count is 0. `has_report` is 1 if an Error Report was among them. The last one has this code (section 12) and this text. The
 * text ends before its first octet below 32, and after 63 octets at the latest: its last character may be cut off. Without a report the code
 * is 0 and the text is empty. A count stops at UINT64_MAX. */
typedef struct rpkirtr_carried {
    uint64_t bytes;
    uint64_t pdus[11];
    rpkirtr_text text;
    uint16_t code;
    uint8_t has_report;
    uint8_t zero_[5];
} rpkirtr_carried;

/* What the latest connection of a router carried: the received bytes that the router consumed, and the bytes that were pulled. `size_` is the
 * size of the structure: the caller sets it before the call. */
typedef struct rpkirtr_traffic {
    uint32_t size_;
    uint32_t zero_;
    rpkirtr_carried received;
    rpkirtr_carried sent;
} rpkirtr_traffic;
#define RPKIRTR_TRAFFIC_INIT {344, 0, {0, {0}, {{0}}, 0, 0, {0}}, {0, {0}, {{0}}, 0, 0, {0}}}

/* The committed version, if `is_committed` is 1; all 0 if nothing is committed. */
typedef struct rpkirtr_committed {
    uint64_t moment;   /* when it was committed */
    uint32_t serial;
    uint32_t refresh;  /* the intervals in force, in seconds */
    uint32_t retry;
    uint32_t expire;
    uint32_t zero_;
    uint16_t session;
    uint8_t version;   /* of the protocol */
    uint8_t is_committed;
} rpkirtr_committed;

/* The time of what never happens */
#define RPKIRTR_NEVER UINT64_MAX

/* A list of records. The pointer may be NULL if the length is 0. */
typedef struct rpkirtr_list {
    const rpkirtr_record *records;
    size_t records_len;
} rpkirtr_list;

/* What is at fault in a payload: the number of the fault, and the offset of the byte at which it shows. All is 0 if nothing is at fault. The
 * numbers of a ROA and of a manifest are:
 * - 1: an element is longer than what holds it.
 * - 2: another element was expected.
 * - 3: a length is indefinite, or not in its shortest form.
 * - 4: the content of an element is not valid.
 * - 5: bytes remain.
 * - 6: a version is encoded, which may only be left out.
 * - 7: the AS number is negative or greater than 4294967295.
 * - 8: the address family is neither IPv4 nor IPv6, or it occurs twice.
 * - 9: no address family, or a family without addresses.
 * - 10: the prefix is longer than an address of its family.
 * - 11: the maximum length is below the prefix length, or greater than the width of the family.
 * - 12: the entries are not in strictly ascending order.
 * - 13: the manifest number is negative, or longer than 20 octets.
 * - 14: nextUpdate is not later than thisUpdate.
 * - 15: the hash algorithm is not SHA-256.
 * - 16: a file name is not letters, digits, `-` or `_`, one dot and three small letters, in all at most 255 octets.
 * - 17: a hash is not 256 bits long.
 * - 18: a file name occurs twice.
 * - 19: more than 65536 entries or files.
 * - 20: the maximum length equals the prefix length, so it has to be left out. */
typedef struct rpkirtr_fault {
    uint64_t offset;
    uint32_t kind;
    uint32_t zero_;
} rpkirtr_fault;

/* A SHA-256 digest */
typedef struct rpkirtr_digest {
    uint8_t octets[32];
} rpkirtr_digest;

typedef struct rpkirtr_router { void *opaque_; } rpkirtr_router;
typedef struct rpkirtr_index { void *opaque_; } rpkirtr_index;
typedef struct rpkirtr_roa { void *opaque_; } rpkirtr_roa;
typedef struct rpkirtr_manifest { void *opaque_; } rpkirtr_manifest;
typedef struct rpkirtr_cache { void *opaque_; } rpkirtr_cache;
#define RPKIRTR_EMPTY_INIT {0}

/* ---- texts and versions */

/* Gets the meaning of a status, in English. Any number is allowed. OK */
rpkirtr_status rpkirtr_strerror(rpkirtr_status status, rpkirtr_text *text);

/* Gets the name of the state of a route: "not-found", "valid" or "invalid". Any number is allowed. OK */
rpkirtr_status rpkirtr_state_name(rpkirtr_state state, rpkirtr_text *text);

/* Gets the name of the state of a link: "closed", "idle", "asked", "answering" or "ended". Any number is allowed. OK */
rpkirtr_status rpkirtr_link_name(uint8_t link, rpkirtr_text *text);

/* Gets how a link ended, in English, without the code of the Error Report. Any number is allowed. OK */
rpkirtr_status rpkirtr_end_name(uint8_t end, rpkirtr_text *text);

/* Gets the meaning of a fault of a payload, in English, by its number. Any number is allowed. OK */
rpkirtr_status rpkirtr_fault_name(uint32_t fault, rpkirtr_text *text);

/* Gets the version of the release: "1.1.0". OK */
rpkirtr_status rpkirtr_version(rpkirtr_text *text);

/* The version of this header. It changes if a program that was compiled with an older header no longer works. */
#define RPKIRTR_ABI_VERSION 0

/* Returns the RPKIRTR_ABI_VERSION of the header that the library was made with. A program needs the one that it was compiled with. */
uint32_t rpkirtr_abi_version(void);

/* ---- a router */

/* Makes a router in an empty handle: nothing is committed, and there is no connection. OK, LIVE, NO_MEMORY */
rpkirtr_status rpkirtr_router_new(rpkirtr_router *h);

/* Frees the router, and empties the handle. OK, EMPTY */
rpkirtr_status rpkirtr_router_free(rpkirtr_router *h);

/* Sets the version of the protocol, 0 or 1, for the next connection and those after it. It is 1 at first. OK, EMPTY, BAD_VERSION */
rpkirtr_status rpkirtr_router_speak(rpkirtr_router *h, uint8_t version);

/* Configures the router, from now on: what is committed keeps its intervals. If the intervals are not valid, `fault` is RPKIRTR_TIMING_RANGE or
 * RPKIRTR_TIMING_EXPIRE, otherwise 0. OK, EMPTY, BAD_STRUCTURE, RANGE if `most` is 0, BAD_TIMING */
rpkirtr_status rpkirtr_router_configure(rpkirtr_router *h, const rpkirtr_config *config, uint32_t *fault);

/* Gets the configuration that was set last, or RPKIRTR_CONFIG_INIT if none was set. If `size_` is not the size of the structure, nothing is
 * written: the caller sets it before the call. OK, EMPTY, BAD_STRUCTURE */
rpkirtr_status rpkirtr_router_config(const rpkirtr_router *h, rpkirtr_config *config);

/* A connection is made, and a query is ready to be pulled. An older connection is closed. OK, EMPTY */
rpkirtr_status rpkirtr_router_connect(rpkirtr_router *h, uint64_t now);

/* Passes received bytes to the router, and writes how many it consumed to `taken`. It consumes none while there are bytes to pull, or if no
 * link is open. It consumes bytes up to the first PDU that gives bytes to send or ends the link. Pass the rest again after a pull.
 * OK, EMPTY */
rpkirtr_status rpkirtr_router_receive(rpkirtr_router *h, const uint8_t *bytes, size_t bytes_len, uint64_t now, size_t *taken);

/* Moves bytes to send into the buffer `room`, as many as fit, and writes their number to `pulled`. OK, EMPTY */
rpkirtr_status rpkirtr_router_pull(rpkirtr_router *h, uint8_t *room, size_t room_len, size_t *pulled);

/* The transport closed the connection. OK, EMPTY */
rpkirtr_status rpkirtr_router_connection_closed(rpkirtr_router *h, uint64_t now);

/* An attempt to connect failed. Gets the time of the next attempt: `now` and the retry interval, which is that of the committed version, or the
 * configured one if nothing is committed. The router stays as it is. OK, EMPTY */
rpkirtr_status rpkirtr_router_connect_failed(const rpkirtr_router *h, uint64_t now, uint64_t *at);

/* Advances the clock. If the records have expired, they are dropped, and a link with an outstanding Serial Query ends. If the query of an
 * idle link is due, it is ready to be pulled. OK, EMPTY */
rpkirtr_status rpkirtr_router_tick(rpkirtr_router *h, uint64_t now);

/* Makes a query ready to be pulled, on an idle link. OK, EMPTY, BUSY, NOT_LINKED */
rpkirtr_status rpkirtr_router_ask(rpkirtr_router *h);

/* Gets the time of the next query on an idle link, or of the next connection attempt on a closed one (RFC 8210 section 6). While a query is
 * outstanding, it may be in the past. It is RPKIRTR_NEVER at first. An attempt to connect that fails does not move it: see
 * rpkirtr_router_connect_failed. OK, EMPTY */
rpkirtr_status rpkirtr_router_next_query_at(const rpkirtr_router *h, uint64_t *at);

/* Gets the earliest time at which a tick has an effect: the next query on an idle link is due, or the committed records expire. Before that, a
 * tick only advances the clock. RPKIRTR_NEVER if there is no such time. An event loop calls rpkirtr_router_tick then, with its current time,
 * and at once if the time has passed. It calls this function again after each call on the router. The next connection attempt does not count:
 * see rpkirtr_router_next_query_at. OK, EMPTY */
rpkirtr_status rpkirtr_router_wake_at(const rpkirtr_router *h, uint64_t *at);

/* Gets the link. OK, EMPTY */
rpkirtr_status rpkirtr_router_link(const rpkirtr_router *h, rpkirtr_link *link);

/* Gets the committed version. OK, EMPTY */
rpkirtr_status rpkirtr_router_committed(const rpkirtr_router *h, rpkirtr_committed *committed);

/* Gets what the latest connection carried: all is 0 before the first one. A new connection begins at 0. When it is closed, nothing changes.
 * If `size_` is not the size of the structure, nothing is written. OK, EMPTY, BAD_STRUCTURE */
rpkirtr_status rpkirtr_router_traffic(const rpkirtr_router *h, rpkirtr_traffic *traffic);

/* Gets the number of committed records. OK, EMPTY */
rpkirtr_status rpkirtr_router_count(const rpkirtr_router *h, size_t *count);

/* Gets the state of a route over the committed records. Records that have expired count until the next call with a time.
 * OK, EMPTY, BAD_ROUTE */
rpkirtr_status rpkirtr_router_state(const rpkirtr_router *h, const rpkirtr_route *route, rpkirtr_state *state);

/* Gets the record at an index of the committed records, in ascending order: family, address, length, maximum, AS. OK, EMPTY, RANGE */
rpkirtr_status rpkirtr_router_record(const rpkirtr_router *h, size_t index, rpkirtr_record *out);

/* Copies committed records in that order from index `first`, as many as fit, and writes their number to `copied`. OK, EMPTY */
rpkirtr_status rpkirtr_router_records(const rpkirtr_router *h, size_t first, rpkirtr_record *room, size_t room_len, size_t *copied);

/* Copies the committed records that cover a route, as many as fit, and writes how many there are to `count`. OK, EMPTY, BAD_ROUTE, NO_MEMORY */
rpkirtr_status rpkirtr_router_covering(const rpkirtr_router *h, const rpkirtr_route *route, rpkirtr_record *room, size_t room_len, size_t *count);

/* Makes an index over the committed records in an empty handle of an index. It does not change if the router changes or is freed, nor if the
 * records expire: free it then. OK, EMPTY if there is no router, LIVE if there is an index, NO_MEMORY */
rpkirtr_status rpkirtr_router_index(const rpkirtr_router *h, rpkirtr_index *index);

/* ---- changes of the committed records */

/* Compares the committed records with those of the last acknowledged change (none at first), and writes how many were withdrawn and announced.
 * The change stays available until another begins or it is acknowledged. OK, EMPTY, NO_MEMORY */
rpkirtr_status rpkirtr_router_changes_begin(rpkirtr_router *h, size_t *withdraws, size_t *announces);

/* Copies the withdrawn records of the change in ascending order from index `first`, as many as fit, and writes their number to `copied`.
 * OK, EMPTY */
rpkirtr_status rpkirtr_router_withdrawn(const rpkirtr_router *h, size_t first, rpkirtr_record *room, size_t room_len, size_t *copied);

/* Copies the announced records of the change, in the same way. OK, EMPTY */
rpkirtr_status rpkirtr_router_announced(const rpkirtr_router *h, size_t first, rpkirtr_record *room, size_t room_len, size_t *copied);

/* Acknowledges the change: the next one begins at the records that it led to. If none has begun, nothing changes. OK, EMPTY */
rpkirtr_status rpkirtr_router_changes_taken(rpkirtr_router *h);

/* ---- an index over records */

/* Makes an index over records in an empty handle. A record that is listed twice counts once. If a record is malformed, `bad` is the index of
 * the first one. OK, LIVE, NO_MEMORY, BAD_RECORD, RANGE */
rpkirtr_status rpkirtr_index_new(rpkirtr_index *h, const rpkirtr_record *records, size_t records_len, size_t *bad);

/* Makes an index over the records of several lists in an empty handle. A record that is listed twice counts once. If a record is malformed,
 * `list` is the list of the first one, and `bad` its index there. OK, LIVE, NO_MEMORY, BAD_RECORD, RANGE */
rpkirtr_status rpkirtr_index_new_of(rpkirtr_index *h, const rpkirtr_list *lists, size_t lists_len, size_t *list, size_t *bad);

/* Makes a further handle of the index of `from` in the empty handle `to`. No record is copied. Each handle is freed on its own, and the index with
 * the last of them. A thread that looks up while others do has a handle of its own. OK, EMPTY if there is no index, LIVE if `to` is not empty,
 * NO_MEMORY */
rpkirtr_status rpkirtr_index_share(const rpkirtr_index *from, rpkirtr_index *to);

/* Frees the index, and empties the handle. OK, EMPTY */
rpkirtr_status rpkirtr_index_free(rpkirtr_index *h);

/* Gets the number of different records in the index. OK, EMPTY */
rpkirtr_status rpkirtr_index_count(const rpkirtr_index *h, size_t *count);

/* Gets the state of a route. OK, EMPTY, BAD_ROUTE */
rpkirtr_status rpkirtr_index_state(const rpkirtr_index *h, const rpkirtr_route *route, rpkirtr_state *state);

/* Copies the records that cover a route in ascending order, as many as fit, and writes how many there are to `count`.
 * OK, EMPTY, BAD_ROUTE, NO_MEMORY */
rpkirtr_status rpkirtr_index_covering(const rpkirtr_index *h, const rpkirtr_route *route, rpkirtr_record *room, size_t room_len, size_t *count);

/* ---- payloads of ROAs */

/* Decodes the payload of a ROA into an empty handle (RFC 9582 section 4). The caller checks that the signed object around it is valid. If the
 * payload is malformed, `fault` is the first fault. Faults 12, 19 and 20 are stricter than RFC 9582. OK, LIVE, NO_MEMORY, BAD_PAYLOAD */
rpkirtr_status rpkirtr_roa_new(rpkirtr_roa *h, const uint8_t *bytes, size_t bytes_len, rpkirtr_fault *fault);

/* Frees the ROA, and empties the handle. OK, EMPTY */
rpkirtr_status rpkirtr_roa_free(rpkirtr_roa *h);

/* Gets the AS that may originate the prefixes. OK, EMPTY */
rpkirtr_status rpkirtr_roa_asn(const rpkirtr_roa *h, uint32_t *asn);

/* Gets the number of prefixes that the ROA lists. OK, EMPTY */
rpkirtr_status rpkirtr_roa_count(const rpkirtr_roa *h, size_t *count);

/* Copies the records that the ROA authorizes in its order from index `first`, as many as fit, and writes their number to `copied`. OK, EMPTY */
rpkirtr_status rpkirtr_roa_records(const rpkirtr_roa *h, size_t first, rpkirtr_record *room, size_t room_len, size_t *copied);

/* ---- payloads of manifests */

/* Decodes the payload of a manifest into an empty handle (RFC 9286 section 4). The caller checks that the signed object around it is valid,
 * and whether the manifest is stale, or older than another. If the payload is malformed, `fault` is the first fault. Faults 13, 16 and 19 are
 * stricter than RFC 9286. OK, LIVE, NO_MEMORY, BAD_PAYLOAD */
rpkirtr_status rpkirtr_manifest_new(rpkirtr_manifest *h, const uint8_t *bytes, size_t bytes_len, rpkirtr_fault *fault);

/* Frees the manifest, and empties the handle. OK, EMPTY */
rpkirtr_status rpkirtr_manifest_free(rpkirtr_manifest *h);

/* Copies the octets of the manifest number, the highest first, as many as fit, and writes how many there are to `len`: from 1 to 20. The number
 * may begin with a zero octet. OK, EMPTY */
rpkirtr_status rpkirtr_manifest_number(const rpkirtr_manifest *h, uint8_t *room, size_t room_len, size_t *len);

/* Gets thisUpdate and nextUpdate, in seconds since the beginning of 1970 in UTC. OK, EMPTY */
rpkirtr_status rpkirtr_manifest_times(const rpkirtr_manifest *h, uint64_t *this_update, uint64_t *next_update);

/* Gets the number of files that the manifest lists. OK, EMPTY */
rpkirtr_status rpkirtr_manifest_count(const rpkirtr_manifest *h, size_t *count);

/* Copies the name of the file at an index, as much as fits, without a zero octet after it. Writes the length of the name, at most 255 octets,
 * to `len`, and the digest of the file to `digest`. OK, EMPTY, RANGE */
rpkirtr_status rpkirtr_manifest_file(const rpkirtr_manifest *h, size_t index, uint8_t *room, size_t room_len, size_t *len, rpkirtr_digest *digest);

/* ---- a cache */

/* Makes a cache in an empty handle. It has published nothing, and has no connection. It speaks both versions of the protocol: `session` is
 * the session of version 1, and `session0` that of version 0. Its first version has the serial `start`. It keeps the changes from the
 * `keep` versions before the current one, from 1 to 65536. A cache that starts again without its earlier versions needs another session, or
 * later serials (RFC 8210 section 5.1). It sends these intervals, in seconds: `refresh` from 1 to 86400, `retry` from 1 to 7200, `expire`
 * from 600 to 172800 and larger than both others (section 6). If they are not valid, `fault` is RPKIRTR_TIMING_RANGE or
 * RPKIRTR_TIMING_EXPIRE, otherwise 0. OK, LIVE, BAD_TIMING, BAD_KEEP, NO_MEMORY */
rpkirtr_status rpkirtr_cache_new(rpkirtr_cache *h, uint16_t session, uint16_t session0, uint32_t start, uint32_t keep, uint32_t refresh,
                                 uint32_t retry, uint32_t expire, uint32_t *fault);

/* Frees the cache with its connections, and empties the handle. OK, EMPTY */
rpkirtr_status rpkirtr_cache_free(rpkirtr_cache *h);

/* Publishes the set of records, as a new version under the next serial. A record that is listed twice counts once. If the current
 * version has the same set, `unchanged` is 1, and no version is added. An answer that has begun keeps its own version. Then call rpkirtr_cache_notify
 * for each connection. If a record is malformed, `bad` is the index of the first one, and nothing is published.
 * OK, EMPTY, BAD_RECORD, RANGE, NO_MEMORY */
rpkirtr_status rpkirtr_cache_publish(rpkirtr_cache *h, const rpkirtr_record *records, size_t records_len, size_t *bad, uint8_t *unchanged);

/* Gets the serial of the current version, and the number of its records. OK, EMPTY, NO_DATA */
rpkirtr_status rpkirtr_cache_current(const rpkirtr_cache *h, uint32_t *serial, size_t *count);

/* Opens a connection to a router, and writes its number, the least that is free. It is free again after rpkirtr_cache_close. RANGE if each
 * number of 32 bits has a connection. OK, EMPTY, NO_MEMORY, RANGE */
rpkirtr_status rpkirtr_cache_open(rpkirtr_cache *h, uint32_t *conn);

/* Closes a connection, and drops the bytes that are not yet pulled. Its number is then free. OK, EMPTY, NO_CONNECTION */
rpkirtr_status rpkirtr_cache_close(rpkirtr_cache *h, uint32_t conn);

/* Passes bytes received on a connection to the cache, and writes how many it consumed to `taken`. It consumes none while there are bytes to
 * pull, or if the connection has ended. It consumes bytes up to the end of the first PDU, or up to a fault. Pass the rest again after a pull.
 * If memory runs out for an answer, an Error Report is ready to be pulled, and the connection ends. OK, EMPTY, NO_CONNECTION */
rpkirtr_status rpkirtr_cache_receive(rpkirtr_cache *h, uint32_t conn, const uint8_t *bytes, size_t bytes_len, size_t *taken);

/* Moves bytes to send on a connection into the buffer `room`, as many as fit, and writes their number to `pulled`. OK, EMPTY, NO_CONNECTION */
rpkirtr_status rpkirtr_cache_pull(rpkirtr_cache *h, uint32_t conn, uint8_t *room, size_t room_len, size_t *pulled);

/* Makes a Serial Notify ready to be pulled on a connection (RFC 8210 section 5.2), and writes 1 to `sent`. If nothing is published, if there
 * are bytes to pull, or if the connection has ended, `sent` is 0. OK, EMPTY, NO_CONNECTION */
rpkirtr_status rpkirtr_cache_notify(rpkirtr_cache *h, uint32_t conn, uint8_t *sent);

/* Gets whether there are bytes to pull on a connection: 1 or 0. OK, EMPTY, NO_CONNECTION */
rpkirtr_status rpkirtr_cache_has_bytes(const rpkirtr_cache *h, uint32_t conn, uint8_t *has);

/* Gets whether a connection continues: 1 or 0. If it has ended, pull and send the remaining bytes, close the socket, and call
 * rpkirtr_cache_close. OK, EMPTY, NO_CONNECTION */
rpkirtr_status rpkirtr_cache_is_open(const rpkirtr_cache *h, uint32_t conn, uint8_t *continues);

#ifdef __cplusplus
}
#endif

#endif
