/* librtr.so.0 over librpkirtr: the 17 functions of rtrlib 0.8 that FRR's module bgpd_rpki calls.
 *
 * This is an example of a user of the library, in C that is not proved. One thread holds the connections to all caches, each with a router of
 * its own. The most preferred cache with a connection and committed records is in use, and bgpd is told what changes. The caches after it have
 * no connection meanwhile. TCP alone: SSH is an error.
 *
 * The intervals are those of each cache's End of Data, as in rtrlib. Before the first one, and after a failure, the retry interval is bgpd's.
 */
#include "rpkirtr.h"

#include <arpa/inet.h>
#include <errno.h>
#include <fcntl.h>
#include <netdb.h>
#include <poll.h>
#include <pthread.h>
#include <rtrlib/rtrlib.h>
#include <stdlib.h>
#include <string.h>
#include <sys/socket.h>
#include <time.h>
#include <unistd.h>

enum { MOST_GROUPS = 64, CHUNK = 512, CONNECT_SECONDS = 30, UNSUPPORTED_VERSION = 4 };

/* A cache: a group of bgpd's with one socket. */
struct cache {
    struct rtr_mgr_group group;
    struct rtr_socket *sockets[1];
    rpkirtr_router router;
    int fd;             /* -1 without a connection */
    int is_connecting;  /* the connection is not made yet */
    int is_version_0;   /* the cache knows no version 1 */
    unsigned address;   /* which of the addresses of its name is tried, from 0 on, and whether it is the last */
    int is_last_address;
    uint64_t retry_at; /* no connection is tried before; a connection that is not made by then has failed */
    struct cache *next; /* the next in order of preference */
};

/* `table` is what bgpd calls the table; its address is that of the manager, as `config` is. */
struct manager {
    struct rtr_mgr_config config;
    struct pfx_table table;
    struct cache *caches;
    struct cache *in_use;   /* the cache whose records bgpd was told, if any */
    rpkirtr_committed told; /* the version of these records */
    unsigned changes;       /* how often a cache was added or removed */
    unsigned retry;
    pthread_t thread;
    pthread_mutex_t lock; /* of all above, and of each call on a handle */
    int wakes[2];         /* a pipe that ends a wait */
    int is_running, stops;
};

static void *(*get_memory)(size_t size) = malloc;
static void (*free_memory)(void *memory) = free;

void lrtr_set_alloc_functions(void *(*get)(size_t), void *(*resize)(void *, size_t), void (*give)(void *))
{
    (void)resize;
    get_memory = get;
    free_memory = give;
}

static uint64_t now(void)
{
    struct timespec t;
    clock_gettime(CLOCK_MONOTONIC, &t);
    return (uint64_t)t.tv_sec;
}

static struct manager *manager_of(struct pfx_table *table)
{
    return (struct manager *)((char *)table - offsetof(struct manager, table));
}

/* ---- addresses and records */

/* rtrlib keeps addresses as numbers of 32 bits of this machine; ours are in network order. */
static void to_octets(const struct lrtr_ip_addr *ip, uint8_t *octets)
{
    int words = ip->ver == LRTR_IPV4 ? 1 : 4;
    memset(octets, 0, 16);
    for (int i = 0; i < words; i++) {
        uint32_t word = htonl(words == 1 ? ip->u.addr4.addr : ip->u.addr6.addr[i]);
        memcpy(octets + 4 * i, &word, 4);
    }
}

static void of_octets(const uint8_t *octets, int family, struct lrtr_ip_addr *ip)
{
    int words = family == 4 ? 1 : 4;
    memset(ip, 0, sizeof *ip);
    ip->ver = words == 1 ? LRTR_IPV4 : LRTR_IPV6;
    for (int i = 0; i < words; i++) {
        uint32_t word;
        memcpy(&word, octets + 4 * i, 4);
        if (words == 1)
            ip->u.addr4.addr = ntohl(word);
        else
            ip->u.addr6.addr[i] = ntohl(word);
    }
}

int lrtr_ip_addr_to_str(const struct lrtr_ip_addr *ip, char *text, const unsigned int len)
{
    uint8_t octets[16];
    to_octets(ip, octets);
    return inet_ntop(ip->ver == LRTR_IPV4 ? AF_INET : AF_INET6, octets, text, len) != NULL ? 0 : -1;
}

int lrtr_ip_str_to_addr(const char *text, struct lrtr_ip_addr *ip)
{
    uint8_t octets[16] = {0};
    int family = strchr(text, ':') == NULL ? 4 : 6;
    if (inet_pton(family == 4 ? AF_INET : AF_INET6, text, octets) != 1)
        return -1;
    of_octets(octets, family, ip);
    return 0;
}

static struct pfx_record to_pfx(const rpkirtr_record *record, const struct cache *cache)
{
    struct pfx_record it;
    memset(&it, 0, sizeof it);
    it.asn = record->asn;
    of_octets(record->addr, record->family, &it.prefix);
    it.min_len = record->len;
    it.max_len = record->max_len;
    it.socket = cache->sockets[0];
    return it;
}

static rpkirtr_route to_route(uint32_t origin, const struct lrtr_ip_addr *ip, uint8_t len)
{
    rpkirtr_route route;
    memset(&route, 0, sizeof route);
    to_octets(ip, route.addr);
    route.origin = origin;
    route.family = ip->ver == LRTR_IPV4 ? 4 : 6;
    route.len = len;
    route.has_origin = 1;
    return route;
}

/* ---- what bgpd is told; the lock is held */

typedef rpkirtr_status copy_call(const rpkirtr_router *h, size_t first, rpkirtr_record *room, size_t room_len, size_t *copied);

static void tell_one(struct manager *m, struct cache *cache, const rpkirtr_record *record, int is_added)
{
    if (m->table.update_fp != NULL)
        m->table.update_fp(&m->table, to_pfx(record, cache), is_added);
}

/* Tells the records that a call copies. */
static void tell_copied(struct manager *m, struct cache *cache, copy_call *copy, int is_added)
{
    rpkirtr_record room[CHUNK];
    size_t first = 0, copied;
    while (copy(&cache->router, first, room, CHUNK, &copied) == RPKIRTR_OK && copied > 0) {
        for (size_t i = 0; i < copied; i++)
            tell_one(m, cache, &room[i], is_added);
        first += copied;
    }
}

/* Tells what changed at the cache in use, if it has committed another version, or its version has expired. Without memory that is told at
 * the next call. */
static void tell_changes(struct manager *m)
{
    rpkirtr_committed committed;
    size_t withdrawn, announced;
    if (m->in_use == NULL || rpkirtr_router_committed(&m->in_use->router, &committed) != RPKIRTR_OK ||
        memcmp(&committed, &m->told, sizeof committed) == 0 ||
        rpkirtr_router_changes_begin(&m->in_use->router, &withdrawn, &announced) != RPKIRTR_OK)
        return;
    tell_copied(m, m->in_use, rpkirtr_router_withdrawn, 0);
    tell_copied(m, m->in_use, rpkirtr_router_announced, 1);
    rpkirtr_router_changes_taken(&m->in_use->router);
    m->told = committed;
}

/* Uses another cache, or none: bgpd is told that the records of the one are gone and those of the other are there. It judges a route that this
 * concerns by the records in use, so nothing is seen of what is between. */
static void use(struct manager *m, struct cache *other)
{
    struct cache *old = m->in_use;
    size_t withdrawn, announced;
    m->in_use = other;
    if (old != NULL)
        tell_copied(m, old, rpkirtr_router_records, 0);
    if (other == NULL)
        return;
    tell_copied(m, other, rpkirtr_router_records, 1);
    if (rpkirtr_router_changes_begin(&other->router, &withdrawn, &announced) == RPKIRTR_OK)
        rpkirtr_router_changes_taken(&other->router);
    rpkirtr_router_committed(&other->router, &m->told);
}

static int has_committed(struct cache *cache)
{
    rpkirtr_committed committed;
    return rpkirtr_router_committed(&cache->router, &committed) == RPKIRTR_OK && committed.is_committed;
}

/* Whether a cache has committed records, and a connection. */
static int is_live(struct cache *cache)
{
    return cache->fd >= 0 && !cache->is_connecting && has_committed(cache);
}

/* The cache to be used: the most preferred that is live, or else the one in use as long as its records have not expired, or else the most
 * preferred with records. */
static struct cache *best_cache(struct manager *m)
{
    struct cache *it;
    for (it = m->caches; it != NULL; it = it->next)
        if (is_live(it))
            return it;
    for (it = m->caches; it != NULL; it = it->next)
        if (it == m->in_use && has_committed(it))
            return it;
    for (it = m->caches; it != NULL && !has_committed(it);)
        it = it->next;
    return it;
}

/* Tells bgpd what has changed, if anything has. */
static void settle(struct manager *m)
{
    struct cache *best;
    tell_changes(m);
    best = best_cache(m);
    if (best != m->in_use)
        use(m, best);
}

/* ---- connections; the lock is held */

static void set_states(struct cache *cache, enum rtr_socket_state state, enum rtr_mgr_status status)
{
    cache->sockets[0]->state = state;
    cache->group.status = status;
}

/* Closes the connection, if there is one. The next address of the name is tried at once, and the first one after the retry interval. */
static void hang_up(struct manager *m, struct cache *cache)
{
    if (cache->fd < 0)
        return;
    close(cache->fd);
    cache->fd = -1;
    rpkirtr_router_connection_closed(&cache->router, now());
    set_states(cache, RTR_ERROR_TRANSPORT, RTR_MGR_ERROR);
    if (cache->is_connecting && !cache->is_last_address) {
        cache->address++;
        cache->retry_at = 0;
    } else {
        cache->address = 0;
        cache->retry_at = now() + m->retry;
    }
    cache->is_connecting = 0;
}

/* Begins a connection to the address in turn. */
static void connect_to(struct manager *m, struct cache *cache, const struct addrinfo *a)
{
    for (unsigned i = 0; i < cache->address && a->ai_next != NULL; i++)
        a = a->ai_next;
    cache->is_last_address = a->ai_next == NULL;
    cache->fd = socket(a->ai_family, a->ai_socktype | SOCK_CLOEXEC | SOCK_NONBLOCK, a->ai_protocol);
    if (cache->fd < 0)
        return;
    cache->is_connecting = 1;
    cache->retry_at = now() + CONNECT_SECONDS;
    set_states(cache, RTR_CONNECTING, RTR_MGR_CONNECTING);
    if (connect(cache->fd, a->ai_addr, a->ai_addrlen) != 0 && errno != EINPROGRESS)
        hang_up(m, cache);
}

/* Resolves the name of a cache and begins a connection. The lock is given up while the name is resolved, which may take long. If a cache was
 * added or removed meanwhile, this begins nothing: all are then tried anew. */
static void dial(struct manager *m, struct cache *cache)
{
    const struct tr_tcp_config *to = cache->sockets[0]->tr_socket->socket;
    char *host = strdup(to->host), *port = strdup(to->port);
    struct addrinfo hints, *found = NULL;
    unsigned changes = m->changes;
    cache->retry_at = now() + m->retry;
    set_states(cache, RTR_ERROR_TRANSPORT, RTR_MGR_ERROR);
    memset(&hints, 0, sizeof hints);
    hints.ai_socktype = SOCK_STREAM;
    pthread_mutex_unlock(&m->lock);
    if (host == NULL || port == NULL || getaddrinfo(host, port, &hints, &found) != 0)
        found = NULL;
    free(host);
    free(port);
    pthread_mutex_lock(&m->lock);
    if (found != NULL && changes == m->changes)
        connect_to(m, cache, found);
    if (found != NULL)
        freeaddrinfo(found);
}

/* Sends what is to be sent; a query is so short that a socket takes it at once. */
static void send_all(struct manager *m, struct cache *cache)
{
    uint8_t room[512];
    size_t pulled;
    while (cache->fd >= 0 && rpkirtr_router_pull(&cache->router, room, sizeof room, &pulled) == RPKIRTR_OK && pulled > 0)
        if (send(cache->fd, room, pulled, MSG_NOSIGNAL) != (ssize_t)pulled)
            hang_up(m, cache);
}

static void begin(struct manager *m, struct cache *cache)
{
    int error = 0;
    socklen_t len = sizeof error;
    if (getsockopt(cache->fd, SOL_SOCKET, SO_ERROR, &error, &len) != 0 || error != 0) {
        hang_up(m, cache);
        return;
    }
    cache->is_connecting = 0;
    rpkirtr_router_speak(&cache->router, cache->is_version_0 ? 0 : 1);
    rpkirtr_router_connect(&cache->router, now());
    set_states(cache, RTR_SYNC, RTR_MGR_CONNECTING);
    send_all(m, cache);
}

/* What the link says now. A cache that knows no version 1 is called again at once, in version 0 (RFC 8210 section 7). Its own Error Report is
 * malformed in version 1. */
static void look(struct manager *m, struct cache *cache)
{
    rpkirtr_link link;
    if (rpkirtr_router_link(&cache->router, &link) != RPKIRTR_OK)
        return;
    if (link.state == RPKIRTR_IDLE && has_committed(cache)) {
        cache->sockets[0]->last_update = (time_t)now();
        set_states(cache, RTR_ESTABLISHED, RTR_MGR_ESTABLISHED);
    } else if (link.state == RPKIRTR_ENDED) {
        int is_report_of_0 = link.end == RPKIRTR_END_MALFORMED && !has_committed(cache);
        int calls_again = !cache->is_version_0 && (link.code == UNSUPPORTED_VERSION || is_report_of_0);
        hang_up(m, cache);
        if (calls_again) {
            cache->is_version_0 = 1;
            cache->retry_at = 0;
        }
    }
}

/* Reads once and hands over what came. */
static void read_some(struct manager *m, struct cache *cache)
{
    uint8_t bytes[65536];
    ssize_t n = recv(cache->fd, bytes, sizeof bytes, 0);
    size_t at = 0, taken = 1;
    if (n < 0 && (errno == EAGAIN || errno == EINTR))
        return;
    if (n <= 0) {
        hang_up(m, cache);
        return;
    }
    while (at < (size_t)n && taken > 0 && cache->fd >= 0) {
        rpkirtr_router_receive(&cache->router, bytes + at, (size_t)n - at, now(), &taken);
        at += taken;
        send_all(m, cache);
    }
    look(m, cache);
}

/* Whether a cache is to have a connection: none before it is live. */
static int is_wanted(struct manager *m, struct cache *cache)
{
    for (struct cache *it = m->caches; it != cache; it = it->next)
        if (is_live(it))
            return 0;
    return 1;
}

/* Does what is due at a cache, and returns whether the lock was given up meanwhile. */
static int advance(struct manager *m, struct cache *cache)
{
    int dials = 0;
    if (!is_wanted(m, cache)) {
        hang_up(m, cache);
        set_states(cache, RTR_CLOSED, RTR_MGR_CLOSED);
        cache->retry_at = 0;
    } else if (cache->retry_at <= now() && (cache->fd < 0 || cache->is_connecting)) {
        hang_up(m, cache);
        dials = cache->retry_at <= now();
    }
    rpkirtr_router_tick(&cache->router, now());
    send_all(m, cache);
    if (dials)
        dial(m, cache);
    return dials;
}

/* ---- the thread */

/* How many milliseconds nothing has to be done, if no bytes come. */
static int pause_of(struct manager *m)
{
    uint64_t wake = now() + 60;
    for (struct cache *it = m->caches; it != NULL; it = it->next) {
        uint64_t at;
        if (rpkirtr_router_wake_at(&it->router, &at) == RPKIRTR_OK && at < wake)
            wake = at;
        if ((it->fd < 0 || it->is_connecting) && it->retry_at < wake && is_wanted(m, it))
            wake = it->retry_at;
    }
    return wake <= now() ? 100 : (int)(wake - now()) * 1000;
}

/* Waits, and serves each connection that something came for. */
static void turn(struct manager *m)
{
    struct pollfd fds[MOST_GROUPS + 1];
    struct cache *of[MOST_GROUPS + 1];
    char drained[64];
    int count = 1, pause = pause_of(m);
    fds[0] = (struct pollfd){m->wakes[0], POLLIN, 0};
    for (struct cache *it = m->caches; it != NULL; it = it->next)
        if (it->fd >= 0) {
            fds[count] = (struct pollfd){it->fd, it->is_connecting ? POLLOUT : POLLIN, 0};
            of[count++] = it;
        }
    pthread_mutex_unlock(&m->lock);
    poll(fds, (nfds_t)count, pause);
    if (fds[0].revents != 0 && read(m->wakes[0], drained, sizeof drained) < 0 && errno != EAGAIN)
        m->stops = 1;
    pthread_mutex_lock(&m->lock);
    for (int i = 1; i < count; i++)
        for (struct cache *it = m->caches; it != NULL; it = it->next)
            if (it == of[i] && it->fd == fds[i].fd && fds[i].revents != 0) {
                if (it->is_connecting)
                    begin(m, it);
                else
                    read_some(m, it);
            }
}

static void *work(void *arg)
{
    struct manager *m = arg;
    pthread_mutex_lock(&m->lock);
    while (!m->stops) {
        struct cache *it = m->caches;
        while (it != NULL)
            it = advance(m, it) ? m->caches : it->next;
        settle(m);
        turn(m);
    }
    pthread_mutex_unlock(&m->lock);
    return NULL;
}

static void wake(struct manager *m)
{
    while (write(m->wakes[1], "", 1) < 0 && errno == EINTR)
        ;
}

/* ---- what bgpd calls */

/* An address to bind to, or a socket of the caller's, is an error: neither is used here. */
int tr_tcp_init(const struct tr_tcp_config *config, struct tr_socket *socket)
{
    int is_known = config->bindaddr == NULL && config->new_socket == NULL;
    socket->socket = is_known ? (void *)(uintptr_t)config : NULL;
    return is_known ? TR_SUCCESS : TR_ERROR;
}

int tr_ssh_init(const struct tr_ssh_config *config, struct tr_socket *socket)
{
    (void)config;
    socket->socket = NULL;
    return TR_ERROR;
}

static void free_cache(struct cache *cache)
{
    if (cache->fd >= 0)
        close(cache->fd);
    rpkirtr_router_free(&cache->router);
    free_memory(cache);
}

/* A cache was added or removed: those without a connection are tried at once. */
static void try_anew(struct manager *m)
{
    m->changes++;
    for (struct cache *it = m->caches; it != NULL; it = it->next)
        if (it->fd < 0)
            it->retry_at = 0;
}

/* Puts a cache behind those of at most its preference number. The lock is held, or nobody else knows of the manager yet. */
static int add_cache(struct manager *m, const struct rtr_mgr_group *group)
{
    struct cache **at = &m->caches, *cache;
    if (m->config.len == MOST_GROUPS || group->sockets_len != 1 || group->sockets[0]->tr_socket->socket == NULL)
        return RTR_ERROR;
    cache = get_memory(sizeof *cache);
    if (cache == NULL)
        return RTR_ERROR;
    memset(cache, 0, sizeof *cache);
    cache->group = *group;
    cache->sockets[0] = group->sockets[0];
    cache->group.sockets = cache->sockets;
    cache->fd = -1;
    if (rpkirtr_router_new(&cache->router) != RPKIRTR_OK) {
        free_memory(cache);
        return RTR_ERROR;
    }
    set_states(cache, RTR_CLOSED, RTR_MGR_CLOSED);
    cache->sockets[0]->pfx_table = &m->table;
    while (*at != NULL && (*at)->group.preference <= group->preference)
        at = &(*at)->next;
    cache->next = *at;
    *at = cache;
    m->config.len++;
    try_anew(m);
    return RTR_SUCCESS;
}

int rtr_mgr_init(struct rtr_mgr_config **config, struct rtr_mgr_group groups[], const unsigned int len, const unsigned int refresh,
                 const unsigned int expire, const unsigned int retry, const pfx_update_fp update, const spki_update_fp spki,
                 const rtr_mgr_status_fp status, void *data)
{
    struct manager *m = get_memory(sizeof *m);
    (void)refresh;
    (void)expire;
    (void)spki;
    *config = NULL;
    if (m == NULL)
        return RTR_ERROR;
    memset(m, 0, sizeof *m);
    if (pipe2(m->wakes, O_CLOEXEC | O_NONBLOCK) != 0) {
        free_memory(m);
        return RTR_ERROR;
    }
    pthread_mutex_init(&m->lock, NULL);
    m->retry = retry > 0 ? retry : 600;
    m->table.update_fp = update;
    m->config.status_fp = status;
    m->config.status_fp_data = data;
    m->config.pfx_table = &m->table;
    for (unsigned i = 0; i < len; i++)
        if (add_cache(m, &groups[i]) != RTR_SUCCESS) {
            rtr_mgr_free(&m->config);
            return RTR_ERROR;
        }
    *config = &m->config;
    return RTR_SUCCESS;
}

int rtr_mgr_start(struct rtr_mgr_config *config)
{
    struct manager *m = (struct manager *)config;
    m->stops = 0;
    m->is_running = pthread_create(&m->thread, NULL, work, m) == 0;
    return m->is_running ? RTR_SUCCESS : RTR_ERROR;
}

void rtr_mgr_stop(struct rtr_mgr_config *config)
{
    struct manager *m = (struct manager *)config;
    if (!m->is_running)
        return;
    pthread_mutex_lock(&m->lock);
    m->stops = 1;
    pthread_mutex_unlock(&m->lock);
    wake(m);
    pthread_join(m->thread, NULL);
    m->is_running = 0;
}

void rtr_mgr_free(struct rtr_mgr_config *config)
{
    struct manager *m = (struct manager *)config;
    rtr_mgr_stop(config);
    while (m->caches != NULL) {
        struct cache *cache = m->caches;
        m->caches = cache->next;
        free_cache(cache);
    }
    close(m->wakes[0]);
    close(m->wakes[1]);
    pthread_mutex_destroy(&m->lock);
    free_memory(m);
}

int rtr_mgr_add_group(struct rtr_mgr_config *config, const struct rtr_mgr_group *group)
{
    struct manager *m = (struct manager *)config;
    int status;
    pthread_mutex_lock(&m->lock);
    status = add_cache(m, group);
    pthread_mutex_unlock(&m->lock);
    wake(m);
    return status;
}

int rtr_mgr_remove_group(struct rtr_mgr_config *config, unsigned int preference)
{
    struct manager *m = (struct manager *)config;
    struct cache **at = &m->caches, *cache;
    pthread_mutex_lock(&m->lock);
    while (*at != NULL && (*at)->group.preference != preference)
        at = &(*at)->next;
    cache = *at;
    if (cache != NULL) {
        *at = cache->next;
        m->config.len--;
        if (m->in_use == cache)
            use(m, best_cache(m));
        free_cache(cache);
        try_anew(m);
    }
    pthread_mutex_unlock(&m->lock);
    wake(m);
    return cache != NULL ? RTR_SUCCESS : RTR_ERROR;
}

bool rtr_mgr_conf_in_sync(struct rtr_mgr_config *config)
{
    struct manager *m = (struct manager *)config;
    bool is_synced;
    pthread_mutex_lock(&m->lock);
    is_synced = m->in_use != NULL;
    pthread_mutex_unlock(&m->lock);
    return is_synced;
}

/* The group that is in use, or else the most preferred. bgpd reads it without a lock, as it does rtrlib's. */
struct rtr_mgr_group *rtr_mgr_get_first_group(struct rtr_mgr_config *config)
{
    struct manager *m = (struct manager *)config;
    struct cache *first;
    pthread_mutex_lock(&m->lock);
    first = m->in_use != NULL ? m->in_use : m->caches;
    pthread_mutex_unlock(&m->lock);
    return first == NULL ? NULL : &first->group;
}

/* The state of a route over the records in use; the lock is held. */
static enum pfxv_state judge(struct manager *m, const rpkirtr_route *route)
{
    rpkirtr_state state = RPKIRTR_NOT_FOUND;
    if (m->in_use == NULL || rpkirtr_router_state(&m->in_use->router, route, &state) != RPKIRTR_OK)
        return BGP_PFXV_STATE_NOT_FOUND;
    if (state == RPKIRTR_VALID)
        return BGP_PFXV_STATE_VALID;
    return state == RPKIRTR_INVALID ? BGP_PFXV_STATE_INVALID : BGP_PFXV_STATE_NOT_FOUND;
}

int rtr_mgr_validate(struct rtr_mgr_config *config, const uint32_t asn, const struct lrtr_ip_addr *ip, const uint8_t len, enum pfxv_state *result)
{
    struct manager *m = (struct manager *)config;
    rpkirtr_route route = to_route(asn, ip, len);
    pthread_mutex_lock(&m->lock);
    *result = judge(m, &route);
    pthread_mutex_unlock(&m->lock);
    return PFX_SUCCESS;
}

static int is_match(const rpkirtr_record *record, const rpkirtr_route *route)
{
    return record->asn == route->origin && record->asn != 0 && route->len <= record->max_len;
}

/* The records that decide: those that cover the route, up to the first prefix with a match, as rtrlib gives them. The lock is held. */
static unsigned reasons(struct cache *cache, const rpkirtr_route *route, struct pfx_record **out)
{
    rpkirtr_record *room;
    size_t count = 0, kept = 0;
    int is_last = 0;
    *out = NULL;
    if (rpkirtr_router_covering(&cache->router, route, NULL, 0, &count) != RPKIRTR_OK || count == 0)
        return 0;
    room = get_memory(count * sizeof *room);
    *out = get_memory(count * sizeof **out);
    if (room == NULL || *out == NULL || rpkirtr_router_covering(&cache->router, route, room, count, &count) != RPKIRTR_OK)
        count = 0;
    for (; kept < count && !(is_last && room[kept].len != room[kept - 1].len); kept++) {
        (*out)[kept] = to_pfx(&room[kept], cache);
        is_last = is_last || is_match(&room[kept], route);
    }
    free_memory(room);
    return (unsigned)kept;
}

int pfx_table_validate_r(struct pfx_table *table, struct pfx_record **reason, unsigned int *count, const uint32_t asn,
                         const struct lrtr_ip_addr *ip, const uint8_t len, enum pfxv_state *result)
{
    struct manager *m = manager_of(table);
    rpkirtr_route route = to_route(asn, ip, len);
    *reason = NULL;
    *count = 0;
    pthread_mutex_lock(&m->lock);
    *result = judge(m, &route);
    if (m->in_use != NULL)
        *count = reasons(m->in_use, &route, reason);
    pthread_mutex_unlock(&m->lock);
    return PFX_SUCCESS;
}

static void for_each(struct pfx_table *table, int family, pfx_for_each_fp call, void *data)
{
    struct manager *m = manager_of(table);
    rpkirtr_record room[CHUNK];
    size_t first = 0, copied;
    pthread_mutex_lock(&m->lock);
    while (m->in_use != NULL && rpkirtr_router_records(&m->in_use->router, first, room, CHUNK, &copied) == RPKIRTR_OK && copied > 0) {
        for (size_t i = 0; i < copied; i++) {
            struct pfx_record record = to_pfx(&room[i], m->in_use);
            if (room[i].family == family)
                call(&record, data);
        }
        first += copied;
    }
    pthread_mutex_unlock(&m->lock);
}

void pfx_table_for_each_ipv4_record(struct pfx_table *table, pfx_for_each_fp call, void *data)
{
    for_each(table, 4, call, data);
}

void pfx_table_for_each_ipv6_record(struct pfx_table *table, pfx_for_each_fp call, void *data)
{
    for_each(table, 6, call, data);
}
