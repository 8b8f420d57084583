// libknot as the measurements call it, where its headers are there.
#pragma once
#ifdef LIBKNOT
#include <libknot/cookies.h>
#include <libknot/libknot.h>
#include <netinet/in.h>
#include <string.h>

// The packet of a short message is laid in one block, which is free again with the next: its cheapest way. A long one, of which each
// record takes memory, is left to malloc.
enum { KNOT_BLOCK = 1 << 16, KNOT_SHORT = 600 };

struct knot_block {
    size_t used;
    uint8_t bytes[KNOT_BLOCK] __attribute__((aligned(16)));
};

static inline void *from_block(void *context, size_t n) {
    struct knot_block *b = context;
    void *p = b->bytes + b->used;
    b->used += (n + 15) / 16 * 16;
    return b->used <= sizeof b->bytes ? p : 0;
}

static inline void never_freed(void *p) { (void)p; }

// A message as a packet, parsed or not.
static inline knot_pkt_t *knot_packet(const uint8_t *bytes, size_t length) {
    static struct knot_block block;
    knot_mm_t mm = {.ctx = &block, .alloc = from_block, .free = never_freed};
    block.used = 0;
    return knot_pkt_new((uint8_t *)bytes, length, length <= KNOT_SHORT ? &mm : 0);
}

// A message parsed, and the data of its COOKIE option looked up. The packet is to be freed.
static inline knot_pkt_t *knot_find(const uint8_t *bytes, size_t length, uint8_t **option) {
    knot_pkt_t *packet = knot_packet(bytes, length);
    *option = 0;
    if (packet && knot_pkt_parse(packet, 0) == KNOT_EOK) *option = knot_pkt_edns_option(packet, KNOT_EDNS_OPTION_COOKIE);
    return packet;
}

static inline struct sockaddr_storage knot_address(const uint8_t *address, size_t length) {
    struct sockaddr_storage from;
    memset(&from, 0, sizeof from);
    from.ss_family = length == 4 ? AF_INET : AF_INET6;
    if (length == 4) memcpy(&((struct sockaddr_in *)&from)->sin_addr, address, 4);
    else memcpy(&((struct sockaddr_in6 *)&from)->sin6_addr, address, 16);
    return from;
}

static inline knot_edns_cookie_params_t knot_params(const uint8_t *secret, uint32_t clock) {
    knot_edns_cookie_params_t p = {.version = 1, .timestamp = clock, .lifetime_before = 3600, .lifetime_after = 300};
    memcpy(p.secret, secret, 16);
    return p;
}

// It compares timestamps as plain numbers, so it can be asked only where neither bound wraps.
static inline int knot_clock(uint32_t clock) { return 3600 <= clock && clock <= UINT32_MAX - 300; }

// Whether a cookie is good. Two secrets are two checks.
static inline int knot_judge(const knot_edns_cookie_t *server, const knot_edns_cookie_t *client, const struct sockaddr_storage *from,
                             knot_edns_cookie_params_t params[2], size_t secrets) {
    for (size_t i = 0; i < secrets; i++) {
        params[i].client_addr = from;
        if (knot_edns_cookie_server_check(server, client, &params[i]) == KNOT_EOK) return 1;
    }
    return 0;
}
#endif
