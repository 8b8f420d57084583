// Server cookies (RFC 9018) in plain C, to be inlined: what plain_cookie.c and plain_server.c check before, these do.
#pragma once
#include "dnscookie.h"
#include "plain_siphash.h"

static inline uint32_t be32(const uint8_t *p) {
    uint32_t x;
    memcpy(&x, p, 4);
    return __builtin_bswap32(x);
}

static inline int are_secrets(size_t length) { return length == 16 || length == 32; }
static inline int is_address(size_t length) { return length == 4 || length == 16; }
static inline int is_body(size_t length) { return length == 8 || (16 <= length && length <= 40); }

// SipHash-2-4 of client cookie, bytes 0 to 7 of the server cookie, each as a word, and an address of 4 or 16 bytes. They are read as
// words where they lie: laid into a buffer first, as most C does, they take longer.
static inline uint64_t cookie_hash(const uint8_t *secret, uint64_t w0, uint64_t w1, const uint8_t *address, size_t address_length) {
    uint64_t k0 = word(secret), k1 = word(secret + 8);
    uint64_t v0 = k0 ^ 0x736f6d6570736575, v1 = k1 ^ 0x646f72616e646f6d;
    uint64_t v2 = k0 ^ 0x6c7967656e657261, v3 = k1 ^ 0x7465646279746573;
    v3 ^= w0; ROUND; ROUND; v0 ^= w0;
    v3 ^= w1; ROUND; ROUND; v0 ^= w1;
    uint64_t last = (uint64_t)32 << 56;
    if (address_length == 4) {
        uint32_t a;
        memcpy(&a, address, 4);
        last = (uint64_t)20 << 56 | a;
    } else {
        uint64_t a0 = word(address), a1 = word(address + 8);
        v3 ^= a0; ROUND; ROUND; v0 ^= a0;
        v3 ^= a1; ROUND; ROUND; v0 ^= a1;
    }
    v3 ^= last; ROUND; ROUND; v0 ^= last;
    v2 ^= 255; ROUND; ROUND; ROUND; ROUND;
    return v0 ^ v1 ^ v2 ^ v3;
}

// Judges a body of a legal length: a number, and the age of a good cookie.
static inline unsigned judge_body(const uint8_t *secrets, size_t secrets_length, uint32_t clock, const uint8_t *address,
                                  size_t address_length, const uint8_t *body, size_t body_length, int32_t *age) {
    if (body_length == 8) return DNSCOOKIE_CLIENT_ONLY;
    if (body_length != 24 || body[8] != 1) return DNSCOOKIE_BAD_METHOD;
    uint64_t w0 = word(body), w1 = word(body + 8), hash = word(body + 16);
    unsigned good = DNSCOOKIE_GOOD_GENERATING;
    if (cookie_hash(secrets, w0, w1, address, address_length) != hash) {
        if (secrets_length == 16 || cookie_hash(secrets + 16, w0, w1, address, address_length) != hash) return DNSCOOKIE_BAD_HASH;
        good = DNSCOOKIE_GOOD_OTHER;
    }
    int32_t found = (int32_t)(clock - be32(body + 12)); // wraps, and is read as signed
    if (found < -300 || 3600 < found) return DNSCOOKIE_BAD_TIME;
    *age = found;
    return good;
}

static inline uint64_t with_age(unsigned number, int32_t age) { return number | (uint64_t)(uint32_t)age << 32; }

static inline void write_fresh(uint8_t *output, const uint8_t *secret, uint32_t clock, const uint8_t *address, size_t address_length,
                               const uint8_t *client) {
    uint64_t second = 1 | (uint64_t)__builtin_bswap32(clock) << 32; // version 1, three zeros, timestamp
    uint64_t hash = cookie_hash(secret, word(client), second, address, address_length);
    memcpy(output, "\0\12\0\30", 4);
    memcpy(output + 4, client, 8);
    memcpy(output + 12, &second, 8);
    memcpy(output + 20, &hash, 8);
}

static inline void write_kept(uint8_t *output, const uint8_t *body) {
    memcpy(output, "\0\12\0\30", 4);
    memcpy(output + 4, body, 24);
}
