// SipHash-2-4 in plain C, written from the SipHash paper, to be inlined.
#pragma once
#include <stddef.h>
#include <stdint.h>
#include <string.h>

#define ROTATE(x, n) (((x) << (n)) | ((x) >> (64 - (n))))

#define ROUND                                                            \
    do {                                                                 \
        v0 += v1; v2 += v3; v1 = ROTATE(v1, 13); v3 = ROTATE(v3, 16);    \
        v1 ^= v0; v3 ^= v2; v0 = ROTATE(v0, 32);                         \
        v2 += v1; v0 += v3; v1 = ROTATE(v1, 17); v3 = ROTATE(v3, 21);    \
        v1 ^= v2; v3 ^= v0; v2 = ROTATE(v2, 32);                         \
    } while (0)

// x86-64 is little-endian: a word is one load.
static inline uint64_t word(const uint8_t *p) {
    uint64_t w;
    memcpy(&w, p, 8);
    return w;
}

static inline uint64_t siphash24(uint64_t k0, uint64_t k1, const uint8_t *message, size_t length) {
    uint64_t v0 = k0 ^ 0x736f6d6570736575, v1 = k1 ^ 0x646f72616e646f6d;
    uint64_t v2 = k0 ^ 0x6c7967656e657261, v3 = k1 ^ 0x7465646279746573;
    const uint8_t *p = message, *end = message + length / 8 * 8;
    for (; p != end; p += 8) {
        uint64_t m = word(p);
        v3 ^= m; ROUND; ROUND; v0 ^= m;
    }
    uint64_t last = (uint64_t)length << 56;
    switch (length & 7) {
    case 7: last |= (uint64_t)p[6] << 48; /* fall through */
    case 6: last |= (uint64_t)p[5] << 40; /* fall through */
    case 5: last |= (uint64_t)p[4] << 32; /* fall through */
    case 4: last |= (uint64_t)p[3] << 24; /* fall through */
    case 3: last |= (uint64_t)p[2] << 16; /* fall through */
    case 2: last |= (uint64_t)p[1] << 8;  /* fall through */
    case 1: last |= (uint64_t)p[0];
    }
    v3 ^= last; ROUND; ROUND; v0 ^= last;
    v2 ^= 255; ROUND; ROUND; ROUND; ROUND;
    return v0 ^ v1 ^ v2 ^ v3;
}
