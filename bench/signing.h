// Server cookies: signed with plain C, and random ones that are good, nearly good or bad.
#pragma once
#include "measure.h"
#include "plain.h"

// Dates the server cookie of a body of 24 bytes and gives it its hash under a secret.
static inline void sign(uint8_t *body, const uint8_t *secret, uint32_t timestamp, const uint8_t *address, size_t address_length) {
    uint8_t message[48];
    for (int i = 0; i < 4; i++) body[12 + i] = timestamp >> (24 - 8 * i);
    memcpy(message, body, 16);
    memcpy(message + 16, address, address_length);
    plain_siphash24(secret, 16, message, 16 + address_length, body + 16, 8);
}

// The same with an age at an edge or near, mostly, and something wrong with it now and then.
static inline void sign_randomly(uint8_t *body, const uint8_t *secret, uint32_t clock, const uint8_t *address, size_t address_length) {
    static const int32_t ages[] = {INT32_MIN, -301, -300, -299, -1, 0, 1, 1800, 1801, 3599, 3600, 3601, INT32_MAX};
    if (below(16)) body[8] = 1;
    if (below(2)) memset(body + 9, 0, 3);
    if (!below(8)) body[9 + below(3)] = next() >> 56;
    uint32_t age = next();
    if (below(8)) age = below(2) ? (uint32_t)ages[below(sizeof ages / sizeof *ages)] : below(4200) - 400;
    sign(body, secret, clock - age, address, address_length);
    if (!below(8)) body[below(24)] ^= 1 << below(8);
    if (!below(32)) fill(body + 16, 8);
}

static inline uint32_t random_clock(void) {
    switch (below(4)) {
    case 0: return next();
    case 1: return below(8000);
    case 2: return UINT32_MAX - below(8000);
    default: return 1700000000 + below(100000000);
    }
}
