// A DNS request read in plain C, in one pass, to be inlined.
#pragma once
#include <stddef.h>
#include <stdint.h>
#include <string.h>

static inline unsigned be16(const uint8_t *p) { return p[0] << 8 | p[1]; }

// Where the name at a place ends, and 0 if it is malformed. A pointer ends a name and is not followed.
static inline const uint8_t *skip_name(const uint8_t *p, const uint8_t *end) {
    while (p < end) {
        size_t n = *p;
        if (n == 0) return p + 1;
        if (n > 63) return n >= 192 && end - p >= 2 ? p + 2 : 0;
        if ((size_t)(end - p) <= n) return 0;
        p += 1 + n;
    }
    return 0;
}

// Checks 3 and 4.
static inline unsigned check_head(const uint8_t *message, size_t length) {
    if (length < 12 || 65535 < length) return 3;
    return message[2] & 0x80 ? 4 : 0;
}

// Checks 3 to 10: the number of the first that refuses, and otherwise 0, QDCOUNT and the first COOKIE body, of length 0 if there is
// none.
static inline unsigned read_request(const uint8_t *message, size_t length, unsigned *qdcount, const uint8_t **body, size_t *body_length) {
    unsigned refused = check_head(message, length);
    if (refused) return refused;
    unsigned questions = be16(message + 4);
    if (questions > 1) return 5;
    const uint8_t *p = message + 12, *end = message + length;
    if (questions) {
        p = skip_name(p, end);
        if (!p || end - p < 4) return 6;
        p += 4;
    }
    unsigned others = be16(message + 6) + be16(message + 8), records = others + be16(message + 10);
    const uint8_t *opt = 0;
    int wrong = 0;
    for (unsigned i = 0; i < records; i++) {
        const uint8_t *fields = skip_name(p, end); // TYPE, CLASS, TTL, RDLENGTH
        if (!fields || end - fields < 10) return 6;
        const uint8_t *data = fields + 10;
        ptrdiff_t size = be16(fields + 8);
        if (end - data < size) return 6;
        if (be16(fields) == 41) {
            if (i < others || *p != 0 || opt) wrong = 1;
            opt = fields;
        }
        p = data + size;
    }
    if (p != end) return 6;
    if (wrong) return 7;
    const uint8_t *cookie = 0;
    if (opt) {
        if (opt[5] != 0) return 8;
        p = opt + 10;
        end = p + be16(opt + 8);
        while (p < end) {
            if (end - p < 4) return 9;
            const uint8_t *data = p + 4;
            ptrdiff_t size = be16(p + 2);
            if (end - data < size) return 9;
            if (!cookie && be16(p) == 10) cookie = p;
            p = data + size;
        }
    }
    size_t n = 0;
    if (cookie) {
        n = be16(cookie + 2);
        if (n != 8 && (n < 16 || 40 < n)) return 10;
    }
    *qdcount = questions;
    *body = cookie ? cookie + 4 : message;
    *body_length = n;
    return 0;
}
