// DNS messages: parts of them, random ones, whole and damaged, and the shapes that are measured.
#pragma once
#include "measure.h"

enum { LONGEST = 65535, COOKIE = 39, QUESTION = 22 };

struct message {
    size_t length;
    uint8_t bytes[LONGEST + 1];
};

// ---- parts

static inline void put(struct message *m, const void *bytes, size_t n) {
    memcpy(m->bytes + m->length, bytes, n);
    m->length += n;
}

static inline void put16(struct message *m, unsigned x) {
    uint8_t bytes[2] = {x >> 8, x};
    put(m, bytes, 2);
}

static inline void put_random(struct message *m, size_t n) {
    while (n--) m->bytes[m->length++] = next() >> 56;
}

static inline void header(struct message *m, unsigned qdcount, unsigned ancount, unsigned arcount) {
    m->length = 0;
    put_random(m, 2);
    put16(m, 0x0100);
    put16(m, qdcount);
    put16(m, ancount);
    put16(m, 0);
    put16(m, arcount);
}

static inline void put_label(struct message *m, size_t n) {
    m->bytes[m->length++] = n;
    while (n--) m->bytes[m->length++] = 'a' + below(26);
}

// Three labels: 22 bytes with type and class.
static inline void put_question(struct message *m) {
    put_label(m, 3);
    put_label(m, 7);
    put_label(m, 4);
    put(m, "\0\0\1\0\1", 5);
}

// What follows a record's owner, but for the data.
static inline void put_fields(struct message *m, unsigned kind, unsigned size) {
    put16(m, kind);
    put16(m, 1232);
    put(m, "\0\0\0\0", 4);
    put16(m, size);
}

static inline void put_option(struct message *m, unsigned code, unsigned size) {
    put16(m, code);
    put16(m, size);
    put_random(m, size);
}

// An OPT record with a COOKIE body of so many bytes: 39 with 24.
static inline void put_opt(struct message *m, unsigned size) {
    put(m, "", 1);
    put_fields(m, 41, 4 + size);
    put_option(m, 10, size);
}

// ---- random messages

static inline void put_name(struct message *m) {
    switch (below(8)) {
    case 0: put(m, "\300\14", 2); return;
    case 1: put_label(m, 1 + below(63)); put(m, "\300\14", 2); return;
    case 2: put_label(m, 1 + below(64)); put_label(m, 1 + below(20)); break; // 64 is too long
    case 3: put_label(m, 1 + below(5)); break;
    }
    put(m, "", 1);
}

static inline void put_any_option(struct message *m) {
    static const uint8_t sizes[] = {0, 1, 7, 8, 9, 15, 16, 17, 24, 24, 24, 24, 39, 40, 41, 60};
    put_option(m, below(3) ? 10 : below(20), sizes[below(sizeof sizes)]);
}

// A message with some records and options.
static inline void whole_message(struct message *m) {
    unsigned questions = below(16) ? below(8) > 0 : below(4), before = below(4) ? 0 : below(4), after = below(4) ? 0 : below(4);
    unsigned opts = below(8) ? 1 : below(3);
    header(m, questions, before, after + opts);
    for (unsigned i = 0; i < questions; i++) put_name(m), put(m, "\0\1\0\1", 4);
    for (unsigned i = 0; i < before + after + opts; i++) {
        int opt = i >= before + after || !below(32);
        if (opt && below(16)) put(m, "", 1);
        else put_name(m);
        put16(m, opt ? 41 : below(64));
        put16(m, 1232);
        put(m, "\0\0\0\0", 4);
        if (!below(16)) m->bytes[m->length - 1 - below(4)] = below(256);
        size_t at = m->length;
        put16(m, 0);
        if (opt)
            for (unsigned k = below(4); k > 0; k--) put_any_option(m);
        else
            put_random(m, below(40));
        size_t size = m->length - at - 2;
        m->bytes[at] = size >> 8;
        m->bytes[at + 1] = size;
    }
}

// The same message, and two times in three perhaps damaged.
static inline void damage_message(struct message *m) {
    if (!below(3)) return;
    if (!below(4)) m->bytes[below(m->length)] ^= 1 << below(8);
    if (!below(4)) m->bytes[below(m->length)] = next() >> 56;
    if (!below(8)) m->bytes[4 + below(8)] = below(3);
    if (!below(16)) m->bytes[12] = (below(2) ? 62 : 190) + below(4); // of a name: no label's length, no pointer, or just one
    if (!below(8)) m->length = below(m->length + 1);
    if (!below(16)) put_random(m, below(20));
    if (!below(64)) m->length = 12, put_random(m, below(300));
}

// ---- the shapes that are measured. Those from LABELS on are of any length from 100 bytes on.

enum shape { QUERY, CLIENT_QUERY, NO_OPT, SIX_OPTIONS, LONG_NAME, LABELS, RECORDS, POINTERS, OWNERS, MIXED, OPTIONS, COOKIES, SHAPES };

// Records without data, but that the last has some where a rest of the length is left.
static inline void put_records(struct message *m, size_t length, enum shape shape) {
    static const struct {
        const char *bytes;
        size_t length;
    } owners[] = {{"", 1}, {"\300\14", 2}, {"\1a", 3}};
    size_t end = m->length + length;
    for (unsigned many = 1;; many++) {
        size_t left = end - m->length;
        unsigned owner = shape == MIXED ? below(3) : shape == POINTERS ? 1 : shape == OWNERS ? 2 : 0;
        int last = left < owners[owner].length + 10 + 13; // the next one might not fit
        put(m, owners[owner].bytes, owners[owner].length);
        unsigned size = last ? left - owners[owner].length - 10 : 0;
        put_fields(m, 65280, size);
        put_random(m, size);
        if (!last) continue;
        m->bytes[10] = (many + 1) >> 8; // ARCOUNT, with the OPT
        m->bytes[11] = many + 1;
        return;
    }
}

// Options of 4 bytes, but that the last has a body where a rest of the length is left; and the cookie, first or last.
static inline void put_options(struct message *m, size_t length, unsigned code) {
    size_t rest = length - 28;
    if (code == 10) put_option(m, 10, 24);
    for (size_t left = rest / 4; left > 0; left--) put_option(m, code, left > 1 ? 0 : rest % 4);
    if (code != 10) put_option(m, 10, 24);
}

static inline void shape_message(struct message *m, enum shape shape, size_t length) {
    size_t rest;
    header(m, shape < RECORDS || MIXED < shape, 0, shape != NO_OPT);
    switch (shape) {
    case QUERY:
    case CLIENT_QUERY:
        put_question(m);
        put_opt(m, shape == QUERY ? 24 : 8);
        break;
    case SIX_OPTIONS:
        put_question(m);
        put(m, "", 1);
        put_fields(m, 41, 6 * 66 + 28);
        for (int i = 0; i < 6; i++) put_option(m, 65001 + i, 62);
        put_option(m, 10, 24);
        break;
    case LONG_NAME: // as long as a name can be
        for (int i = 0; i < 127; i++) put_label(m, 1);
        put(m, "\0\0\1\0\1", 5);
        put_opt(m, 24);
        break;
    case LABELS:
        rest = length - 12 - COOKIE - 5;
        for (size_t left = rest / 2; left > 0; left--) put_label(m, left > 1 ? 1 : 1 + rest % 2);
        put(m, "\0\0\1\0\1", 5);
        put_opt(m, 24);
        break;
    case RECORDS:
    case POINTERS:
    case OWNERS:
    case MIXED:
        put_records(m, length - 12 - COOKIE, shape);
        put_opt(m, 24);
        break;
    case OPTIONS:
    case COOKIES:
        put_question(m);
        put(m, "", 1);
        rest = length - 12 - QUESTION - 11;
        put_fields(m, 41, rest);
        put_options(m, rest, shape == COOKIES ? 10 : 65001);
        break;
    default:
        put_question(m);
    }
}
