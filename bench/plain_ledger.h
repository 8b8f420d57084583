// The rollover ledger in plain C, to be inlined: a part of plain_ledger.c, plain_lister.c and tuned_lister.c.
#pragma once
#include <stdint.h>
#include <string.h>

enum { START, OPEN, LEARN, SWITCH, DROP, CANCEL };
enum { RECORD = 32, MEMBERS = 32, WAIT = 3601, VERSION = 1 };
static const uint64_t latest = (1ull << 48) - 1;

// A ledger in the caller's bytes, where they lie: the 68 bytes that the proved functions write, so that the two can be compared.
// Each set of members holds the next: a member at stage 2 has learnt and switched.
struct ledger {
    uint8_t version, started, open, zero;
    uint32_t members, learnt, switched, dropped;
    uint64_t last, last_switch;          // times of accepted steps
    uint64_t current0, current1, new0, new1; // secrets, as the machine loads them: they are only compared
} __attribute__((packed, may_alias));

static const struct ledger fresh_ledger = {.version = VERSION};

static inline uint64_t word_at(const uint8_t *p) {
    uint64_t word;
    memcpy(&word, p, 8);
    return word;
}

// All are at stage 0 again, and the new secret is forgotten.
static inline void close_rollover(struct ledger *l) {
    l->open = 0;
    l->learnt = l->switched = l->dropped = 0;
    l->new0 = l->new1 = 0;
}

// One member's step, where a rollover is open and the step names its secret. The answer, as plain_step gives it.
static inline unsigned member_step(struct ledger *l, unsigned kind, unsigned member, uint64_t time) {
    if (member >= MEMBERS || !(l->members >> member & 1)) return 7;
    uint32_t bit = 1u << member;
    switch (kind) {
    case LEARN:
        if (l->learnt & bit) return 8;
        l->learnt |= bit;
        break;
    case SWITCH:
        if (!(l->learnt & ~l->switched & bit)) return 8;
        if (l->learnt != l->members) return 9;
        l->switched |= bit;
        l->last_switch = time;
        break;
    default: // DROP
        if (!(l->switched & ~l->dropped & bit)) return 8;
        if (l->switched != l->members) return 9;
        if (time < l->last_switch + WAIT) return 10;
        l->dropped |= bit;
        if (l->dropped == l->members) {
            l->current0 = l->new0;
            l->current1 = l->new1;
            close_rollover(l);
        }
    }
    l->last = time;
    return 0;
}

// The answer: 0, or the refusal, which leaves the ledger as it was.
static inline unsigned plain_step(struct ledger *l, const uint8_t record[RECORD]) {
    unsigned kind = record[0], member = record[1];
    uint64_t time = __builtin_bswap64(word_at(record + 8));
    if (kind > CANCEL) return 1;
    if (time > latest) return 2;
    if (time < l->last) return 3;
    uint64_t secret0 = word_at(record + 16), secret1 = word_at(record + 24);
    if (kind > OPEN) {
        if (!l->open) return 5;
        if (secret0 != l->new0 || secret1 != l->new1) return 6;
        if (kind != CANCEL) return member_step(l, kind, member, time);
        if (l->switched) return 9;
        close_rollover(l);
    } else if (kind == OPEN) {
        if (l->open) return 4;
        if (!l->started) return 5;
        if (secret0 == l->current0 && secret1 == l->current1) return 6;
        l->open = 1;
        l->new0 = secret0;
        l->new1 = secret1;
    } else {
        if (l->started) return 4;
        if (member == 0 || member > MEMBERS) return 7;
        l->started = 1;
        l->members = UINT32_MAX >> (MEMBERS - member);
        l->current0 = secret0;
        l->current1 = secret1;
    }
    l->last = time;
    return 0;
}

// ---- lines

// A number and the byte after it. Where they end.
static inline uint8_t *put_number(uint8_t *out, uint64_t number, char after) {
    uint8_t digits[20];
    int n = 0;
    do digits[n++] = '0' + number % 10; while (number /= 10);
    while (n) *out++ = digits[--n];
    *out++ = after;
    return out;
}

// The same for a number below 256, with no loop.
static inline uint8_t *put_small(uint8_t *out, unsigned number, char after) {
    if (number >= 100) *out++ = '0' + number / 100;
    if (number >= 10) *out++ = '0' + number / 10 % 10;
    *out++ = '0' + number % 10;
    *out++ = after;
    return out;
}

// How many members a set has. Without a flag for a newer processor gcc's own is a call.
static inline unsigned count(uint32_t set) {
    set -= set >> 1 & 0x55555555;
    set = (set & 0x33333333) + (set >> 2 & 0x33333333);
    return ((set + (set >> 4)) & 0x0f0f0f0f) * 0x01010101 >> 24;
}

// The listing's line of a record, by the ledger after it. Where it ends. The ledger is read before anything is written, since the
// compiler can't know that they are apart.
static inline uint8_t *put_line(uint8_t *out, const struct ledger *l, uint64_t number, unsigned kind, unsigned answer) {
    uint32_t members = l->members, learnt = l->learnt, switched = l->switched, dropped = l->dropped;
    unsigned open = l->open;
    out = put_number(out, number, ' ');
    out = put_small(out, kind, ' ');
    out = put_small(out, answer, ' ');
    out = put_small(out, open, ' ');
    out = put_small(out, count(members & ~learnt), ' ');
    out = put_small(out, count(learnt & ~switched), ' ');
    out = put_small(out, count(switched & ~dropped), ' ');
    return put_small(out, count(dropped), '\n');
}
