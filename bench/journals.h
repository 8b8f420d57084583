// Random journals.
#pragma once
#include "measure.h"
#include "plain_ledger.h"

struct step {
    unsigned kind, member;
    uint64_t time, secret[2];
};

static inline void put_step(uint8_t *record, const struct step *s) {
    uint64_t time = __builtin_bswap64(s->time);
    record[0] = s->kind;
    record[1] = s->member;
    fill(record + 2, 6); // not looked at
    memcpy(record + 8, &time, 8);
    memcpy(record + 16, s->secret, 16);
}

// One of a set's members.
static inline unsigned some_member(uint32_t set) {
    unsigned member;
    do member = below(MEMBERS); while (!(set >> member & 1));
    return member;
}

// The step that brings a fleet of so many members on, or a CANCEL.
static inline struct step onward(const struct ledger *l, unsigned members) {
    struct step s = {.time = l->last + below(2), .secret = {l->new0, l->new1}};
    if (l->open && !l->switched && below(128) == 0) {
        s.kind = CANCEL;
    } else if (l->open) {
        s.kind = l->learnt != l->members ? LEARN : l->switched != l->members ? SWITCH : DROP;
        s.member = some_member(l->members & ~(s.kind == LEARN ? l->learnt : s.kind == SWITCH ? l->switched : l->dropped));
        if (s.kind == DROP && s.time < l->last_switch + WAIT) s.time = l->last_switch + WAIT;
    } else {
        s.kind = l->started ? OPEN : START;
        s.member = l->started ? below(256) : members;
        fill(s.secret, sizeof s.secret);
    }
    return s;
}

// The same with one field changed: often so little that only one refusal applies.
static inline void damage_step(struct step *s, const struct ledger *l) {
    switch (below(5)) {
    case 0: s->kind = below(8) ? below(6) : below(256); break;
    case 1: s->member = below(4) ? below(MEMBERS) : below(256); break;
    case 2: s->time = below(4) ? l->last - 1 : latest + 1 + below(100); break;
    case 3: s->secret[below(2)] ^= 1ull << below(64); break;
    default:
        if (s->kind == OPEN) s->secret[0] = l->current0, s->secret[1] = l->current1;
        else if (s->kind == DROP) s->time -= below(WAIT);
        else if (s->kind == SWITCH && l->switched) s->kind = DROP, s->member = some_member(l->switched);
        else if (s->kind == LEARN && l->learnt) s->kind = SWITCH, s->member = some_member(l->learnt);
        else s->kind++;
    }
}

// The next record, which is accepted or refused, as it is wanted, and the ledger after it.
static inline void next_record(uint8_t *record, struct ledger *l, unsigned members, int accepted) {
    for (;;) {
        struct ledger after = *l;
        struct step s = onward(l, members);
        if (!accepted) damage_step(&s, l);
        put_step(record, &s);
        if ((plain_step(&after, record) == 0) != accepted) continue;
        *l = after;
        return;
    }
}
