// The rollover ledger of include/dnscookie.h in plain C. The state that is lent is the ledger, in place.
#include "plain.h"
#include "plain_ledger.h"

_Static_assert(sizeof(struct ledger) == DNSCOOKIE_LEDGER_SIZE, "a ledger is the state that is lent");

static inline int is_ledger(const uint8_t *state, size_t length) {
    return length == DNSCOOKIE_LEDGER_SIZE && state[0] == VERSION && state[1] <= 1 && state[2] <= 1 && state[3] == 0;
}

uint32_t plain_ledger_fresh(uint8_t *state, size_t state_length) {
    if (state_length != DNSCOOKIE_LEDGER_SIZE) return DNSCOOKIE_WRONG_LEDGER;
    *(struct ledger *)state = fresh_ledger;
    return DNSCOOKIE_DONE;
}

uint32_t plain_ledger_step(uint8_t *state, size_t state_length, const uint8_t *record, size_t record_length) {
    if (!is_ledger(state, state_length)) return DNSCOOKIE_WRONG_LEDGER;
    if (record_length != DNSCOOKIE_RECORD_SIZE) return DNSCOOKIE_WRONG_RECORD;
    return plain_step((struct ledger *)state, record);
}

static inline dnscookie_written refused(unsigned number) { return (dnscookie_written){number}; }

static inline dnscookie_written written(size_t length) { return (dnscookie_written){length << 8}; }

static inline dnscookie_written put_secrets(uint8_t *output, uint64_t k0, uint64_t k1, uint64_t other0, uint64_t other1, int both) {
    memcpy(output, &k0, 8);
    memcpy(output + 8, &k1, 8);
    if (!both) return written(16);
    memcpy(output + 16, &other0, 8);
    memcpy(output + 24, &other1, 8);
    return written(32);
}

dnscookie_written plain_ledger_secrets(const uint8_t *state, size_t state_length, uint32_t member, uint8_t *output,
                                       size_t output_length) {
    if (!is_ledger(state, state_length)) return refused(DNSCOOKIE_WRONG_LEDGER);
    if (output_length < DNSCOOKIE_SECRETS_ROOM) return refused(DNSCOOKIE_NO_ROOM);
    const struct ledger *l = (const struct ledger *)state;
    if (member >= MEMBERS || !(l->members >> member & 1)) return refused(DNSCOOKIE_NO_SECRETS);
    // A member accepts both secrets once it has learnt the new one, until it drops the current one. It makes with the new one once
    // it has switched.
    int both = (l->learnt & ~l->dropped) >> member & 1;
    if (l->switched >> member & 1) return put_secrets(output, l->new0, l->new1, l->current0, l->current1, both);
    return put_secrets(output, l->current0, l->current1, l->new0, l->new1, both);
}

dnscookie_written plain_ledger_line(const uint8_t *state, size_t state_length, uint64_t number, const uint8_t *record,
                                    size_t record_length, uint32_t answer, uint8_t *output, size_t output_length) {
    if (!is_ledger(state, state_length)) return refused(DNSCOOKIE_WRONG_LEDGER);
    if (record_length != DNSCOOKIE_RECORD_SIZE) return refused(DNSCOOKIE_WRONG_RECORD);
    if (answer > DNSCOOKIE_STEP_WAIT) return refused(DNSCOOKIE_WRONG_ANSWER);
    if (output_length < DNSCOOKIE_LINE_ROOM) return refused(DNSCOOKIE_NO_ROOM);
    return written(put_line(output, (const struct ledger *)state, number, record[0], (uint8_t)answer) - output);
}
