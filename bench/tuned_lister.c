// The whole journal lister in C, tuned: numbers as texts from a table, all but the last digit of the record number kept, and the members at each
// stage counted along. What plain_lister.c is measured for is the bar; this is how far C goes.
#include <errno.h>
#include <stdlib.h>
#include <unistd.h>
#include "plain_ledger.h"

enum { BLOCK = 1 << 16, LINE = 64, DIGITS = 24 }; // a line has 42 bytes at most

// A space and a number of at most three digits, to be copied as four bytes whatever its length.
static char texts[256][4];
static uint8_t lengths[256];

// Where the digits of a number begin, which end before a place.
static char *digits_before(char *end, uint64_t number) {
    do *--end = '0' + number % 10; while (number /= 10);
    return end;
}

static void make_texts(void) {
    for (unsigned number = 0; number < 256; number++) {
        char text[4], *start = digits_before(text + 4, number);
        lengths[number] = text + 4 - start + 1;
        texts[number][0] = ' ';
        memcpy(texts[number] + 1, start, lengths[number] - 1);
    }
}

static inline char *put(char *out, unsigned number) {
    memcpy(out, texts[number], 4);
    return out + lengths[number];
}

// The number of the next record. All but its last digit change only with every tenth, so that they are kept as text.
struct counter {
    char head[DIGITS];
    size_t length;
    uint64_t tens;
    char last;
};

static void next_ten(struct counter *c) {
    char digits[DIGITS], *end = digits + DIGITS, *start = digits_before(end, ++c->tens);
    c->length = end - start;
    memcpy(c->head, start, c->length);
    c->last = '0';
}

static inline char *put_counter(char *out, struct counter *c) {
    memcpy(out, c->head, DIGITS);
    out += c->length;
    *out++ = c->last;
    if (c->last++ == '9') next_ten(c);
    return out;
}

static void write_all(const char *bytes, size_t length) {
    while (length) {
        ssize_t n = write(1, bytes, length);
        if (n < 0 && errno == EINTR) continue;
        if (n < 0) exit(1);
        bytes += n;
        length -= n;
    }
}

struct lister {
    struct ledger ledger;
    struct counter counter;
    uint8_t count, at[4]; // members, and those at each stage
};

// The members at each stage behind an accepted step.
static inline void move(struct lister *s, unsigned kind, unsigned member) {
    if (kind == START) s->count = member;
    if (!s->ledger.open) {
        memset(s->at, 0, sizeof s->at);
        s->at[0] = s->count;
    } else if (kind > OPEN) {
        s->at[kind - LEARN]--;
        s->at[kind - LEARN + 1]++;
    }
}

static inline char *put_tuned(char *out, struct lister *s, const uint8_t *record) {
    unsigned answer = plain_step(&s->ledger, record);
    if (answer == 0) move(s, record[0], record[1]);
    out = put_counter(out, &s->counter);
    out = put(out, record[0]);
    out = put(out, answer);
    out = put(out, s->ledger.open);
    for (int stage = 0; stage < 4; stage++) out = put(out, s->at[stage]);
    *out = '\n';
    return out + 1;
}

int main(void) {
    static uint8_t in[BLOCK];
    static char lines[BLOCK];
    static struct lister lister = {.ledger = {.version = VERSION}, .counter = {.last = '1'}};
    char *out = lines;
    size_t have = 0;
    make_texts();
    for (;;) {
        ssize_t n = read(0, in + have, BLOCK - have);
        if (n < 0 && errno == EINTR) continue;
        if (n < 0) return 1;
        if (n == 0) break;
        have += n;
        const uint8_t *record = in;
        for (; have >= RECORD; have -= RECORD, record += RECORD) {
            if (lines + BLOCK - out < LINE) write_all(lines, out - lines), out = lines;
            out = put_tuned(out, &lister, record);
        }
        memmove(in, record, have);
    }
    if (have) {
        memcpy(out, "short", 5);
        out = put(out + 5, have);
        *out++ = '\n';
    }
    write_all(lines, out - lines);
}
