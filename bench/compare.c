// Whether the proved functions, those in plain C and libknot answer alike. What is lent lies in blocks of its own length, so that a
// tool that watches the heap sees what goes past the end; of every output the bytes behind what was written are compared too.
#include "bench.h"
#include "journals.h"
#include "knot.h"
#include "messages.h"
#include "signing.h"

enum { OUTPUT = 64 };

// How often each number was answered.
struct tally {
    const char *name, *inputs;
    long came[256], asked, differ, knot_asked, knot_differ;
};

// Says what came of a comparison, and which answers no input led to; ends the program where two answers differ.
static void report(const struct tally *t, const uint8_t *numbers, size_t many) {
    printf("%-8s %9ld %s: ", t->name, t->asked, t->inputs);
    if (t->differ) printf("%ld DIFFER", t->differ);
    else printf("the same answers");
    if (t->knot_asked) printf(", %ld of them by libknot too: %ld differ", t->knot_asked, t->knot_differ);
    const char *before = "; never";
    for (size_t i = 0; i < many; i++)
        if (!t->came[numbers[i]]) printf("%s %d", before, numbers[i]), before = ",";
    printf("\n");
    if (t->differ) exit(1);
}

#define REPORT(tally, ...)                                          \
    do {                                                            \
        static const uint8_t numbers[] = {__VA_ARGS__};             \
        report(tally, numbers, sizeof numbers);                     \
    } while (0)

static uint8_t *copy_of(const void *p, size_t n) {
    uint8_t *copy = malloc(n + !n);
    if (!copy) perror("malloc"), exit(1);
    memcpy(copy, p, n);
    return copy;
}

// An output of two sides, the same before.
struct outputs {
    size_t length;
    uint8_t *by[2];
};

static struct outputs new_outputs(size_t length) {
    uint8_t before[OUTPUT];
    fill(before, sizeof before);
    return (struct outputs){length, {copy_of(before, length), copy_of(before, length)}};
}

// Whether the sides left different bytes.
static int end_outputs(struct outputs *o) {
    int differ = memcmp(o->by[0], o->by[1], o->length) != 0;
    free(o->by[0]);
    free(o->by[1]);
    return differ;
}

// A length that is mostly as it should be.
static size_t mostly(size_t right, size_t most) { return below(32) ? right : below(most + 1); }
static size_t room_for(size_t least) { return below(32) ? least + below(OUTPUT - least + 1) : below(least); }

// ---- siphash

static void compare_siphash(long count) {
    static uint8_t message[LONGEST];
    struct tally t = {.name = "siphash", .inputs = "messages of 0 to 65,535 bytes"};
    for (; t.asked < count; t.asked++) {
        uint8_t secret[33];
        size_t n = t.asked % 1000 ? below(300) : below(LONGEST + 1), secret_length = mostly(16, 33);
        fill(secret, sizeof secret);
        fill(message, n);
        uint8_t *key = copy_of(secret, secret_length), *lent = copy_of(message, n);
        struct outputs o = new_outputs(room_for(8));
        uint32_t a = proved.siphash24(key, secret_length, lent, n, o.by[0], o.length);
        uint32_t b = plain.siphash24(key, secret_length, lent, n, o.by[1], o.length);
        t.differ += end_outputs(&o) | (a != b);
        t.came[b & 255]++;
        free(key), free(lent);
    }
    REPORT(&t, 0, 102, 107);
}

// ---- cookies

// What every call on a cookie has: who holds which secrets, in which mode, when, and who asks.
struct holder {
    uint32_t mode, clock;
    uint8_t secrets[40], address[24];
    size_t secrets_length, address_length;
};

static void random_holder(struct holder *h) {
    fill(h, sizeof *h);
    h->mode = below(64) ? below(8) ? 1 + below(2) : 0 : 3 + below(1000);
    h->clock = random_clock();
    h->secrets_length = below(2) ? mostly(16, 40) : mostly(32, 40);
    h->address_length = below(2) ? mostly(4, 20) : mostly(16, 20);
}

static const uint8_t *one_of_secrets(const struct holder *h) { return h->secrets + (below(3) ? 0 : 16); }

#ifdef LIBKNOT
static int knot_can_judge(const struct holder *h) {
    int secrets = h->secrets_length == 16 || h->secrets_length == 32, address = h->address_length == 4 || h->address_length == 16;
    return knot_clock(h->clock) && secrets && address;
}

static void compare_knot_cookie(struct tally *t, const struct holder *h, const uint8_t *body, int good, const uint8_t *fresh) {
    knot_edns_cookie_params_t params[2] = {knot_params(h->secrets, h->clock), knot_params(h->secrets + 16, h->clock)};
    struct sockaddr_storage from = knot_address(h->address, h->address_length);
    knot_edns_cookie_t client = {.len = 8}, server = {.len = 16};
    memcpy(client.data, body, 8);
    memcpy(server.data, body + 8, 16);
    t->knot_asked++;
    t->knot_differ += knot_judge(&server, &client, &from, params, h->secrets_length / 16) != good;
    params[0].client_addr = &from;
    if (!fresh) return;
    int made = knot_edns_cookie_server_generate(&server, &client, &params[0]) == KNOT_EOK && server.len == 16;
    t->knot_differ += !made || memcmp(server.data, fresh + 12, 16) != 0;
}
#endif

static void compare_cookies(long count) {
    struct tally judge = {.name = "judge", .inputs = "cookies"}, make = {.name = "make", .inputs = "options"};
    for (; judge.asked < count; judge.asked++, make.asked++) {
        struct holder h;
        uint8_t body[44];
        random_holder(&h);
        size_t body_length = below(8) ? 24 : below(8) ? below(45) : 8, client_length = mostly(8, 12);
        fill(body, sizeof body);
        sign_randomly(body, one_of_secrets(&h), h.clock, h.address, h.address_length);
        uint8_t *secrets = copy_of(h.secrets, h.secrets_length), *address = copy_of(h.address, h.address_length);
        uint8_t *lent = copy_of(body, body_length), *client = copy_of(body, client_length);
        struct outputs o = new_outputs(room_for(28));
        dnscookie_judged a = proved.judge(h.mode, secrets, h.secrets_length, h.clock, address, h.address_length, lent, body_length);
        dnscookie_judged b = plain.judge(h.mode, secrets, h.secrets_length, h.clock, address, h.address_length, lent, body_length);
        judge.differ += a.bits != b.bits;
        judge.came[dnscookie_judged_number(b)]++;
        uint32_t c = proved.make(secrets, h.secrets_length, h.clock, address, h.address_length, client, client_length, o.by[0], o.length);
        uint32_t d = plain.make(secrets, h.secrets_length, h.clock, address, h.address_length, client, client_length, o.by[1], o.length);
        make.came[d & 255]++;
#ifdef LIBKNOT
        if (knot_can_judge(&h) && h.mode - 1 < 2 && body_length == 24)
            compare_knot_cookie(&judge, &h, body, dnscookie_is_good(dnscookie_judged_number(b)), d == DNSCOOKIE_DONE ? o.by[1] : 0);
#endif
        make.differ += end_outputs(&o) | (c != d);
        free(secrets), free(address), free(lent), free(client);
    }
    REPORT(&judge, 2, 10, 101, 102, 200, 202, 203, 204, 205, 206, 207);
    REPORT(&make, 0, 1, 2, 102, 103);
}

// ---- requests

static struct message message;

// A message, whole or damaged. Where its first COOKIE body is one of 24 bytes, it is signed before.
static void random_request(struct message *m, const struct holder *h) {
    whole_message(m);
    dnscookie_found found = plain_find(m->bytes, m->length);
    uint8_t *body = m->bytes + dnscookie_found_start(found);
    if (dnscookie_found_number(found) == DNSCOOKIE_DONE && dnscookie_found_end(found) - dnscookie_found_start(found) == 24)
        sign_randomly(body, one_of_secrets(h), h->clock, h->address, h->address_length);
    if (below(2)) damage_message(m);
}

#ifdef LIBKNOT
// libknot looks into records and pointers that we step over, and takes the last COOKIE option of several: it is asked only where it
// finds the cookie that we judge.
static void compare_knot_request(struct tally *t, const struct holder *h, const uint8_t *bytes, size_t length, dnscookie_found found,
                                 int good) {
    knot_edns_cookie_params_t params[2] = {knot_params(h->secrets, h->clock), knot_params(h->secrets + 16, h->clock)};
    struct sockaddr_storage from = knot_address(h->address, h->address_length);
    const uint8_t *body = bytes + dnscookie_found_start(found);
    size_t n = dnscookie_found_end(found) - dnscookie_found_start(found);
    uint8_t *option;
    knot_pkt_t *packet = knot_find(bytes, length, &option);
    if (option && knot_edns_opt_get_length(option) == n && memcmp(knot_edns_opt_get_data(option), body, n) == 0) {
        knot_edns_cookie_t client, server;
        int judged = knot_edns_cookie_parse(&client, &server, body, n) == KNOT_EOK
                     && knot_judge(&server, &client, &from, params, h->secrets_length / 16);
        t->knot_asked++;
        t->knot_differ += judged != good;
    }
    knot_pkt_free(packet);
}
#endif

static void compare_request(struct tally *find, struct tally *respond, struct message *m, const struct holder *h) {
    uint8_t *secrets = copy_of(h->secrets, h->secrets_length), *address = copy_of(h->address, h->address_length);
    uint8_t *bytes = copy_of(m->bytes, m->length);
    struct outputs o = new_outputs(room_for(28));
    dnscookie_found a = proved.find(bytes, m->length), b = plain.find(bytes, m->length);
    dnscookie_answer c = proved.respond(h->mode, secrets, h->secrets_length, h->clock, address, h->address_length, bytes, m->length,
                                        o.by[0], o.length);
    dnscookie_answer d = plain.respond(h->mode, secrets, h->secrets_length, h->clock, address, h->address_length, bytes, m->length,
                                       o.by[1], o.length);
    unsigned number = dnscookie_answer_number(d);
    find->differ += a.bits != b.bits;
    find->came[dnscookie_found_number(b)]++;
    respond->differ += end_outputs(&o) | (c.bits != d.bits);
    respond->came[number]++;
#ifdef LIBKNOT
    if (number > DNSCOOKIE_CLIENT_ONLY && knot_can_judge(h))
        compare_knot_request(respond, h, bytes, m->length, b, dnscookie_is_good(number));
#endif
    find->asked++;
    respond->asked++;
    free(secrets), free(address), free(bytes);
}

static void compare_requests(long count) {
    static const size_t lengths[] = {100, 1000, 10000, LONGEST - 1, LONGEST};
    struct tally find = {.name = "find", .inputs = "messages, whole or damaged"};
    struct tally respond = {.name = "respond", .inputs = "requests, whole or damaged"};
    struct holder h;
    for (long i = 0; i < count; i++) {
        random_holder(&h);
        random_request(&message, &h);
        compare_request(&find, &respond, &message, &h);
    }
    // Each shape that is measured, whole, cut and a byte too long.
    for (enum shape shape = 0; shape < SHAPES; shape++)
        for (size_t i = 0; i < sizeof lengths / sizeof *lengths; i++)
            for (int k = 0; k < 3; k++) {
                random_holder(&h);
                shape_message(&message, shape, lengths[i]);
                if (k == 1) message.length = below(message.length);
                if (k == 2) put_random(&message, 1);
                compare_request(&find, &respond, &message, &h);
            }
    REPORT(&find, 0, 3, 4, 5, 6, 7, 8, 9, 10, 201);
    REPORT(&respond, 1, 2, 3, 4, 5, 6, 7, 8, 9, 10, 101, 102, 200, 201, 202, 203, 204, 205, 206, 207);
}

// ---- ledgers

struct ledgers {
    struct tally step, secrets, line;
};

// Everything that is asked of a ledger between two steps. Answers of steps are at most 10, and now and then something else is handed over.
static void compare_ledger(struct ledgers *t, const uint8_t *state, size_t length, uint64_t number, const uint8_t *record,
                           size_t record_length, uint32_t answer) {
    uint32_t member = below(8) ? below(MEMBERS) : below(1000);
    struct outputs o = new_outputs(room_for(32)), p = new_outputs(room_for(47));
    dnscookie_written a = proved.secrets(state, length, member, o.by[0], o.length);
    dnscookie_written b = plain.secrets(state, length, member, o.by[1], o.length);
    dnscookie_written c = proved.line(state, length, number, record, record_length, answer, p.by[0], p.length);
    dnscookie_written d = plain.line(state, length, number, record, record_length, answer, p.by[1], p.length);
    t->secrets.differ += end_outputs(&o) | (a.bits != b.bits);
    t->secrets.came[dnscookie_written_number(b)]++;
    t->secrets.asked++;
    t->line.differ += end_outputs(&p) | (c.bits != d.bits);
    t->line.came[dnscookie_written_number(d)]++;
    t->line.asked++;
}

// The next record of a journal, by the ledger so far: as good as it can be or damaged, and the last ones at the end of all times.
static void random_record(uint8_t *record, const struct ledger *l, unsigned members, int damaged, int last) {
    struct step s = onward(l, members);
    if (last) s.time = latest - 1 + below(3);
    if (damaged) damage_step(&s, l);
    put_step(record, &s);
}

// One call with a state that is no ledger, or a length that is not right; the journal goes on from where it was.
static void compare_damaged(struct ledgers *t, const uint8_t *state, const uint8_t record[RECORD]) {
    uint8_t damaged[80], longer[40];
    size_t length = mostly(68, sizeof damaged), record_length = mostly(RECORD, sizeof longer);
    fill(damaged, sizeof damaged);
    fill(longer, sizeof longer);
    memcpy(damaged, state, 68);
    memcpy(longer, record, RECORD);
    if (below(2)) damaged[below(4)] = 2 + below(254);
    uint8_t *a = copy_of(damaged, length), *b = copy_of(damaged, length), *lent = copy_of(longer, record_length);
    uint32_t c = proved.step(a, length, lent, record_length), d = plain.step(b, length, lent, record_length);
    t->step.differ += c != d || memcmp(a, b, length) != 0;
    t->step.came[d]++;
    compare_ledger(t, a, length, next(), longer, record_length, below(16));
    free(a), free(b), free(lent);
}

// A journal offered to both.
static void compare_journal(struct ledgers *t, long records) {
    unsigned members = below(8) ? 1 + below(MEMBERS) : below(2) ? MEMBERS + 1 : 0, out_of = 1 + below(4);
    struct ledger *l = malloc(sizeof *l);
    uint8_t *a = malloc(sizeof *l), *b = (uint8_t *)l;
    if (!a || !l) perror("malloc"), exit(1);
    t->step.differ += proved.fresh(a, sizeof *l) != 0 || plain.fresh(b, sizeof *l) != 0 || memcmp(a, b, sizeof *l) != 0;
    for (long i = 0; i < records; i++, t->step.asked++) {
        uint8_t record[RECORD];
        random_record(record, l, members, below(out_of) != 0, records - i < 4);
        if (!below(64)) compare_damaged(t, b, record);
        uint32_t c = proved.step(a, sizeof *l, record, RECORD), d = plain.step(b, sizeof *l, record, RECORD);
        t->step.differ += c != d || memcmp(a, b, sizeof *l) != 0;
        t->step.came[d]++;
        if (t->step.differ) break; // nothing more to be learnt of two ledgers
        compare_ledger(t, b, sizeof *l, below(8) ? (uint64_t)i : next() >> below(64), record, RECORD, c);
    }
    free(a), free(l);
}

static void compare_ledgers(long count) {
    struct ledgers t = {
        .step = {.name = "step", .inputs = "steps"},
        .secrets = {.name = "secrets", .inputs = "members' secrets"},
        .line = {.name = "line", .inputs = "lines"},
    };
    while (t.step.asked < count && !t.step.differ) compare_journal(&t, below(16) ? below(16) : below(4096));
    REPORT(&t.step, 0, 1, 2, 3, 4, 5, 6, 7, 8, 9, 10, 104, 105);
    REPORT(&t.secrets, 0, 104, 107, 108);
    REPORT(&t.line, 0, 104, 105, 106, 107);
}

void compare_all(long count) {
    compare_siphash(count);
    compare_cookies(count);
    compare_requests(count);
    compare_ledgers(count);
}
