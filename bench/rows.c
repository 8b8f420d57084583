// The rows of the table, each a function of the library or two: what each side is asked, on which inputs.
#include "bench.h"
#include "journals.h"
#include "knot.h"
#include "messages.h"
#include "signing.h"

// ---- the rows

enum task { SIPHASH, JUDGE, MAKE, FIND, RESPOND, STEP, SECRETS, SECRETS_MAKE, SECRETS_JUDGE, LINE, TASKS };

static const enum bar bars[TASKS] = {[SIPHASH] = SIPHASH_BAR, [JUDGE] = JUDGE_BAR, [FIND] = FIND_BAR, [RESPOND] = RESPOND_BAR};

// Whose hash the cookie of a message has, and how old it is: up to 1,799 seconds, 1,801 or 3,601 more for those that are OLD or PAST.
enum cookie { YOUNG, OLD, PAST, BY_OTHER, BY_NEITHER };

// How libknot is asked: where it can't be, or does less than the others do.
enum asked { LIKE_THE_OTHERS, LESS, NOT };

enum { ANY_REFUSAL = DNSCOOKIE_STEP_KIND };

struct row {
    const char *name;
    enum task task;
    unsigned number; // that is answered
    enum cookie cookie;
    size_t address; // bytes of the client's
    size_t hashed;  // bytes of what is hashed
    enum shape shape;
    size_t length; // where the shape is of any
    int disabled;
    enum asked knot;
};

static const struct row rows[] = {
    {.name = "siphash, 20 bytes (IPv4)", .task = SIPHASH, .hashed = 20},
    {.name = "siphash, 32 bytes (IPv6)", .task = SIPHASH, .hashed = 32},
    {.name = "judge, good, IPv4", .task = JUDGE, .number = DNSCOOKIE_GOOD_GENERATING, .address = 4},
    {.name = "judge, good, IPv6", .task = JUDGE, .number = DNSCOOKIE_GOOD_GENERATING, .address = 16},
    {.name = "judge, good under the other secret", .task = JUDGE, .number = DNSCOOKIE_GOOD_OTHER, .cookie = BY_OTHER, .address = 4},
    {.name = "judge, bad hash", .task = JUDGE, .number = DNSCOOKIE_BAD_HASH, .cookie = BY_NEITHER, .address = 4},
    {.name = "judge, bad time", .task = JUDGE, .number = DNSCOOKIE_BAD_TIME, .cookie = PAST, .address = 4, .knot = LESS},
    {.name = "make, IPv4", .task = MAKE, .address = 4},
    {.name = "make, IPv6", .task = MAKE, .address = 16},
    {.name = "find, 73-byte query with a cookie", .task = FIND},
    {.name = "find, 34-byte query without OPT", .task = FIND, .number = DNSCOOKIE_ABSENT, .shape = NO_OPT},
    {.name = "find, 469 bytes, six options before it", .task = FIND, .shape = SIX_OPTIONS},
    {.name = "find, 310 bytes, a name of 127 labels", .task = FIND, .shape = LONG_NAME},
    {.name = "find, 65,535 bytes of labels", .task = FIND, .shape = LABELS, .length = LONGEST, .knot = NOT},
    {.name = "find, 65,535 bytes of records", .task = FIND, .shape = RECORDS, .length = LONGEST},
    {.name = "find, 65,535 bytes of options", .task = FIND, .shape = OPTIONS, .length = LONGEST},
    {.name = "respond, 73 bytes, good: kept, IPv4", .task = RESPOND, .number = DNSCOOKIE_GOOD_GENERATING, .address = 4},
    {.name = "respond, 73 bytes, good: kept, IPv6", .task = RESPOND, .number = DNSCOOKIE_GOOD_GENERATING, .address = 16},
    {.name = "respond, 73 bytes, good, old: fresh", .task = RESPOND, .number = DNSCOOKIE_GOOD_GENERATING, .cookie = OLD, .address = 4},
    {.name = "respond, 73 bytes, other secret: fresh", .task = RESPOND, .number = DNSCOOKIE_GOOD_OTHER, .cookie = BY_OTHER, .address = 4},
    {.name = "respond, 73 bytes, bad hash: fresh", .task = RESPOND, .number = DNSCOOKIE_BAD_HASH, .cookie = BY_NEITHER, .address = 4},
    {.name = "respond, 57 bytes, client cookie: fresh", .task = RESPOND, .number = DNSCOOKIE_CLIENT_ONLY, .address = 4, .shape = CLIENT_QUERY},
    {.name = "respond, 34 bytes, no cookie", .task = RESPOND, .number = DNSCOOKIE_ABSENT, .address = 4, .shape = NO_OPT},
    {.name = "respond, 73 bytes, disabled", .task = RESPOND, .number = DNSCOOKIE_IGNORED, .address = 4, .disabled = 1, .knot = NOT},
    {.name = "ledger, step accepted", .task = STEP},
    {.name = "ledger, step refused", .task = STEP, .number = ANY_REFUSAL},
    {.name = "ledger, a member's secrets", .task = SECRETS},
    {.name = "secrets asked, cookie made", .task = SECRETS_MAKE, .address = 4},
    {.name = "secrets asked, cookie judged", .task = SECRETS_JUDGE, .number = DNSCOOKIE_GOOD_GENERATING, .address = 4},
    {.name = "ledger, line of a listing", .task = LINE},
};
const int rows_in_all = sizeof rows / sizeof *rows;

static const struct row *row; // that is measured

// ---- inputs

enum { SETS = 16, INPUTS = 64, STEPS = 2048, SLOT = 48 };

struct request {
    const uint8_t *message, *body;
    size_t length;
    uint8_t address[16];
};

static size_t inputs; // of each set
static struct request requests[SETS][INPUTS];
static uint8_t pool[1 << 21] __attribute__((aligned(64)));
static const uint32_t now = 1750000000;
static uint8_t secrets[48]; // the generating one, the other, and one that nobody holds
static size_t secrets_length;

// Of each set a ledger, one of its members, and records to be offered to it.
static uint8_t states[SETS][DNSCOOKIE_LEDGER_SIZE], records[SETS][STEPS][RECORD];
static uint32_t members[SETS];

// What a line is made of.
static struct line {
    uint8_t state[DNSCOOKIE_LEDGER_SIZE], record[RECORD];
    uint32_t answer;
    uint64_t number;
} lines[SETS][INPUTS];

static void sign_for_row(uint8_t *body, const uint8_t *address) {
    uint32_t least = row->cookie == OLD ? 1801 : row->cookie == PAST ? 3601 : 0;
    const uint8_t *secret = secrets + (row->cookie == BY_OTHER ? 16 : row->cookie == BY_NEITHER ? 32 : 0);
    memcpy(body + 8, "\1\0\0\0", 4);
    sign(body, secret, now - least - below(1800), address, row->address);
}

// A message with its own name, cookie, age and address, laid at a place of the pool. The place behind it.
static uint8_t *prepare_request(struct request *r, uint8_t *place) {
    static struct message m;
    shape_message(&m, row->shape, row->length);
    fill(r->address, sizeof r->address);
    dnscookie_found found = plain_find(m.bytes, m.length);
    size_t start = dnscookie_found_start(found);
    if (dnscookie_found_end(found) - start == 24) sign_for_row(m.bytes + start, r->address);
    memcpy(place, m.bytes, m.length);
    r->message = place;
    r->body = place + start;
    r->length = m.length;
    return place + (m.length + 63) / 64 * 64;
}

static void prepare_requests(void) {
    uint8_t *place = pool;
    secrets_length = row->cookie == BY_OTHER ? 32 : 16;
    inputs = row->length ? 1 : INPUTS;
    for (size_t set = 0; set < SETS; set++) {
        if (row->task == SECRETS_JUDGE) plain_ledger_secrets(states[set], sizeof states[set], members[set], secrets, 32);
        for (size_t i = 0; i < inputs; i++) place = prepare_request(&requests[set][i], place);
    }
}

// A fleet of which half the members have learnt, switched or dropped, and which one of them asks.
static void prepare_fleet(size_t set) {
    struct ledger l = fresh_ledger;
    uint8_t record[RECORD];
    uint32_t half;
    do {
        next_record(record, &l, MEMBERS, 1);
        half = set % 3 == 0 ? l.learnt : set % 3 == 1 ? l.switched : l.dropped;
    } while (count(half) != MEMBERS / 2);
    memcpy(states[set], &l, sizeof l);
    members[set] = below(MEMBERS);
}

// Steps of whole rollovers; or, of a fleet that is half-way through one, steps that are all refused.
static void prepare_steps(size_t set) {
    struct ledger l;
    int accepted = row->number != ANY_REFUSAL;
    if (accepted) memcpy(states[set], &fresh_ledger, sizeof l);
    memcpy(&l, states[set], sizeof l);
    for (size_t i = 0; i < STEPS; i++) next_record(records[set][i], &l, MEMBERS, accepted);
    inputs = STEPS;
}

// Records here and there in a journal of a million.
static void prepare_lines(size_t set) {
    struct ledger l = fresh_ledger;
    for (size_t i = 0; i < INPUTS; i++) {
        struct line *line = &lines[set][i];
        uint8_t record[RECORD];
        for (uint32_t skip = below(8); skip > 0; skip--) next_record(record, &l, MEMBERS, 1);
        struct ledger before = l;
        next_record(record, &l, MEMBERS, below(2) == 0);
        line->answer = plain_step(&before, record);
        memcpy(line->record, record, RECORD);
        line->number = 1 + below(1000000);
        memcpy(line->state, &l, sizeof l);
    }
    inputs = INPUTS;
}

static void prepare(void) {
    fill(secrets, sizeof secrets);
    for (size_t set = 0; set < SETS; set++) {
        prepare_fleet(set);
        if (row->task == STEP) prepare_steps(set);
        if (row->task == LINE) prepare_lines(set);
    }
    if (row->task != STEP && row->task != LINE) prepare_requests();
}

// ---- passes. Answers and outputs are left in tables, so that they can be compared.

static uint64_t answers[STEPS];
static uint8_t outputs[INPUTS][SLOT] __attribute__((aligned(64)));

static void siphash_pass(const struct library *l, size_t set) {
    for (size_t i = 0; i < inputs; i++)
        answers[i] = l->siphash24(secrets, 16, requests[set][i].message, row->hashed, outputs[i], 8);
}

static void judge_pass(const struct library *l, size_t set) {
    for (size_t i = 0; i < inputs; i++) {
        const struct request *r = &requests[set][i];
        answers[i] = l->judge(DNSCOOKIE_ENABLED, secrets, secrets_length, now, r->address, row->address, r->body, 24).bits;
    }
}

static void make_pass(const struct library *l, size_t set) {
    for (size_t i = 0; i < inputs; i++) {
        const struct request *r = &requests[set][i];
        answers[i] = l->make(secrets, secrets_length, now, r->address, row->address, r->body, 8, outputs[i], 28);
    }
}

static void find_pass(const struct library *l, size_t set) {
    for (size_t i = 0; i < inputs; i++) answers[i] = l->find(requests[set][i].message, requests[set][i].length).bits;
}

static void respond_pass(const struct library *l, size_t set) {
    uint32_t mode = row->disabled ? DNSCOOKIE_DISABLED : DNSCOOKIE_ENABLED;
    for (size_t i = 0; i < inputs; i++) {
        const struct request *r = &requests[set][i];
        answers[i] = l->respond(mode, secrets, secrets_length, now, r->address, row->address, r->message, r->length, outputs[i], 28).bits;
    }
}

static void step_pass(const struct library *l, size_t set) {
    uint8_t state[DNSCOOKIE_LEDGER_SIZE];
    memcpy(state, states[set], sizeof state);
    for (size_t i = 0; i < inputs; i++) answers[i] = l->step(state, sizeof state, records[set][i], RECORD);
}

static void secrets_pass(const struct library *l, size_t set) {
    for (size_t i = 0; i < inputs; i++) answers[i] = l->secrets(states[set], sizeof states[set], members[set], outputs[i], 32).bits;
}

static void secrets_make_pass(const struct library *l, size_t set) {
    uint8_t held[DNSCOOKIE_SECRETS_ROOM];
    for (size_t i = 0; i < inputs; i++) {
        const struct request *r = &requests[set][i];
        size_t n = dnscookie_written_length(l->secrets(states[set], sizeof states[set], members[set], held, sizeof held));
        answers[i] = l->make(held, n, now, r->address, row->address, r->body, 8, outputs[i], 28);
    }
}

static void secrets_judge_pass(const struct library *l, size_t set) {
    uint8_t held[DNSCOOKIE_SECRETS_ROOM];
    for (size_t i = 0; i < inputs; i++) {
        const struct request *r = &requests[set][i];
        size_t n = dnscookie_written_length(l->secrets(states[set], sizeof states[set], members[set], held, sizeof held));
        answers[i] = l->judge(DNSCOOKIE_ENABLED, held, n, now, r->address, row->address, r->body, 24).bits;
    }
}

static void line_pass(const struct library *l, size_t set) {
    for (size_t i = 0; i < inputs; i++) {
        const struct line *line = &lines[set][i];
        answers[i] = l->line(line->state, sizeof line->state, line->number, line->record, RECORD, line->answer, outputs[i], SLOT).bits;
    }
}

static void (*const passes[TASKS])(const struct library *l, size_t set) = {
    [SIPHASH] = siphash_pass, [JUDGE] = judge_pass, [MAKE] = make_pass, [FIND] = find_pass, [RESPOND] = respond_pass, [STEP] = step_pass,
    [SECRETS] = secrets_pass, [SECRETS_MAKE] = secrets_make_pass, [SECRETS_JUDGE] = secrets_judge_pass, [LINE] = line_pass,
};

// ---- libknot

#ifdef LIBKNOT
static struct {
    struct sockaddr_storage from;
    knot_edns_cookie_t client, server;
} knot_requests[SETS][INPUTS];
static knot_edns_cookie_params_t knot_secrets[2];

static void prepare_knot(void) {
    for (int i = 0; i < 2; i++) knot_secrets[i] = knot_params(secrets + 16 * i, now);
    for (size_t set = 0; set < SETS; set++)
        for (size_t i = 0; i < inputs; i++) {
            const struct request *r = &requests[set][i];
            knot_requests[set][i].from = knot_address(r->address, row->address);
            knot_edns_cookie_parse(&knot_requests[set][i].client, &knot_requests[set][i].server, r->body, 24);
        }
}

// The cookies are parsed before.
static void knot_judge_pass(size_t set) {
    for (size_t i = 0; i < inputs; i++)
        answers[i] = knot_judge(&knot_requests[set][i].server, &knot_requests[set][i].client, &knot_requests[set][i].from, knot_secrets,
                                secrets_length / 16);
}

// The 16 bytes of a server cookie are made, and no option of them.
static void knot_make_pass(size_t set) {
    for (size_t i = 0; i < inputs; i++) {
        knot_secrets[0].client_addr = &knot_requests[set][i].from;
        answers[i] = knot_edns_cookie_server_generate((knot_edns_cookie_t *)outputs[i], &knot_requests[set][i].client, knot_secrets);
    }
}

// The answer is the client cookie.
static void knot_find_pass(size_t set) {
    for (size_t i = 0; i < inputs; i++) {
        uint8_t *option;
        knot_pkt_t *packet = knot_find(requests[set][i].message, requests[set][i].length, &option);
        answers[i] = 0;
        if (option) memcpy(&answers[i], knot_edns_opt_get_data(option), 8);
        knot_pkt_free(packet);
    }
}

// The answer is whether a cookie is good. What is sent is written, without the option's head: that cookie, or a fresh one.
static void knot_respond_pass(size_t set) {
    int fresh = row->cookie != YOUNG || row->shape == CLIENT_QUERY;
    for (size_t i = 0; i < inputs; i++) {
        const struct sockaddr_storage *from = &knot_requests[set][i].from;
        uint8_t *option;
        knot_pkt_t *packet = knot_find(requests[set][i].message, requests[set][i].length, &option);
        answers[i] = 0;
        if (option) {
            knot_edns_cookie_t client, server;
            knot_edns_cookie_parse(&client, &server, knot_edns_opt_get_data(option), knot_edns_opt_get_length(option));
            if (server.len) answers[i] = knot_judge(&server, &client, from, knot_secrets, secrets_length / 16);
            knot_secrets[0].client_addr = from;
            if (fresh) knot_edns_cookie_server_generate(&server, &client, knot_secrets);
            knot_edns_cookie_write(outputs[i] + 4, 24, &client, &server);
        }
        knot_pkt_free(packet);
    }
}

static void (*const knot_passes[TASKS])(size_t set) = {
    [JUDGE] = knot_judge_pass, [MAKE] = knot_make_pass, [FIND] = knot_find_pass, [RESPOND] = knot_respond_pass,
};

static int has_knot(void) { return knot_passes[row->task] && row->knot != NOT; }
#else
static int has_knot(void) { return 0; }
#endif

static uint64_t pass(enum side side, size_t set) {
#ifdef LIBKNOT
    if (side == KNOT) knot_passes[row->task](set);
#endif
    if (side != KNOT) passes[row->task](side == PROVED ? &proved : &plain, set);
    return answers[inputs - 1] + outputs[inputs % INPUTS][0];
}

// ---- whether the sides agree on a row's inputs

static void fail(const char *what) {
    fprintf(stderr, "%s: %s\n", row->name, what);
    exit(1);
}

static int is_expected(uint64_t answer) {
    if (row->task == SECRETS) return answer == 16 << 8 || answer == 32 << 8;
    if (row->task == LINE) return (answer & 0xff) == DNSCOOKIE_DONE;
    if (row->task == STEP) return (answer == DNSCOOKIE_DONE) == (row->number != ANY_REFUSAL);
    return (answer & 0xff) == row->number;
}

#ifdef LIBKNOT
// What libknot left, against what the proved functions had left.
static void check_knot(size_t set, const uint64_t *expected, uint8_t written[INPUTS][SLOT]) {
    int none = row->shape == NO_OPT;
    memset(outputs, 0, sizeof outputs);
    pass(KNOT, set);
    for (size_t i = 0; i < inputs; i++) {
        uint64_t client = 0;
        if (!none) memcpy(&client, requests[set][i].body, 8);
        int good = dnscookie_is_good(expected[i] & 0xff);
        if (row->task == MAKE ? answers[i] != 0 || memcmp(outputs[i], written[i] + 12, 16) != 0
            : row->task == FIND ? answers[i] != client
            : answers[i] != (uint64_t)good || memcmp(outputs[i] + 4, written[i] + 4, 24) != 0) fail("libknot has another answer");
    }
}
#endif

static void check(void) {
    static uint64_t expected[STEPS];
    static uint8_t written[INPUTS][SLOT];
    for (size_t set = 0; set < SETS; set++) {
        memset(outputs, 0, sizeof outputs);
        pass(PROVED, set);
        memcpy(expected, answers, sizeof answers);
        memcpy(written, outputs, sizeof outputs);
        for (size_t i = 0; i < inputs; i++)
            if (!is_expected(answers[i])) fail("another answer than the row's");
        memset(outputs, 0, sizeof outputs);
        pass(PLAIN, set);
        int same = memcmp(answers, expected, sizeof answers) == 0 && memcmp(outputs, written, sizeof outputs) == 0;
        if (!same) fail("plain C has another answer");
#ifdef LIBKNOT
        if (has_knot()) check_knot(set, expected, written);
#endif
    }
}

void measure_rows(int rounds) {
    for (int i = 0; i < rows_in_all; i++) {
        row = &rows[i];
        begin_row(row->name);
        prepare();
#ifdef LIBKNOT
        if (has_knot()) prepare_knot();
#endif
        check();
        struct work w = {.pass = pass, .knot = has_knot(), .sets = SETS, .operations = inputs, .rounds = rounds};
        if (row->length) w.rounds = rounds / 8 + 1; // one message is as long as a round of others
        struct times t = measure(&w);
        print_row(row->name, bars[row->task], &t, row->knot == LESS);
    }
}
