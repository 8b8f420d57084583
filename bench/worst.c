// The worst messages: what finding the cookie and answering the request cost against the message's length.
#include "bench.h"
#include "messages.h"
#include "signing.h"

enum { LENGTHS = 4, POOL = 1 << 19, PLOT = 40 };
static const size_t lengths[LENGTHS] = {100, 1000, 10000, LONGEST};

static const struct {
    const char *name;
    enum shape shape;
} shapes[] = {
    {"labels of 1 byte", LABELS},
    {"options without data", OPTIONS},
    {"COOKIE options without data", COOKIES},
    {"records without data", RECORDS},
    {"the same, owned by a pointer", POINTERS},
    {"the same, owned by a label", OWNERS},
    {"the same, of these three by chance", MIXED},
};
enum { KINDS = sizeof shapes / sizeof *shapes };
const int worst_in_all = KINDS * LENGTHS * 2;

// Messages of one length, one behind the other: as many as fill the pool, so that short ones can be learnt no better by caches and
// branch predictors than long ones.
static uint8_t pool[POOL] __attribute__((aligned(64)));
static size_t length, stride, many;
static int responds;

static const uint32_t now = 1750000000;
static uint8_t secret[16], address[4];

// Messages with a good cookie that is old, so that a fresh one is made.
static void prepare(enum shape shape) {
    static struct message m;
    stride = (length + 63) / 64 * 64;
    many = POOL / stride;
    fill(secret, sizeof secret);
    fill(address, sizeof address);
    for (size_t i = 0; i < many; i++) {
        shape_message(&m, shape, length);
        uint8_t *body = m.bytes + dnscookie_found_start(plain_find(m.bytes, m.length));
        memcpy(body + 8, "\1\0\0\0", 4);
        sign(body, secret, now - 2000, address, sizeof address);
        memcpy(pool + stride * i, m.bytes, m.length);
    }
}

static uint64_t ask(const struct library *l, size_t i, uint8_t output[DNSCOOKIE_OPTION_SIZE]) {
    const uint8_t *message = pool + stride * i;
    if (!responds) return l->find(message, length).bits;
    return l->respond(DNSCOOKIE_ENABLED, secret, 16, now, address, 4, message, length, output, DNSCOOKIE_OPTION_SIZE).bits;
}

static uint64_t pass(enum side side, size_t set) {
    uint8_t output[DNSCOOKIE_OPTION_SIZE] = {0};
    uint64_t sum = 0;
    (void)set;
    for (size_t i = 0; i < many; i++) sum += ask(side == PROVED ? &proved : &plain, i, output);
    return sum + output[27];
}

static void check(const char *name) {
    for (size_t i = 0; i < many; i++) {
        uint8_t output[2][DNSCOOKIE_OPTION_SIZE] = {{0}};
        uint64_t a = ask(&proved, i, output[0]), b = ask(&plain, i, output[1]);
        int expected = responds ? dnscookie_answer_option((dnscookie_answer){a}) == DNSCOOKIE_FRESH : (a & 0xff) == DNSCOOKIE_DONE;
        if (expected && a == b && memcmp(output[0], output[1], sizeof output[0]) == 0) continue;
        fprintf(stderr, "%s: other answers\n", name);
        exit(1);
    }
}

static struct times measure_shape(const char *name, enum shape shape, int rounds) {
    begin_row(name);
    prepare(shape);
    check(name);
    struct work w = {.pass = pass, .sets = 1, .operations = many, .rounds = rounds / 64 + 1};
    struct times t = measure(&w);
    end_row();
    return t;
}

static void plot(double ns) {
    for (int i = 0; i < ns * PLOT && i < 2 * PLOT; i++) putchar('#');
}

static void measure_function(const char *function, int rounds) {
    printf("%-40s", function);
    for (int k = 0; k < LENGTHS; k++) printf(" %7zu", lengths[k]);
    printf("   to C  at %zu: # is %g ns a byte\n", lengths[LENGTHS - 1], 1.0 / PLOT);
    for (int i = 0; i < KINDS; i++) {
        struct times t;
        printf("%-40s", shapes[i].name);
        for (int k = 0; k < LENGTHS; k++) {
            length = lengths[k];
            t = measure_shape(shapes[i].name, shapes[i].shape, rounds);
            printf(" %7.2f", t.ns[PROVED] / length);
        }
        printf("  %5.2f  ", t.to_plain);
        plot(t.ns[PROVED] / length);
        printf("\n");
        fflush(stdout);
    }
}

void measure_worst(int rounds) {
    printf("worst messages: proved ns a byte, against the bytes of a message\n");
    responds = 0;
    measure_function("find", rounds);
    responds = 1;
    measure_function("respond, with a fresh cookie", rounds);
}
