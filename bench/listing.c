// A million records listed: by the library, a step and a line for each, and by whole programs, from a file to /dev/null.
#include <fcntl.h>
#include <sys/wait.h>
#include <unistd.h>
#include "bench.h"
#include "journals.h"

enum { RECORDS = 1000000, BUFFER = 1 << 16, LINE = DNSCOOKIE_LINE_ROOM };

static uint8_t *records; // half of them are refused
static char *all_lines;
static size_t all_length;

static void fail(const char *what) {
    perror(what);
    exit(1);
}

static void make_journal(void) {
    struct ledger l = fresh_ledger;
    records = malloc((size_t)RECORDS * RECORD);
    all_lines = malloc((size_t)RECORDS * LINE);
    if (!records || !all_lines) fail("malloc");
    for (size_t i = 0; i < RECORDS; i++) next_record(records + RECORD * i, &l, MEMBERS, below(2) == 0);
}

// ---- by the library

// Lists the journal into a buffer, from the front again whenever it is full. How many bytes the lines have.
static size_t list(const struct library *l, uint8_t *buffer, size_t size) {
    uint8_t state[DNSCOOKIE_LEDGER_SIZE];
    size_t at = 0, before = 0;
    l->fresh(state, sizeof state);
    for (size_t i = 0; i < RECORDS; i++) {
        const uint8_t *record = records + RECORD * i;
        if (size - at < LINE) before += at, at = 0;
        uint32_t answer = l->step(state, sizeof state, record, RECORD);
        at += dnscookie_written_length(l->line(state, sizeof state, i + 1, record, RECORD, answer, buffer + at, size - at));
    }
    return before + at;
}

static uint64_t list_pass(enum side side, size_t set) {
    static uint8_t buffer[BUFFER];
    (void)set;
    return list(side == PROVED ? &proved : &plain, buffer, sizeof buffer) + buffer[0];
}

// Both list the same.
static void check_lists(void) {
    size_t room = (size_t)RECORDS * LINE;
    uint8_t *lines = malloc(room);
    if (!lines) fail("malloc");
    all_length = list(&proved, (uint8_t *)all_lines, room);
    if (list(&plain, lines, room) != all_length || memcmp(lines, all_lines, all_length) != 0) fail("plain C lists another text");
    free(lines);
}

// ---- by programs

static struct {
    char path[2][4096]; // of each side
    char journal[4096];
} run;

static void run_program(const char *program, const char *to) {
    pid_t child = fork();
    if (child < 0) fail("fork");
    if (child == 0) {
        int in = open(run.journal, O_RDONLY), out = open(to, O_WRONLY | O_CREAT | O_TRUNC, 0600);
        if (in < 0 || out < 0 || dup2(in, 0) < 0 || dup2(out, 1) < 0) _exit(1);
        execl(program, program, (char *)NULL);
        _exit(1);
    }
    int status;
    if (waitpid(child, &status, 0) < 0 || status != 0) fail(program);
}

static uint64_t program_pass(enum side side, size_t set) {
    (void)set;
    run_program(run.path[side], "/dev/null");
    return 0;
}

static void write_file(const char *path, const void *bytes, size_t length) {
    FILE *f = fopen(path, "w");
    if (!f || fwrite(bytes, 1, length, f) != length || fclose(f) != 0) fail(path);
}

// A program prints the lines that the library makes.
static void check_program(const char *program) {
    char to[4096 + 8];
    snprintf(to, sizeof to, "%s.lines", run.journal);
    run_program(program, to);
    char *lines = malloc(all_length + 1);
    FILE *f = fopen(to, "r");
    if (!lines || !f || fread(lines, 1, all_length + 1, f) != all_length || memcmp(lines, all_lines, all_length) != 0) fail(program);
    fclose(f);
    free(lines);
    unlink(to);
}

static const char *const others[] = {"plain_lister", "tuned_lister"};
static const char *const names[] = {"million records, list_journal", "million records, against tuned C"};
enum { OTHERS = sizeof others / sizeof *others };

static void path_of(char path[4096], const char *folder, const char *name) {
    if (snprintf(path, 4096, "%s/%s", folder, name) >= 4096) fail(folder);
}

static void measure_programs(int rounds, const char *folder) {
    path_of(run.journal, folder, "records");
    path_of(run.path[PROVED], folder, "list_journal");
    write_file(run.journal, records, (size_t)RECORDS * RECORD);
    check_program(run.path[PROVED]);
    for (int i = 0; i < OTHERS; i++) {
        begin_row(names[i]);
        path_of(run.path[PLAIN], folder, others[i]);
        check_program(run.path[PLAIN]);
        struct work w = {.pass = program_pass, .whole = 1, .sets = 1, .operations = RECORDS, .rounds = rounds};
        struct times t = measure(&w);
        print_row(names[i], NO_BAR, &t, 0);
    }
    unlink(run.journal);
}

int listings_in_all(const char *programs) { return programs ? 1 + OTHERS : 1; }

void measure_listings(int rounds, const char *programs) {
    static const char name[] = "million records, step and line";
    int fewer = rounds / 64 + 1;
    begin_row(name);
    make_journal();
    check_lists();
    struct work w = {.pass = list_pass, .whole = 1, .sets = 1, .operations = RECORDS, .rounds = fewer};
    struct times t = measure(&w);
    print_row(name, NO_BAR, &t, 0);
    if (programs) measure_programs(fewer, programs);
    free(records);
    free(all_lines);
}
