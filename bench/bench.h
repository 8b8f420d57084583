// What the parts of the benchmark share.
#pragma once
#include "plain.h"

// The functions of include/dnscookie.h, once as they are proved and once in plain C.
struct library {
    __typeof__(dnscookie_siphash24) *siphash24;
    __typeof__(dnscookie_judge) *judge;
    __typeof__(dnscookie_make) *make;
    __typeof__(dnscookie_find) *find;
    __typeof__(dnscookie_respond) *respond;
    __typeof__(dnscookie_ledger_fresh) *fresh;
    __typeof__(dnscookie_ledger_step) *step;
    __typeof__(dnscookie_ledger_secrets) *secrets;
    __typeof__(dnscookie_ledger_line) *line;
};
extern const struct library proved, plain;

// ---- compare.c

// That proved, plain C and libknot answer alike, on so many random inputs of each kind. Ends the program where they do not.
void compare_all(long count);

// ---- rounds.c

enum side { PROVED, PLAIN, KNOT, SIDES };

// One pass of a side over the inputs of a set. What is handed back depends on what was computed.
typedef uint64_t Pass(enum side side, size_t set);

// What is measured, in rounds.
struct work {
    Pass *pass;
    int knot;       // whether libknot does it too
    int whole;      // a pass is so long that it is neither repeated nor made once before it is timed
    size_t sets;    // of inputs, which the rounds take in turn
    double operations; // in a pass
    int rounds;
};

struct times {
    double ns[SIDES];         // for one operation, the median of the rounds
    double to_plain, to_knot; // the median of each round's ratio of proved to the other; 0 without libknot
};

struct times measure(const struct work *w);

// ---- table.c

// Which bar a row has.
enum bar { NO_BAR, SIPHASH_BAR, JUDGE_BAR, FIND_BAR, RESPOND_BAR, BARS };

// How many rows or other parts there will be, for the progress that is shown.
void expect_parts(int parts);
// That the next one is worked at: said on standard error if that is a terminal, and otherwise now and then.
void begin_row(const char *name);
// That it is done: what is shown of it goes.
void end_row(void);

void print_head(void);
// A row. Where libknot does less it is marked.
void print_row(const char *name, enum bar bar, const struct times *t, int less);
// Whether each bar is met by the rows so far.
void print_bars(void);

// ---- rows.c, listing.c, worst.c: the parts, each row measured in so many rounds, fewer where it takes long

extern const int rows_in_all, worst_in_all;
void measure_rows(int rounds);

// A million records listed, by the library and by the programs of a folder, which may be none.
int listings_in_all(const char *programs);
void measure_listings(int rounds, const char *programs);

// The cost of the worst messages against their length.
void measure_worst(int rounds);
