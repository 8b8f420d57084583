// Rounds: in each one every side works on the same inputs, one after the other, and from round to round the inputs change.
#include "bench.h"
#include "measure.h"

static const double timed_for = 20e-6; // seconds, or a little more, that a side works in a round

static uint64_t sum; // of all that is handed back, so that nothing is computed for nothing

// Passes that the proved side makes in that time.
static long passes_for(const struct work *w) {
    double least = 1;
    for (int i = 0; i < 5; i++) {
        double began = seconds();
        sum += w->pass(PROVED, 0);
        double took = seconds() - began;
        if (took < least) least = took;
    }
    return timed_for / least + 1;
}

// Nanoseconds for one operation. A pass that is not timed goes before, so that caches and branch predictors know the inputs as well
// for whoever comes first as for who comes last.
static double once(const struct work *w, enum side side, size_t set, long passes) {
    if (!w->whole) sum += w->pass(side, set);
    double began = seconds();
    for (long i = 0; i < passes; i++) sum += w->pass(side, set);
    return (seconds() - began) / passes / w->operations * 1e9;
}

static double *numbers(int n) {
    double *p = malloc(n * sizeof *p);
    if (!p) perror("malloc"), exit(1);
    return p;
}

struct times measure(const struct work *w) {
    static const enum side turns[6][SIDES] = { // each goes first, second and last as often, and behind each other
        {PLAIN, PROVED, KNOT}, {PROVED, KNOT, PLAIN}, {KNOT, PLAIN, PROVED},
        {KNOT, PROVED, PLAIN}, {PLAIN, KNOT, PROVED}, {PROVED, PLAIN, KNOT},
    };
    int n = w->rounds;
    double *ns[SIDES], *to_plain = numbers(n), *to_knot = numbers(n);
    for (int side = 0; side < SIDES; side++) ns[side] = numbers(n);
    long passes = w->whole ? 1 : passes_for(w);
    for (int r = 0; r < n; r++) {
        for (int k = 0; k < SIDES; k++) {
            enum side side = turns[r % 6][k];
            if (side != KNOT || w->knot) ns[side][r] = once(w, side, r % w->sets, passes);
        }
        to_plain[r] = ns[PROVED][r] / ns[PLAIN][r];
        if (w->knot) to_knot[r] = ns[PROVED][r] / ns[KNOT][r];
    }
    struct times t = {.to_plain = median(to_plain, n)};
    for (int side = 0; side < KNOT; side++) t.ns[side] = median(ns[side], n);
    if (w->knot) t.ns[KNOT] = median(ns[KNOT], n), t.to_knot = median(to_knot, n);
    for (int side = 0; side < SIDES; side++) free(ns[side]);
    free(to_plain);
    free(to_knot);
    return t;
}
