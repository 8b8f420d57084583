// The proved library of include/dnscookie.h against plain C and, where it is there, libknot: first that they answer alike, then their
// times, measured in turns.
#include <stdio.h>
#include <stdlib.h>
#include <string.h>
#include "bench.h"
#include "knot.h"

const struct library proved = {
    dnscookie_siphash24,    dnscookie_judge,       dnscookie_make,           dnscookie_find,        dnscookie_respond,
    dnscookie_ledger_fresh, dnscookie_ledger_step, dnscookie_ledger_secrets, dnscookie_ledger_line,
};

const struct library plain = {
    plain_siphash24,    plain_judge,       plain_make,           plain_find,        plain_respond,
    plain_ledger_fresh, plain_ledger_step, plain_ledger_secrets, plain_ledger_line,
};

enum { ROUNDS = 10000, COMPARED = 500000 }; // rounds of each row, and random inputs of each kind that are compared before

static void print_versions(int rounds) {
    printf("\nmedians of %d rounds in turns; gcc %s", rounds, __VERSION__);
#ifdef LIBKNOT
    printf(", libknot %d.%d.%d", KNOT_VERSION_MAJOR, KNOT_VERSION_MINOR, KNOT_VERSION_PATCH);
#endif
    printf("\n");
}

static int usage(void) {
    fprintf(stderr, "usage: bench [--rounds N] [--programs FOLDER]\n"
                    "FOLDER has list_journal, plain_lister and tuned_lister, and room for a journal of 32 MB\n");
    return 2;
}

int main(int count, char **words) {
    int rounds = ROUNDS;
    const char *programs = 0;
    for (int i = 1; i < count; i += 2) {
        if (i + 1 == count) return usage();
        if (strcmp(words[i], "--rounds") == 0) rounds = atoi(words[i + 1]);
        else if (strcmp(words[i], "--programs") == 0) programs = words[i + 1];
        else return usage();
    }
    if (rounds < 1) return usage();
    compare_all(rounds < ROUNDS ? COMPARED / 20 : COMPARED);
    expect_parts(rows_in_all + listings_in_all(programs) + worst_in_all);
    print_versions(rounds);
    print_head();
    measure_rows(rounds);
    measure_listings(rounds, programs);
    print_bars();
    printf("\n");
    measure_worst(rounds);
}
