// The table, the bars, and the progress on standard error.
#include <unistd.h>
#include "bench.h"
#include "measure.h"

// ---- progress

enum { SILENT = 10 }; // seconds without a word, where standard error is no terminal

static int part, parts;

void expect_parts(int many) { parts = many; }

void begin_row(const char *name) {
    static double said;
    double now = seconds();
    part++;
    if (isatty(2)) {
        fprintf(stderr, "\r\033[K[%d/%d] %s", part, parts, name);
    } else if (said == 0) {
        said = now;
    } else if (now - said > SILENT) {
        said = now;
        fprintf(stderr, "[%d/%d] %s\n", part, parts, name);
    }
}

void end_row(void) {
    if (isatty(2)) fprintf(stderr, "\r\033[K");
}

// ---- the table

static struct {
    const char *name;
    double most;     // of proved to plain C
    double worst;    // the row that is the farthest from it
    const char *row;
} bars[BARS] = {
    [SIPHASH_BAR] = {"siphash", 1.1, 0, ""},
    [JUDGE_BAR] = {"judge", 1.15, 0, ""},
    [FIND_BAR] = {"find", 1.3, 0, ""},
    [RESPOND_BAR] = {"request answered", 1.2, 0, ""},
}, to_knot, to_knot_alike;

void print_head(void) {
    printf("%-40s %9s %9s %6s %5s %11s %10s\n", "", "proved ns", "plain ns", "to C", "bar", "libknot ns", "to libknot");
}

void print_row(const char *name, enum bar bar, const struct times *t, int less) {
    end_row();
    printf("%-40s %9.1f %9.1f %6.2f", name, t->ns[PROVED], t->ns[PLAIN], t->to_plain);
    if (bar) printf(" %5.2f", bars[bar].most);
    if (t->to_knot) printf("%*s %11.1f %10.2f%s", bar ? 0 : 6, "", t->ns[KNOT], t->to_knot, less ? " *" : "");
    printf("\n");
    fflush(stdout);
    if (bar && t->to_plain > bars[bar].worst) bars[bar].worst = t->to_plain, bars[bar].row = name;
    if (t->to_knot > to_knot.worst) to_knot.worst = t->to_knot, to_knot.row = name;
    if (!less && t->to_knot > to_knot_alike.worst) to_knot_alike.worst = t->to_knot, to_knot_alike.row = name;
}

// A ratio and a bar are compared as they are shown, to the hundredth.
static int is_met(double ratio, double bar) { return ratio < bar + 0.005; }

static void print_bar(const char *name, const char *bar, int met, double worst, const char *row) {
    printf("  %-18s %-16s %-7s worst %.2f: %s\n", name, bar, met ? "met" : "MISSED", worst, row);
}

void print_bars(void) {
    if (to_knot.worst) printf("* libknot does less: it sees the time first and does not hash\n");
    printf("\nbars\n");
    for (enum bar bar = NO_BAR + 1; bar < BARS; bar++) {
        char text[32];
        snprintf(text, sizeof text, "%.2f of plain C", bars[bar].most);
        print_bar(bars[bar].name, text, is_met(bars[bar].worst, bars[bar].most), bars[bar].worst, bars[bar].row);
    }
    if (!to_knot.worst) {
        printf("  against libknot    not measured: it is not here\n");
        return;
    }
    print_bar("every row", "below libknot", to_knot.worst < 1, to_knot.worst, to_knot.row);
    print_bar("every row but *", "below libknot", to_knot_alike.worst < 1, to_knot_alike.worst, to_knot_alike.row);
}
