// The whole journal lister in plain C, the baseline of the proved program: blocks of 64 KiB, digits made by hand, no stdio.
#include <errno.h>
#include <stdlib.h>
#include <unistd.h>
#include "plain_ledger.h"

enum { BLOCK = 1 << 16, LINE = 64 };

static void write_all(const uint8_t *bytes, size_t length) {
    while (length) {
        ssize_t n = write(1, bytes, length);
        if (n < 0 && errno == EINTR) continue;
        if (n < 0) exit(1);
        bytes += n;
        length -= n;
    }
}

int main(void) {
    static uint8_t in[BLOCK], lines[BLOCK];
    struct ledger ledger = fresh_ledger;
    uint64_t number = 0;
    uint8_t *out = lines;
    size_t have = 0;
    for (;;) {
        ssize_t n = read(0, in + have, BLOCK - have);
        if (n < 0 && errno == EINTR) continue;
        if (n < 0) return 1;
        if (n == 0) break;
        have += n;
        const uint8_t *record = in;
        for (; have >= RECORD; have -= RECORD, record += RECORD) {
            if (lines + BLOCK - out < LINE) write_all(lines, out - lines), out = lines;
            unsigned answer = plain_step(&ledger, record);
            out = put_line(out, &ledger, ++number, record[0], answer);
        }
        memmove(in, record, have);
    }
    if (have) {
        memcpy(out, "short ", 6);
        out = put_number(out + 6, have, '\n');
    }
    write_all(lines, out - lines);
}
