// What the measurements need: a clock, numbers that are the same in every run, medians.
#pragma once
#include <stdint.h>
#include <stdio.h>
#include <stdlib.h>
#include <string.h>
#include <time.h>

static inline double seconds(void) {
    struct timespec t;
    clock_gettime(CLOCK_MONOTONIC, &t);
    return t.tv_sec + t.tv_nsec * 1e-9;
}

static inline uint64_t next(void) { // xorshift64*
    static uint64_t x = 0x9e3779b97f4a7c15;
    x ^= x >> 12; x ^= x << 25; x ^= x >> 27;
    return x * 0x2545f4914f6cdd1d;
}

static inline uint32_t below(uint32_t n) { return (next() >> 32) * n >> 32; }

static inline void fill(void *p, size_t n) {
    for (size_t i = 0; i < n; i++) ((uint8_t *)p)[i] = next() >> 56;
}

static inline int ascending(const void *a, const void *b) {
    double x = *(const double *)a, y = *(const double *)b;
    return (x > y) - (x < y);
}

static inline double median(double *x, size_t n) {
    qsort(x, n, sizeof *x, ascending);
    return x[n / 2];
}
