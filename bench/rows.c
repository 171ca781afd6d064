/* The loops of fdmt_rows and fast_fold in C, to compare with: rows LENGTH REPEATS, fold PERIOD HALVINGS REPEATS. */
#include <stdint.h>
#include <stdio.h>
#include <stdlib.h>
#include <string.h>
#include <time.h>

static uint32_t *values(size_t count) {
    uint32_t state = 1, *v = malloc(count * sizeof *v + 64);
    for (size_t k = 0; k < count; k++) { state = state * 1664525u + 1013904223u; v[k] = (state >> 16) % 32; }
    return v;
}

static uint32_t greatest(const uint32_t *v, size_t count) {
    uint32_t most = 0;
    for (size_t k = 0; k < count; k++) if (v[k] > most) most = v[k];
    return most;
}

static inline void add_rows(uint32_t *restrict out, const uint32_t *restrict a, const uint32_t *restrict b, size_t count) {
    for (size_t k = 0; k < count; k++) out[k] = a[k] + b[k];
}

static __attribute__((noinline)) void add_apart(uint32_t *out, const uint32_t *a, const uint32_t *b, size_t count) {
    add_rows(out, a, b, count);
}

/* The table of 2^(r+1) rows of each two neighbouring blocks of 2^r rows. */
static void merge(uint32_t *out, const uint32_t *sums, size_t p, size_t rows, size_t blocks) {
    for (size_t b = 0; b < blocks; b++)
        for (size_t j = 0; j < 2 * rows; j++) {
            const uint32_t *first = sums + (2 * b * rows + j / 2) * p, *second = first + rows * p;
            uint32_t *row = out + (2 * b * rows + j) * p;
            size_t turn = (j + 1) / 2 % p;
            add_rows(row, first, second + turn, p - turn);
            add_rows(row + p - turn, first + p - turn, second, turn);
        }
}

static uint32_t fold(const uint32_t *series, uint32_t *here, uint32_t *there, size_t p, int m) {
    memcpy(here, series, (p << m) * sizeof *here);
    for (int r = 0; r < m; r++) {
        merge(there, here, p, (size_t)1 << r, (size_t)1 << (m - r - 1));
        uint32_t *other = here; here = there; there = other;
    }
    return greatest(here, p << m);
}

int main(int words, char **word) {
    if (words < 4) return 2;
    int rows = !strcmp(word[1], "rows"), m = rows ? 0 : atoi(word[3]);
    size_t p = strtoul(word[2], 0, 10), repeats = strtoul(word[rows ? 3 : 4], 0, 10), count = p << m;
    uint32_t *series = values(count), *here = values(count), *there = values(count), most = 0;
    struct timespec from, to;
    clock_gettime(CLOCK_MONOTONIC, &from);
    for (size_t k = 0; k < repeats; k++) {
        if (!rows) { uint32_t sum = fold(series, here, there, p, m); if (sum > most) most = sum; }
        else if (k % 2 == 0) add_apart(there, here, series, p);
        else add_apart(here, there, series, p);
    }
    if (rows) most = greatest(here, p);
    clock_gettime(CLOCK_MONOTONIC, &to);
    double nanos = (to.tv_sec - from.tv_sec) * 1e9 + (to.tv_nsec - from.tv_nsec);
    printf("a sum of %u\n%.0f ns in all\n", most, nanos);
    return 0;
}
