/* Times the sheet run beside the double program, from the sheet in memory to the listing in memory, on the first 1, 4, 16, .. lines of a sheet; with names
   and sheets in turn as arguments, on each whole sheet. A figure is the median of REPEATS repeats, with the least and the most, in us a sheet; the two
   programs take turns. */
#include <stdint.h>
#include <stdio.h>
#include <stdlib.h>
#include "double.h"
#include "sheet.h"
#include "timing.h"

enum { REPEATS = 5, LINES = 1024 };

size_t bench_sheet(const uint8_t *sheet, size_t n, uint8_t *out, size_t room);

static unsigned char sheet[65536];
static char exact[24616], doubles[24616];

/* The bytes of the first so many lines, or 0 if there are fewer. */
static size_t first(size_t n, unsigned lines) {
    for (size_t i = 0; i < n; i++)
        if (sheet[i] == '\n' && !--lines) return i + 1;
    return 0;
}

static size_t run_exact(size_t n) { return bench_sheet(sheet, n, (uint8_t *)exact, sizeof exact); }
static size_t run_double(size_t n) { return double_listing(sheet, n, doubles); }

static double timed(size_t (*run)(size_t), size_t n, int rounds) {
    double t0 = now();
    for (int i = 0; i < rounds; i++)
        if (!run(n)) exit(1);
    return (now() - t0) / rounds / 1000;
}

/* Reads a sheet, and gives its bytes; the two listings of it have to be equal. */
static size_t taken(const char *name) {
    FILE *f = fopen(name, "r");
    if (!f) exit(1);
    size_t n = fread(sheet, 1, sizeof sheet, f), length = run_exact(n);
    fclose(f);
    if (length != run_double(n) || memcmp(exact, doubles, length)) {
        fprintf(stderr, "sheets: the two listings differ\n");
        exit(1);
    }
    return n;
}

static void compare(const char *what, size_t part, unsigned lines) {
    double t[2][REPEATS];
    int rounds = 8 * LINES / (int)lines;
    for (int r = 0; r < REPEATS; r++) {
        t[0][r] = timed(run_exact, part, rounds);
        t[1][r] = timed(run_double, part, 10 * rounds);
    }
    qsort(t[0], REPEATS, sizeof(double), order);
    qsort(t[1], REPEATS, sizeof(double), order);
    printf("%-9s %6u %12.1f (%.1f to %.1f) %12.2f (%.2f to %.2f) %8.1f %16.0f\n", what, lines, t[0][REPEATS / 2], t[0][0], t[0][REPEATS - 1],
           t[1][REPEATS / 2], t[1][0], t[1][REPEATS - 1], t[0][REPEATS / 2] / t[1][REPEATS / 2], 1000 * t[0][REPEATS / 2] / lines);
}

int main(int argc, char **argv) {
    if (argc < 2) return 1;
    printf("%-9s %6s %34s %30s %8s %16s\n", "", "lines", "exact, us a sheet", "double, us a sheet", "ratio", "exact, ns a line");
    if (argc == 2) {
        size_t n = taken(argv[1]);
        for (unsigned lines = 1; lines <= LINES; lines *= 4) {
            size_t part = first(n, lines);
            if (!part) return 1;
            compare("", part, lines);
        }
    }
    for (int i = 1; i + 1 < argc; i += 2) {
        size_t n = taken(argv[i + 1]);
        unsigned lines = 0;
        for (size_t k = 0; k < n; k++) lines += sheet[k] == '\n';
        if (!lines || lines > LINES) return 1;
        compare(argv[i], n, lines);
    }
    return 0;
}
