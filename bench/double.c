/* The sheet program that a shop would write: the formula in plain doubles (double.h), a verdict by comparing the sum with 1, never open.
   Reads a sheet from standard input and writes its listing. With -b N it prints the ns of a run from the sheet in memory to the listing
   in memory: the median of five times N runs, the least and the most. */
#include <stdio.h>
#include <stdlib.h>
#include <string.h>
#include "double.h"
#include "sheet.h"
#include "timing.h"

enum { REPEATS = 5 };

int main(int argc, char **argv) {
    static unsigned char sheet[65536];
    static char listing[24616];
    size_t n = fread(sheet, 1, sizeof sheet, stdin), length = 0;
    if (ferror(stdin)) {
        perror("double: standard input");
        return 1;
    }
    long runs = argc == 3 && !strcmp(argv[1], "-b") ? atol(argv[2]) : 0;
    if (argc > 1 && runs < 1) {
        fprintf(stderr, "usage: double [-b N] <SHEET\n");
        return 2;
    }
    if (!runs) {
        length = double_listing(sheet, n, listing);
        return fwrite(listing, 1, length, stdout) != length || fflush(stdout);
    }
    double t[REPEATS];
    for (int r = 0; r < REPEATS; r++) {
        double t0 = now();
        for (long i = 0; i < runs; i++) length += double_listing(sheet, n, listing);
        t[r] = (now() - t0) / (double)runs;
    }
    qsort(t, REPEATS, sizeof *t, order);
    printf("%.0f ns a run (%.0f to %.0f), %zu bytes listed\n", t[REPEATS / 2], t[0], t[REPEATS - 1], length);
    return 0;
}
