/* Times the judge's C call beside the double formula, on the records of a file (eleven numbers a line, what follows '|' is not read), and the choice of a plate.
   Records that are refused are left out. Figures are the medians of REPEATS runs, in ns a record. */
#include <inttypes.h>
#include <stdio.h>
#include <stdlib.h>
#include "double.h"
#include "timing.h"

enum { REPEATS = 15, MOST = 4096 };

uint64_t shell_judge(uint64_t r, uint64_t t, uint64_t l, uint64_t e, uint64_t fy, uint64_t edges, uint64_t a,
                     uint64_t sx, uint64_t sphi, uint64_t tau, uint64_t d);

uint64_t shell_choose_plate(const uint64_t *plates, size_t count, uint64_t r, uint64_t l, uint64_t e, uint64_t fy, uint64_t edges, uint64_t a,
                            uint64_t nx, uint64_t nphi, uint64_t nxphi);

static uint64_t rec[MOST][11];
static volatile uint64_t sink;
static volatile double dsink;

static uint64_t exact(const uint64_t *v) { return shell_judge(v[0], v[1], v[2], v[3], v[4], v[5], v[6], v[7], v[8], v[9], v[10]); }

/* which: a mask of the stresses that are kept, 1 axial, 2 ring, 4 shear, of the records that have all three */
static void run(const char *what, int which, size_t n) {
    static uint64_t v[MOST][11];
    double t[2][REPEATS];
    size_t m = 0;
    for (size_t i = 0; i < n; i++) {
        if (!rec[i][7] || !rec[i][8] || !rec[i][9]) continue;
        for (int j = 0; j < 11; j++) v[m][j] = j < 7 || j > 9 || (which >> (j - 7) & 1) ? rec[i][j] : 0;
        m++;
    }
    int rounds = 400000 / (int)m + 1;
    for (int r = 0; r < REPEATS; r++) {
        double t0 = now();
        for (int k = 0; k < rounds; k++)
            for (size_t i = 0; i < m; i++) sink += exact(v[i]);
        double t1 = now();
        for (int k = 0; k < rounds; k++)
            for (size_t i = 0; i < m; i++) dsink += double_sum(v[i], 0);
        t[0][r] = (t1 - t0) / rounds / m;
        t[1][r] = (now() - t1) / rounds / m;
    }
    qsort(t[0], REPEATS, sizeof(double), order);
    qsort(t[1], REPEATS, sizeof(double), order);
    printf("%-24s %6zu %10.0f (%.0f to %.0f) %8.0f (%.0f to %.0f) %8.1f\n", what, m, t[0][REPEATS / 2], t[0][0], t[0][REPEATS - 1],
           t[1][REPEATS / 2], t[1][0], t[1][REPEATS - 1], t[0][REPEATS / 2] / t[1][REPEATS / 2]);
}

/* A choice in which each of 64 plates is judged and none holds, so no list of plates takes longer. */
static void choose(void) {
    uint64_t plates[64];
    double t[REPEATS];
    for (int i = 0; i < 64; i++) plates[i] = 300 + (uint64_t)i;
    for (int r = 0; r < REPEATS; r++) {
        double t0 = now();
        for (int k = 0; k < 1000; k++) sink += shell_choose_plate(plates, 64, 5000, 10000, 210000, 240, 12, 1000, 200, 20, 100) == 100;
        t[r] = (now() - t0) / 1000;
    }
    qsort(t, REPEATS, sizeof(double), order);
    printf("%-24s %6d %10.0f (%.0f to %.0f)\n", "ns a choice, of plates", 64, t[REPEATS / 2], t[0], t[REPEATS - 1]);
}

int main(int argc, char **argv) {
    char line[512];
    size_t n = 0;
    FILE *f = argc == 2 ? fopen(argv[1], "r") : NULL;
    if (!f) return 1;
    while (n < MOST && fgets(line, sizeof line, f)) {
        uint64_t *v = rec[n];
        if (sscanf(line, "%" SCNu64 " %" SCNu64 " %" SCNu64 " %" SCNu64 " %" SCNu64 " %" SCNu64 " %" SCNu64 " %" SCNu64 " %" SCNu64 " %" SCNu64 " %" SCNu64,
                   v, v + 1, v + 2, v + 3, v + 4, v + 5, v + 6, v + 7, v + 8, v + 9, v + 10) == 11 && exact(v) > 11)
            n++;
    }
    printf("%-24s %6s %10s %18s %8s %16s\n", "ns a record", "", "exact", "", "double", "ratio");
    run("all three stresses", 7, n);
    run("axial alone", 1, n);
    run("ring alone", 2, n);
    run("shear alone", 4, n);
    run("no stress", 0, n);
    choose();
    return 0;
}
