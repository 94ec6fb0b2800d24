/* Times the arithmetic of many limbs. Each figure is the median of REPEATS runs of ROUNDS calls, in ns a call. */
#include <stdbool.h>
#include <stdint.h>
#include <stdio.h>
#include <stdlib.h>
#include <string.h>
#include "timing.h"

enum { LIMBS = 96, REPEATS = 15, ROUNDS = 200000 };

struct number { uint64_t limbs[LIMBS]; size_t used; };

void bench_times(struct number *x, uint64_t k);
size_t bench_square(const struct number *a);
size_t bench_fifth_power(const struct number *a);
bool bench_products_at_most(const uint64_t *f, size_t f_len, const uint64_t *g, size_t g_len);
bool bench_sums_at_most(const uint64_t *f, size_t f_len, const uint64_t *g, size_t g_len,
                        const uint64_t *h, size_t h_len, const uint64_t *k, size_t k_len);

static struct number a, x;
static uint64_t f[40], g[40];
static volatile uint64_t sink;

/* a number of n limbs, each in use */
static void number(size_t n) {
    memset(&a, 0, sizeof a);
    a.used = n;
    for (size_t i = 0; i < n; i++) a.limbs[i] = 0x9e3779b9u * (i + 1) % 0xffffffffu | 1;
}

static void factors(size_t n, uint64_t below) {
    for (size_t i = 0; i < n; i++) {
        f[i] = 1 + 0x9e3779b97f4a7c15u * (i + 1) % (below - 1);
        g[i] = 1 + 0xc2b2ae3d27d4eb4fu * (i + 3) % (below - 1);
    }
}

/* x is the first limbs of a */
static void copied(size_t limbs) {
    memcpy(x.limbs, a.limbs, limbs * sizeof *x.limbs);
    x.used = 10;
}

static void times_ten_by(uint64_t k) {
    copied(12);
    bench_times(&x, k);
    sink += x.used;
}

static void times_limb_ten(void) { times_ten_by(0x89abcdef); }
static void times_ten(void) { times_ten_by(0x0123456789abcdef); }
static void copy_ten(void) { copied(11); sink += x.limbs[3]; }
static void square_ten(void) { sink += bench_square(&a); }
static void fifth_four(void) { sink += bench_fifth_power(&a); }
static void compare_twenty(void) { sink += bench_products_at_most(f, 20, g, 20); }
static void compare_ten(void) { sink += bench_products_at_most(f, 10, g, 10); }
static void sums_ten(void) { sink += bench_sums_at_most(f, 10, f + 10, 10, g, 10, g + 10, 10); }

static void run(const char *what, void (*call)(void)) {
    double t[REPEATS];
    for (int r = 0; r < REPEATS; r++) {
        double t0 = now();
        for (int i = 0; i < ROUNDS; i++) call();
        t[r] = (now() - t0) / ROUNDS;
    }
    qsort(t, REPEATS, sizeof *t, order);
    printf("%-58s %8.1f  (%.1f to %.1f)\n", what, t[REPEATS / 2], t[0], t[REPEATS - 1]);
}

int main(void) {
    printf("%-58s %8s\n", "ns a call: median (least to most)", "ns");
    number(10);
    run("copy of a ten-limb number (within the next two)", copy_ten);
    run("a factor below 2^32 onto a ten-limb number", times_limb_ten);
    run("a factor of 64 bits onto a ten-limb number", times_ten);
    run("square of a ten-limb number", square_ten);
    number(4);
    run("fifth power of a four-limb number", fifth_four);
    factors(40, 1u << 17);
    run("two products of 20 factors below 2^17 compared", compare_twenty);
    factors(40, 4294967296u);
    run("two products of 20 factors below 2^32 compared", compare_twenty);
    factors(40, 0xffffffffffffffffu);
    run("two products of 10 factors of 64 bits compared", compare_ten);
    run("two sums of two products of 10 factors of 64 bits compared", sums_ten);
    return 0;
}
