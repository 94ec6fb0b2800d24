/* Counts the length tests that the double formula (double.h) decides wrongly, over every radius, wall and length within the limits, without
   a shortfall: for each radius and wall, the whole lengths next to the limit. The right answer is a comparison of whole numbers. */
#include <math.h>
#include <stdint.h>
#include <stdio.h>

/* short if a l² t <= b r³, with t in hundredths; in doubles if l/r <= factor c sqrt(r/t) */
static const struct { const char *name; int64_t a, b; double factor, c; } tests[] = {
    {"axial", 4, 100, 0.5, 1},
    {"ring, edges 11", 1600, 26569 * 36, 1.63, 1.5},
    {"ring, edges 12", 1600, 26569 * 25, 1.63, 1.25},
    {"ring, edges 22", 1600, 26569 * 16, 1.63, 1},
    {"shear", 1, 7569, 8.7, 1},
};

int main(void) {
    printf("%-16s %20s %18s %18s\n", "", "limit met exactly", "of these wrong", "others wrong");
    for (int i = 0; i < 5; i++) {
        long met = 0, wrong = 0, others = 0;
        for (int64_t t = 100; t <= 10000; t++)
            for (int64_t r = (t + 4) / 5 > 100 ? (t + 4) / 5 : 100; r <= 50000 && r <= 25 * t; r++) {
                int64_t near = (int64_t)sqrt((double)tests[i].b * (double)(r * r * r) / (double)(tests[i].a * t));
                if (near > 200001 || near > 50 * r + 1) break;
                for (int64_t l = near - 1; l <= near + 2; l++) {
                    if (l < 10 || l > 200000 || r > 20 * l || l > 50 * r) continue;
                    int64_t left = tests[i].a * l * l * t, right = tests[i].b * r * r * r;
                    int is_short = left <= right;
                    int said = (double)l / (double)r <= tests[i].factor * tests[i].c * sqrt((double)r / ((double)t / 100.0));
                    met += left == right;
                    wrong += left == right && said != is_short;
                    others += left != right && said != is_short;
                }
            }
        printf("%-16s %20ld %18ld %18ld\n", tests[i].name, met, wrong, others);
    }
    return 0;
}
