/* The sum as a shop would write it, the ring stress of wind and the gain by internal pressure: plain doubles, no exactness. v holds the eleven numbers of a record
   within the limits, d the last; p is its internal pressure. */
#include <math.h>
#include <stdint.h>

static double tolerance(double S, double q) { return S < 1.5 ? 1 - S / 3 * (q - 1) : 1.5 - 0.5 * q; }
static double kappa1(double S) { return S <= 0.4 ? 1 : S < 1.2 ? 1.274 - 0.686 * S : 0.65 / (S * S); }

/* The whole ring stress of wind, in kN/m²; the ring stress of v is not read. */
static inline double double_wind(const uint64_t *v, uint64_t w, uint64_t vented) {
    double r = v[0], t = (v[1] < 500 ? v[1] - 0.5 * v[10] : v[1]) / 100.0, l = v[2], C = v[5] == 11 ? 1.5 : v[5] == 12 ? 1.25 : 1;
    double delta = 0.46 * (1 + 0.1 * sqrt(C * (r / l) * sqrt(r / t)));
    return ceil(((delta < 1 ? delta : 1) + (vented ? 0.6 : 0)) * w * (r / t) / 1000);
}

/* What internal pressure multiplies kappa2 by, element 429, on a shell that is short by (27); n is r/t, k is kappa2 without the tolerance, as the test reads it. */
static inline double double_gain(double p, double E, double fy, double n, double S, double k) {
    if (p <= 0 || S <= 0.7) return 1;
    double gain = 1 + 1.2 * S * pow(p / E * n * n, 0.38) * (S < 1 ? (S - 0.7) / 0.3 : 1), K = k * gain, inside = 1 - 0.75 * K * K;
    return inside >= 0 && p / fy * n <= 0.5 * sqrt(inside) - 0.25 * K ? gain : 1;
}

static double double_sum(const uint64_t *v, uint64_t p) {
    double r = v[0], t = (v[1] < 500 ? v[1] - 0.5 * v[10] : v[1]) / 100.0, l = v[2], E = v[3], fy = v[4], q = v[6] > 1000 ? v[6] / 1000.0 : 1;
    double eta = v[5] == 11 ? 6 : v[5] == 12 ? 3 : 1, C = v[5] == 11 ? 1.5 : v[5] == 12 ? 1.25 : 1;
    double rt = sqrt(r / t), tr = t / r, lr = l / r, sum = 0;
    if (v[7]) {
        double Cx = lr <= 0.5 * rt ? 1 + 1.5 / (lr * lr) * tr : 1 - (0.4 * lr / rt - 0.2) / eta;
        if (Cx < 0.6) Cx = 0.6;
        double S = sqrt(fy / (0.605 * Cx * E * tr));
        double k = S <= 0.25 ? 1 : S <= 1 ? 1.233 - 0.933 * S : S <= 1.5 ? 0.3 / (S * S * S) : 0.2 / (S * S);
        double g = S <= 0.25 ? 1.1 : S < 2 ? 1.1 * (1 + 0.318 * (S - 0.25) / 1.75) : 1.45;
        if (lr <= 0.5 * rt) k *= double_gain(p / 1e6, E, fy, r / t, S, k);
        k *= tolerance(S, q);
        double u = v[7] / 1000.0 / (k * fy / g);
        sum += u * sqrt(sqrt(u));
    }
    if (v[8]) {
        double sp = lr <= 1.63 * C * rt ? 0.92 * C * E / lr * tr / rt : E * tr * tr * (0.275 + 2.03 * pow(C * rt / lr, 4));
        double S = sqrt(fy / sp);
        double u = v[8] / 1000.0 / (kappa1(S) * tolerance(S, q) * fy / 1.1);
        sum += u * sqrt(sqrt(u));
    }
    if (v[9]) {
        double st = lr <= 8.7 * rt ? 0.75 * sqrt(1 + 42 / (lr * lr * lr) * tr / rt) * E / sqrt(lr) * tr / sqrt(rt) : 0.25 * E * tr / rt;
        double S = sqrt(fy / (sqrt(3) * st));
        double u = v[9] / 1000.0 / (kappa1(S) * tolerance(S, q) * fy / sqrt(3) / 1.1);
        sum += u * u;
    }
    return sum;
}
