/* A whole sheet with the sum in doubles (double.h, to be included first): reading, the checks of SCOPE 10 in their order, the listing. */
#include <stddef.h>
#include <stdio.h>
#include <string.h>

enum { HOLDS = 101, FAILS = 102 };

/* Steps over the bytes of a fixed word; NULL if they are not there, or at came as NULL. */
static const unsigned char *fixed(const unsigned char *at, const unsigned char *end, const char *word) {
    size_t n = strlen(word);
    return at && (size_t)(end - at) >= n && !memcmp(at, word, n) ? at + n : NULL;
}

/* Reads a number of 1 to 7 digits without a leading zero. */
static const unsigned char *number(const unsigned char *at, const unsigned char *end, uint64_t *v) {
    const unsigned char *start = at;
    if (!at) return NULL;
    for (*v = 0; at < end && *at >= '0' && *at <= '9'; at++) {
        if (at - start == 7) return NULL;
        *v = 10 * *v + (uint64_t)(*at - '0');
    }
    return at == start || (*start == '0' && at - start > 1) ? NULL : at;
}

static int outside(uint64_t x, uint64_t low, uint64_t high) { return x < low || x > high; }

enum { CASES = 8 };

/* What a stress group has: v[7] to v[9] of a record, and wind. */
struct load {
    uint64_t sx, sphi, tau, w, vented;
    int windy;
};

/* Reads a stress group behind " (stress ". */
static const unsigned char *load_case(const unsigned char *at, const unsigned char *end, struct load *c) {
    at = fixed(number(at, end, &c->sx), end, " ");
    const unsigned char *wind = fixed(at, end, "(wind ");
    c->windy = wind != NULL;
    c->sphi = c->w = c->vented = 0;
    at = wind ? fixed(number(fixed(number(wind, end, &c->w), end, " "), end, &c->vented), end, ") ") : fixed(number(at, end, &c->sphi), end, " ");
    return fixed(number(at, end, &c->tau), end, ")");
}

/* The answer to a line: a refusal, HOLDS or FAILS. */
static int double_answer(const unsigned char *at, const unsigned char *end) {
    uint64_t v[11], p = 0;
    struct load cases[CASES];
    int count = 0, fails = 0, stress = 0, wind = 0;
    if (end - at > 512) return 4;
    at = fixed(at, end, "(shell ");
    for (int i = 0; i < 7; i++) at = number(i ? fixed(at, end, " ") : at, end, &v[i]);
    const unsigned char *group = fixed(at, end, " (stress ");
    v[10] = 0; /* a line without d */
    if (!group) group = fixed(number(fixed(at, end, " "), end, &v[10]), end, " (stress ");
    for (at = NULL; group && count < CASES; group = fixed(at, end, " (stress ")) at = load_case(group, end, &cases[count++]);
    const unsigned char *inner = fixed(at, end, " (inner ");
    at = fixed(inner ? fixed(number(inner, end, &p), end, ")") : at, end, ")");
    if (at != end) return 5;
    for (int i = 0; i < count; i++) {
        stress |= cases[i].sx > 700000 || cases[i].sphi > 700000 || cases[i].tau > 700000;
        wind |= cases[i].w > 10000 || cases[i].vented > 1;
    }
    if (outside(v[0], 100, 50000) || outside(v[1], 100, 10000) || outside(v[2], 10, 200000) || outside(v[3], 60000, 220000) ||
        outside(v[4], 100, 700) || stress)
        return 6;
    if (v[5] != 11 && v[5] != 12 && v[5] != 22) return 7;
    if (v[10] > 50) return 11;
    uint64_t wall = v[1] < 500 ? 2 * v[1] - v[10] : 2 * v[1]; /* 200ths of a mm */
    if (outside(200 * v[0], 20 * wall, 2500 * wall)) return 8;
    if (v[0] > 20 * v[2] || v[2] > 50 * v[0]) return 9;
    if (v[6] > 2000) return 10;
    if (wind) return 13;
    if (p > 1000000) return 16;
    for (int i = 0; i < count; i++) {
        v[7] = cases[i].sx;
        v[8] = cases[i].windy ? (uint64_t)double_wind(v, cases[i].w, cases[i].vented) : cases[i].sphi;
        v[9] = cases[i].tau;
        fails |= !(double_sum(v, p) <= 1);
    }
    return fails ? FAILS : HOLDS;
}

static char *put_number(char *out, unsigned x) {
    char digits[10];
    int n = 0;
    do digits[n++] = (char)('0' + x % 10);
    while (x /= 10);
    while (n) *out++ = digits[--n];
    return out;
}

static char *put_word(char *out, const char *word) {
    size_t n = strlen(word);
    memcpy(out, word, n);
    return out + n;
}

/* Writes the listing of a sheet to a buffer of 24,616 bytes, and gives its length. */
static size_t double_listing(const unsigned char *sheet, size_t n, char *listing) {
    unsigned lines = 0, holds = 0, fails = 0, refused = 0;
    const unsigned char *end = sheet + n, *stop;
    char *out = listing;
    if (n > 65535) return (size_t)sprintf(listing, "(batch refused 1)\n");
    for (const unsigned char *at = sheet; at < end; at = stop + 1, lines++) {
        stop = (const unsigned char *)memchr(at, '\n', (size_t)(end - at));
        if (!stop) stop = end;
    }
    if (lines > 1024) return (size_t)sprintf(listing, "(batch refused 2)\n");
    lines = 0;
    for (const unsigned char *at = sheet; at < end; at = stop + 1) {
        stop = (const unsigned char *)memchr(at, '\n', (size_t)(end - at));
        if (!stop) stop = end;
        int answer = double_answer(at, stop);
        *out++ = '(';
        out = put_number(out, ++lines);
        if (answer == HOLDS || answer == FAILS) {
            out = put_word(out, answer == HOLDS ? " holds" : " fails");
            ++*(answer == HOLDS ? &holds : &fails);
        } else {
            out = put_number(put_word(out, " refused "), (unsigned)answer);
            refused++;
        }
        out = put_word(out, ")\n");
    }
    return (size_t)(out - listing) + (size_t)sprintf(out, "(total %u %u %u 0 %u)\n", lines, holds, fails, refused);
}
