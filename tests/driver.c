/* Makes the calls of stored cases (reference/vectors/papers): driver KIND reads a case a line from standard input and prints a line for each. The words
   of a case are parted by one space; what stands behind " = ", the expected answer, is not read, and neither is a line that starts with #.

       calls    the eleven numbers of shell_judge: the number that it returns
       lines    the bytes of one line, for shell_judge_line: "R refusal" or "J verdict case L U", case being the governing load case. Bytes are
                hex, or hh*n for n equal ones, parts joined by "."; "-" is none
       writer   room r t l E fy edges a d n, n times sx kind x y tau, then has p: "R refusal kept" or "B length bytes kept", the bytes in hex. kind is 0
                with sphi for x and 0 for y, or 1 with w for x and v for y; has is 0 with 0 for p, or 1. shell_write_cases is called, for any n; where n is
                1, that of shell_write, shell_write_wind, shell_write_inner and shell_write_wind_inner which has the form is too, and has to do the same. The
                lent buffer of room bytes holds (7 i + 3) mod 256 at place i; kept is 1 if all that the calls must not change is as it was, the groups
                and what is past the buffer's end too, else 0
       plates   r l E fy edges a nx nphi nxphi n, then n plates, for shell_choose_plate: "R refusal" or "P place", with 0 for the place if no plate holds

   Another kind is a function, which takes the words of a case and prints its line, and a row in the table of kinds. */
#define _POSIX_C_SOURCE 200809L
#include <errno.h>
#include <inttypes.h>
#include <stdio.h>
#include <stdlib.h>
#include <string.h>
#include "../include/shellsheet.h"

static char *rest;           /* what is left of the words of the case */
static unsigned long place;  /* of the case among the lines */

static void broken(const char *what) {
    fprintf(stderr, "driver: line %lu: %s\n", place, what);
    exit(2);
}

/* The next word of the case; without one it is empty. */
static char *word(void) {
    char *w = rest;
    size_t n = strcspn(w, " ");
    rest = w + n + (w[n] != 0);
    w[n] = 0;
    return w;
}

/* The next word as a number of up to 64 bits: digits alone, and nothing is wrapped. */
static uint64_t number(void) {
    const char *w = word();
    if (!*w || strspn(w, "0123456789") != strlen(w)) broken("a word is not a whole number, or missing");
    errno = 0;
    unsigned long long v = strtoull(w, NULL, 10);
    if (errno || v > UINT64_MAX) broken("a number is too large");
    return v;
}

static void ended(void) {
    if (*rest) broken("there are too many words");
}

static void calls(void) {
    uint64_t v[11];
    for (int i = 0; i < 11; i++) v[i] = number();
    ended();
    printf("%" PRIu64 "\n", shell_judge(v[0], v[1], v[2], v[3], v[4], v[5], v[6], v[7], v[8], v[9], v[10]));
}

enum { MOST_ROOM = 1 << 24, PAST = 256, MOST_GROUPS = 1 << 20 };  /* PAST: bytes behind the lent ones */

static int digit(char c) {
    const char *digits = "0123456789abcdef", *at = c ? strchr(digits, c) : NULL;
    return at ? (int)(at - digits) : -1;
}

/* The bytes of a word, to the place given, or to none; how many there are. */
static size_t bytes(const char *w, unsigned char *to) {
    size_t count = 0;
    if (!strcmp(w, "-")) return 0;
    for (;;) {
        unsigned long long times = 1;
        int high = digit(*w), low = high < 0 ? -1 : digit(w[1]);
        if (low < 0) broken("a word is not bytes, or missing");
        w += 2;
        if (*w == '*') {
            char *end;
            if (digit(w[1]) < 0 || digit(w[1]) > 9) broken("a word is not bytes, or missing");
            errno = 0;
            times = strtoull(w + 1, &end, 10);
            w = end;
            if (errno || times > MOST_ROOM) broken("the line is too long");
            if (*w && *w != '.') broken("a word is not bytes, or missing");
        }
        if (times > MOST_ROOM - count) broken("the line is too long");
        if (to) memset(to + count, 16 * high + low, (size_t)times);
        count += (size_t)times;
        if (!*w) return count;
        if (*w == '.') w++;
    }
}

static void lines(void) {
    const char *w = word();
    ended();
    size_t length = bytes(w, NULL);
    unsigned char *lent = malloc(length + PAST), *before = malloc(length + PAST);
    if (!lent || !before) broken("there is no memory for the line");
    bytes(w, lent);
    memset(lent + length, ')', PAST);  /* a reader that goes on finds brackets */
    memcpy(before, lent, length + PAST);
    uint64_t answer = shell_judge_line(lent, length);
    if (memcmp(lent, before, length + PAST)) broken("the line was changed");
    if (shell_verdict(answer))
        printf("J %u %u %u %u\n", shell_verdict(answer), shell_case(answer), shell_low(answer), shell_high(answer));
    else
        printf("R %" PRIu64 "\n", answer);
    free(lent);
    free(before);
}

static void writer(void) {
    uint64_t given = number(), w[8];
    if (given > MOST_ROOM) broken("the buffer is too large");
    for (int i = 0; i < 8; i++) w[i] = number();
    uint64_t n = number();
    if (n > MOST_GROUPS) broken("there are too many groups of stresses");
    size_t numbers = 5 * (size_t)n, listed = (numbers + 1) * sizeof(uint64_t);  /* one more, so that no list is without memory */
    uint64_t *groups = malloc(listed), *given_groups = malloc(listed);
    if (!groups || !given_groups) broken("there is no memory for the groups");
    for (size_t i = 0; i < numbers; i++) groups[i] = number();
    groups[numbers] = UINT64_MAX;
    memcpy(given_groups, groups, listed);
    for (uint64_t i = 0; i < n; i++) {
        if (groups[5 * i + 1] > 1) broken("a group is of kind 0 or 1");
        if (groups[5 * i + 1] == 0 && groups[5 * i + 3] != 0) broken("a group of kind 0 has 0 for y");
    }
    uint64_t has = number(), p = number();
    if (has > 1) broken("a line has an internal pressure or has none");
    if (has == 0 && p != 0) broken("an internal pressure that is missing has 0 for p");
    ended();
    size_t room = (size_t)given, size = room + PAST;
    unsigned char *lent = malloc(size), *before = malloc(size), *other = malloc(size);
    if (!lent || !before || !other) broken("there is no memory for the buffer");
    for (size_t i = 0; i < size; i++) lent[i] = before[i] = other[i] = (unsigned char)(7 * i + 3);
    uint64_t answer = shell_write_cases(lent, room, groups, numbers, w[0], w[1], w[2], w[3], w[4], w[5], w[6], w[7], has, p);
    if (n == 1) {
        uint64_t sx = groups[0], kind = groups[1], x = groups[2], y = groups[3], tau = groups[4];
        uint64_t alone = kind && has ? shell_write_wind_inner(other, room, w[0], w[1], w[2], w[3], w[4], w[5], w[6], sx, x, y, tau, w[7], p)
                         : kind      ? shell_write_wind(other, room, w[0], w[1], w[2], w[3], w[4], w[5], w[6], sx, x, y, tau, w[7])
                         : has       ? shell_write_inner(other, room, w[0], w[1], w[2], w[3], w[4], w[5], w[6], sx, x, tau, w[7], p)
                                     : shell_write(other, room, w[0], w[1], w[2], w[3], w[4], w[5], w[6], sx, x, tau, w[7]);
        if (alone != answer || memcmp(lent, other, size)) broken("two calls that write differ");
    }
    size_t put = shell_written(answer);
    int kept = !memcmp(lent + put, before + put, size - put) && !memcmp(groups, given_groups, listed);
    if (put) {
        printf("B %zu ", put);
        for (size_t i = 0; i < put; i++) printf("%02x", lent[i]);
        printf(" %d\n", kept);
    } else {
        printf("R %" PRIu64 " %d\n", answer, kept);
    }
    free(lent);
    free(before);
    free(other);
    free(groups);
    free(given_groups);
}

enum { MOST_PLATES = 1 << 20 };

static void plates(void) {
    uint64_t v[9];
    for (int i = 0; i < 9; i++) v[i] = number();
    uint64_t given = number();
    if (given > MOST_PLATES) broken("the list is too long");
    size_t count = (size_t)given, size = (count + 1) * sizeof(uint64_t);  /* one more, so that no list is without memory */
    uint64_t *lent = malloc(size), *before = malloc(size);
    if (!lent || !before) broken("there is no memory for the list");
    for (size_t i = 0; i < count; i++) lent[i] = number();
    ended();
    lent[count] = UINT64_MAX;
    memcpy(before, lent, size);
    uint64_t answer = shell_choose_plate(lent, count, v[0], v[1], v[2], v[3], v[4], v[5], v[6], v[7], v[8]);
    if (memcmp(lent, before, size)) broken("the list was changed");
    if (answer == SHELL_PLATE_NONE || shell_place(answer))
        printf("P %u\n", shell_place(answer));
    else
        printf("R %" PRIu64 "\n", answer);
    free(lent);
    free(before);
}

static const struct {
    const char *name;
    void (*make)(void);
} kinds[] = {
    {"calls", calls},
    {"lines", lines},
    {"writer", writer},
    {"plates", plates},
};

int main(int argc, char **argv) {
    size_t k = 0, count = sizeof kinds / sizeof *kinds, room = 0;
    char *line = NULL;
    if (argc != 2) {
        fprintf(stderr, "usage: driver KIND <CASES\n");
        return 2;
    }
    while (k < count && strcmp(kinds[k].name, argv[1])) k++;
    if (k == count) {
        fprintf(stderr, "driver: %s is no kind of calls\n", argv[1]);
        return 2;
    }
    while (getline(&line, &room, stdin) > 0) {
        place++;
        if (*line == '#') continue;
        line[strcspn(line, "\n")] = 0;
        char *expected = strstr(line, " = ");
        if (expected) *expected = 0;
        rest = line;
        kinds[k].make();
    }
    int failed = ferror(stdin) || fflush(stdout);
    if (failed) perror("driver");
    free(line);
    return failed ? 2 : 0;
}
