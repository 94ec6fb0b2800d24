/* Judges shells from C. Eleven numbers as arguments are one shell; without arguments, each line of standard input is one. Stresses are in
   kN/m². Compile: cc -Wconversion judge.c $(pkg-config --cflags --libs shellsheet) */
#include <errno.h>
#include <shellsheet.h>
#include <stdio.h>
#include <stdlib.h>
#include <string.h>

enum { FIELDS = 11 };

/* Reads a whole number of digits alone. A number that 64 bits do not hold is said and not wrapped. */
static int number(const char *word, uint64_t *v) {
    if (!*word || strspn(word, "0123456789") != strlen(word)) {
        fprintf(stderr, "judge: %s is not a whole number\n", word);
        return 0;
    }
    errno = 0;
    *v = strtoull(word, NULL, 10);
    if (errno == ERANGE) {
        fprintf(stderr, "judge: %s is too large\n", word);
        return 0;
    }
    return 1;
}

static void show(uint64_t answer) {
    unsigned refusal = shell_refusal(answer), low = shell_low(answer), high = shell_high(answer);
    if (refusal) {
        printf("refused %u: %s\n", refusal, shell_reason(answer));
        return;
    }
    printf("%s: L %u, U %u, the sum is ", shell_reason(answer), low, high);
    if (high < 20000)
        printf("from %u.%04u to %u.%04u\n", low / 10000, low % 10000, high / 10000, high % 10000);
    else
        printf("%u.%04u or more\n", low / 10000, low % 10000);
}

/* Judges one shell, given as words. */
static int judge(char *const *word, int count) {
    uint64_t v[FIELDS];
    if (count != FIELDS) {
        fprintf(stderr, "judge: %s%d numbers, eleven are needed: r t l E fy edges a sx sphi tau d\n", count > FIELDS ? "more than " : "",
                count > FIELDS ? FIELDS : count);
        return 0;
    }
    for (int i = 0; i < FIELDS; i++)
        if (!number(word[i], &v[i])) return 0;
    show(shell_judge(v[0], v[1], v[2], v[3], v[4], v[5], v[6], v[7], v[8], v[9], v[10]));
    if (fflush(stdout)) {
        perror("judge: standard output");
        return 0;
    }
    return 1;
}

int main(int argc, char **argv) {
    if (argc > 1) return judge(argv + 1, argc - 1) ? 0 : 2;
    char line[512];
    while (fgets(line, sizeof line, stdin)) {
        char *word[FIELDS + 1];
        int count = 0;
        if (!strchr(line, '\n') && !feof(stdin)) {
            fprintf(stderr, "judge: a line is too long\n");
            return 2;
        }
        for (char *w = strtok(line, " \t\r\n"); w && count <= FIELDS; w = strtok(NULL, " \t\r\n")) word[count++] = w;
        if (!judge(word, count)) return 2;
    }
    if (ferror(stdin)) perror("judge: standard input");
    return ferror(stdin) ? 2 : 0;
}
