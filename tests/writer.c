/* Passes each case on standard input, "fill room kind" and numbers, with a buffer of room bytes in the middle of a larger one that holds (7 i + fill) mod 256
   at place i: of kind 0 the eleven numbers of shell_write, of kind 1 the twelve of shell_write_wind, of kind 2 the twelve of shell_write_inner, of kind 3 the thirteen of
   shell_write_wind_inner; of kind 4 the ten numbers r t l e fy edges a d has p of shell_write_cases, how many numbers its list has, and the list, which can only be read and lies against
   memory that cannot be: of one case the end, of the next the start. Prints the answer and, in hex, all of the larger buffer: AROUND bytes, the lent ones, AROUND bytes. */
#define _DEFAULT_SOURCE
#include <inttypes.h>
#include <stdio.h>
#include <stdlib.h>
#include <sys/mman.h>
#include "../include/shellsheet.h"

enum { AROUND = 64, MOST = 1 << 20, PAGE = 4096, MOST_NUMBERS = PAGE / sizeof(uint64_t) };

static int numbers(uint64_t *to, size_t count) {
    for (size_t i = 0; i < count; i++)
        if (scanf("%" SCNu64, &to[i]) != 1) return 0;
    return 1;
}

int main(void) {
    static const char hex[] = "0123456789abcdef";
    static const size_t given[] = {11, 12, 12, 13, 11};
    unsigned char *all = malloc(MOST + 2 * AROUND), *pages = mmap(NULL, 3 * PAGE, PROT_NONE, MAP_PRIVATE | MAP_ANONYMOUS, -1, 0);
    char *text = malloc(2 * (MOST + 2 * AROUND));
    uint64_t c[3], v[13], *page = (uint64_t *)(void *)(pages + PAGE);
    if (!all || !text || pages == MAP_FAILED) return 1;
    for (int turn = 0;; turn = !turn) {
        if (scanf("%" SCNu64, &c[0]) != 1) return !feof(stdin);
        if (!numbers(c + 1, 2) || c[1] > MOST || c[2] > 4 || !numbers(v, given[c[2]])) return 1;
        size_t room = (size_t)c[1], size = room + 2 * AROUND, listed = c[2] == 4 ? (size_t)v[10] : 0;
        if (listed > MOST_NUMBERS || mprotect(page, PAGE, PROT_READ | PROT_WRITE)) return 1;
        uint64_t *list = turn ? page : page + MOST_NUMBERS - listed;
        if (!numbers(list, listed) || mprotect(page, PAGE, PROT_READ)) return 1;
        for (size_t i = 0; i < size; i++) all[i] = (unsigned char)(7 * i + c[0]);
        uint8_t *out = all + AROUND;
        uint64_t n = c[2] == 0   ? shell_write(out, room, v[0], v[1], v[2], v[3], v[4], v[5], v[6], v[7], v[8], v[9], v[10])
                     : c[2] == 1 ? shell_write_wind(out, room, v[0], v[1], v[2], v[3], v[4], v[5], v[6], v[7], v[8], v[9], v[10], v[11])
                     : c[2] == 2 ? shell_write_inner(out, room, v[0], v[1], v[2], v[3], v[4], v[5], v[6], v[7], v[8], v[9], v[10], v[11])
                     : c[2] == 3 ? shell_write_wind_inner(out, room, v[0], v[1], v[2], v[3], v[4], v[5], v[6], v[7], v[8], v[9], v[10], v[11], v[12])
                                 : shell_write_cases(out, room, list, listed, v[0], v[1], v[2], v[3], v[4], v[5], v[6], v[7], v[8], v[9]);
        for (size_t i = 0; i < size; i++) {
            text[2 * i] = hex[all[i] >> 4];
            text[2 * i + 1] = hex[all[i] & 15];
        }
        printf("%" PRIu64 " ", n);
        fwrite(text, 2, size, stdout);
        putchar('\n');
    }
}
