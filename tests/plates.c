/* Passes each case on standard input, "r l E fy edges a nx nphi nxphi n" and n plates, to shell_choose_plate and prints the answer. The list can only be read, and
   lies against memory that cannot be: of one case its end, of the next its start. */
#define _DEFAULT_SOURCE
#include <inttypes.h>
#include <stdio.h>
#include <string.h>
#include <sys/mman.h>
#include "../include/shellsheet.h"

enum { PAGE = 4096, MOST = PAGE / sizeof(uint64_t) };

int main(void) {
    unsigned char *all = mmap(NULL, 3 * PAGE, PROT_NONE, MAP_PRIVATE | MAP_ANONYMOUS, -1, 0), *page = all + PAGE;
    uint64_t v[10], list[MOST];
    if (all == MAP_FAILED) return 1;
    for (int turn = 0;; turn = !turn) {
        for (int i = 0; i < 10; i++)
            if (scanf("%" SCNu64, &v[i]) != 1) return i != 0;
        if (v[9] > MOST) return 1;
        size_t count = (size_t)v[9], size = count * sizeof *list;
        for (size_t i = 0; i < count; i++)
            if (scanf("%" SCNu64, &list[i]) != 1) return 1;
        unsigned char *lent = turn ? page : page + PAGE - size;
        if (mprotect(page, PAGE, PROT_READ | PROT_WRITE)) return 1;
        memcpy(lent, list, size);
        if (mprotect(page, PAGE, PROT_READ)) return 1;
        uint64_t n = shell_choose_plate((const uint64_t *)(const void *)lent, count, v[0], v[1], v[2], v[3], v[4], v[5], v[6], v[7], v[8]);
        printf("%" PRIu64 "\n", n);
    }
}
