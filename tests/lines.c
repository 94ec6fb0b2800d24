/* Passes each line of standard input, the bytes of a sheet's line in hex or - for none, to shell_judge_line and prints the answer. The bytes can only be read, and lie against memory
   that cannot be: of one line the end, of the next the start. */
#define _DEFAULT_SOURCE
#include <inttypes.h>
#include <stdio.h>
#include <string.h>
#include <sys/mman.h>
#include "../include/shellsheet.h"

enum { PAGE = 4096 };

int main(void) {
    unsigned char *all = mmap(NULL, 3 * PAGE, PROT_NONE, MAP_PRIVATE | MAP_ANONYMOUS, -1, 0), *page = all + PAGE;
    static char word[2 * PAGE + 2];
    if (all == MAP_FAILED) return 1;
    for (int turn = 0; fgets(word, sizeof word, stdin); turn = !turn) {
        size_t size = strcspn(word, "\n") / 2;  /* none, for - */
        unsigned char *lent = turn ? page : page + PAGE - size;
        if (size > PAGE || !strchr(word, '\n') || mprotect(page, PAGE, PROT_READ | PROT_WRITE)) return 1;
        for (size_t i = 0; i < size; i++)
            if (sscanf(word + 2 * i, "%2hhx", &lent[i]) != 1) return 1;
        if (mprotect(page, PAGE, PROT_READ)) return 1;
        printf("%" PRIu64 "\n", shell_judge_line(lent, size));
    }
    return ferror(stdin) != 0;
}
