/* Passes each line of eleven numbers on standard input to the C call and prints the line with the answer behind it. */
#include <inttypes.h>
#include <stdio.h>
#include "../include/shellsheet.h"

int main(void) {
    uint64_t v[11];
    for (;;) {
        for (int i = 0; i < 11; i++)
            if (scanf("%" SCNu64, &v[i]) != 1) return i != 0;
        uint64_t n = shell_judge(v[0], v[1], v[2], v[3], v[4], v[5], v[6], v[7], v[8], v[9], v[10]);
        for (int i = 0; i < 11; i++) printf("%" PRIu64 " ", v[i]);
        printf("| %" PRIu64 "\n", n);
    }
}
