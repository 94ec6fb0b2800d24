/* Judges the lines of a sheet from C, each as it is read: shells with wind, internal pressure or several load cases too. Takes standard input and prints an answer in words for each line. The exit
   status is 1 if a line does not hold. Compile: cc -Wconversion line.c $(pkg-config --cflags --libs shellsheet) */
#include <shellsheet.h>
#include <stdio.h>

/* More than a line may have: of a longer one the start is refused as the whole is. */
enum { MOST = 513 };

static int show(unsigned long place, uint64_t answer) {
    unsigned low = shell_low(answer), high = shell_high(answer);
    printf("line %lu: ", place);
    if (shell_refusal(answer)) {
        printf("refused %u: %s\n", shell_refusal(answer), shell_reason(answer));
        return 1;
    }
    printf("%s", shell_reason(answer));
    if (shell_case(answer) > 1) printf(" by case %u", shell_case(answer));
    if (high < 20000)
        printf(": the sum is from %u.%04u to %u.%04u\n", low / 10000, low % 10000, high / 10000, high % 10000);
    else
        printf(": the sum is %u.%04u or more\n", low / 10000, low % 10000);
    return shell_verdict(answer) != SHELL_HOLDS;
}

int main(void) {
    uint8_t line[MOST];
    size_t length = 0;
    unsigned long place = 0;
    int c, other = 0;
    while ((c = getchar()) != EOF) {
        if (c != '\n') {
            if (length < MOST) line[length++] = (uint8_t)c;
            continue;
        }
        other |= show(++place, shell_judge_line(line, length));
        length = 0;
    }
    if (length) other |= show(++place, shell_judge_line(line, length)); /* the last line may lack its newline */
    if (ferror(stdin)) {
        perror("line: standard input");
        return 2;
    }
    if (fflush(stdout) || ferror(stdout)) {
        perror("line: standard output");
        return 2;
    }
    return other;
}
