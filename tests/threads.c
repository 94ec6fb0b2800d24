/* Judges and writes the records on standard input, lines of eleven numbers, by one thread and then by 8 at once, each on a stack of its own that was
   painted before and into buffers of its own; each record is written a second time with wind, made of its ring stress, a third and a fourth time with an internal pressure,
   made of its axial stress, and a fifth time with one to eight load cases, and what was written is judged as a line; a plate is chosen for its shell from one list for all. The answers
   have to be equal, and so has what is in the buffers. Prints how far below their caller's frame the calls wrote: the stack they take. */
#define _GNU_SOURCE
#include <inttypes.h>
#include <pthread.h>
#include <stdio.h>
#include <stdlib.h>
#include <string.h>
#include <sys/mman.h>
#include "../include/shellsheet.h"

enum { THREADS = 8, ROUNDS = 100, MOST = 4096, STACK = 1 << 18, PAINT = 0xA5 };

struct answers {
    uint64_t judged, written, windy, pressed, both, several, chosen, of_line[5];
    uint8_t line[SHELL_ROOM], wind[SHELL_ROOM], inner[SHELL_ROOM], wind_inner[SHELL_ROOM], cases[SHELL_ROOM];
};

static const uint64_t yard[] = {50, 200, 300, 400, 500, 600, 800, 1000, 1500, 2000, 3000, 10001};

static uint64_t records[MOST][11];
static struct answers wanted[MOST];
static size_t count;
static pthread_barrier_t start;

struct work {
    size_t first;              /* the record it starts with: each thread is at another one */
    size_t wrong;
    uintptr_t frame;           /* where the frame of the calls' caller ends */
    unsigned char *stack;
    struct answers found;
};

/* the bytes of a line that was written; all of the buffer, where none was */
static size_t without_newline(uint64_t answer) {
    return shell_written(answer) ? shell_written(answer) - 1 : SHELL_ROOM;
}

static void ask(const uint64_t *v, struct answers *to) {
    uint64_t p = v[7] * 20 % 1000002, groups[5 * SHELL_CASES];
    size_t count_of_cases = 1 + (size_t)(v[7] % SHELL_CASES);
    for (size_t i = 0; i < SHELL_CASES; i++) { /* the stresses of the record, and less of them; every second one with wind */
        uint64_t *g = groups + 5 * i;
        g[0] = v[7] / (i + 1);
        g[1] = i % 2;
        g[2] = i % 2 ? v[8] % 10002 : v[8] / (i + 1);
        g[3] = i % 2 ? v[8] % 3 : 0;
        g[4] = v[9] / (i + 1);
    }
    memset(to->line, PAINT, sizeof to->line);
    memset(to->wind, PAINT, sizeof to->wind);
    memset(to->inner, PAINT, sizeof to->inner);
    memset(to->wind_inner, PAINT, sizeof to->wind_inner);
    memset(to->cases, PAINT, sizeof to->cases);
    to->judged = shell_judge(v[0], v[1], v[2], v[3], v[4], v[5], v[6], v[7], v[8], v[9], v[10]);
    to->written = shell_write(to->line, sizeof to->line, v[0], v[1], v[2], v[3], v[4], v[5], v[6], v[7], v[8], v[9], v[10]);
    to->windy = shell_write_wind(to->wind, sizeof to->wind, v[0], v[1], v[2], v[3], v[4], v[5], v[6], v[7], v[8] % 10002, v[8] % 3, v[9], v[10]);
    to->pressed = shell_write_inner(to->inner, sizeof to->inner, v[0], v[1], v[2], v[3], v[4], v[5], v[6], v[7], v[8], v[9], v[10], p);
    to->both = shell_write_wind_inner(to->wind_inner, sizeof to->wind_inner, v[0], v[1], v[2], v[3], v[4], v[5], v[6], v[7], v[8] % 10002, v[8] % 3, v[9], v[10], p);
    to->several = shell_write_cases(to->cases, sizeof to->cases, groups, 5 * count_of_cases, v[0], v[1], v[2], v[3], v[4], v[5], v[6], v[10], v[8] % 2, p);
    to->of_line[0] = shell_judge_line(to->line, without_newline(to->written));
    to->of_line[1] = shell_judge_line(to->wind, without_newline(to->windy));
    to->of_line[2] = shell_judge_line(to->inner, without_newline(to->pressed));
    to->of_line[3] = shell_judge_line(to->wind_inner, without_newline(to->both));
    to->of_line[4] = shell_judge_line(to->cases, without_newline(to->several));
    to->chosen = shell_choose_plate(yard, sizeof yard / sizeof *yard, v[0], v[2], v[3], v[4], v[5], v[6], v[7] / 100, v[8] / 100, v[9] / 100);
}

static int same(const struct answers *x, const struct answers *y) {
    return x->judged == y->judged && x->written == y->written && x->windy == y->windy && x->pressed == y->pressed && x->both == y->both && x->several == y->several &&
           x->chosen == y->chosen && !memcmp(x->of_line, y->of_line, sizeof x->of_line) && !memcmp(x->line, y->line, sizeof x->line) && !memcmp(x->wind, y->wind, sizeof x->wind) &&
           !memcmp(x->inner, y->inner, sizeof x->inner) && !memcmp(x->wind_inner, y->wind_inner, sizeof x->wind_inner) &&
           !memcmp(x->cases, y->cases, sizeof x->cases);
}

static void *run(void *given) {
    struct work *w = (struct work *)given;
    pthread_barrier_wait(&start);
    for (size_t k = 0; k < ROUNDS * count; k++) {
        size_t i = (w->first + k) % count;
        ask(records[i], &w->found);
        w->wrong += !same(&w->found, &wanted[i]);
    }
    w->frame = (uintptr_t)__builtin_frame_address(0);
    return NULL;
}

/* the bytes between the caller's frame and the lowest byte that has lost its paint */
static size_t taken(const struct work *w) {
    size_t i = 0;
    while (i < STACK && w->stack[i] == PAINT) i++;
    return (size_t)(w->frame - (uintptr_t)(w->stack + i));
}

static int broken(const char *what) {
    fprintf(stderr, "threads: %s\n", what);
    return 2;
}

int main(void) {
    struct work works[THREADS];
    pthread_t threads[THREADS];
    pthread_attr_t attr;
    size_t wrong = 0, most = 0;
    for (;; count++) {
        int i = 0;
        while (i < 11 && count < MOST && scanf("%" SCNu64, &records[count][i]) == 1) i++;
        if (i < 11) break;
        ask(records[count], &wanted[count]);
    }
    if (!count || !feof(stdin)) return broken("not lines of eleven numbers, or too many");
    if (pthread_barrier_init(&start, NULL, THREADS) || pthread_attr_init(&attr)) return broken("no barrier");
    for (size_t k = 0; k < THREADS; k++) {
        void *stack = mmap(NULL, STACK, PROT_READ | PROT_WRITE, MAP_PRIVATE | MAP_ANONYMOUS, -1, 0);
        if (stack == MAP_FAILED) return broken("no stack");
        memset(stack, PAINT, STACK);
        works[k].first = k * count / THREADS;
        works[k].wrong = 0;
        works[k].stack = (unsigned char *)stack;
        if (pthread_attr_setstack(&attr, stack, STACK) || pthread_create(&threads[k], &attr, run, &works[k])) return broken("a thread does not start");
    }
    for (size_t k = 0; k < THREADS; k++) {
        if (pthread_join(threads[k], NULL)) return broken("a thread does not end");
        wrong += works[k].wrong;
        if (taken(&works[k]) > most) most = taken(&works[k]);
    }
    printf("%d threads, %zu records %d times each, %zu answers unlike those of one thread, %zu bytes of stack\n", THREADS, count, ROUNDS, wrong, most);
    return wrong != 0;
}
