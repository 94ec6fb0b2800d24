/* Writes a sheet from a drawing office's model, here a table of a silo's courses, one of a tank's walls under wind and a bin with its load cases, to standard output. What is refused has
   no line there; it is named on standard error, and the exit status is 1. Compile: cc -Wconversion write.c $(pkg-config --cflags --libs shellsheet) */
#include <shellsheet.h>
#include <stdio.h>

/* In the order of shell_write: lengths in mm, the wall and its shortfall in hundredths of a mm, e and fy in N/mm², stresses in kN/m². */
struct course {
    const char *name;
    uint64_t r, t, l, e, fy, edges, a, sx, sphi, tau, d;
};

/* In the order of shell_write_wind: in place of the ring stress the gust pressure w in N/m², and v, 1 for an open or vented wall and 0 for a closed one. */
struct wall {
    const char *name;
    uint64_t r, t, l, e, fy, edges, a, sx, w, v, tau, d;
};

static const struct course silo[] = {
    {"top course", 4000, 400, 3000, 210000, 240, 12, 1000, 10000, 1500, 6000, 30},
    {"middle course", 4000, 500, 3000, 210000, 240, 22, 1000, 16000, 1200, 7500, 30},
    {"bottom course", 4000, 600, 2500, 210000, 240, 12, 1200, 35000, 1000, 9000, 0},
};

static const struct wall tank[] = {
    {"closed tank", 7500, 500, 9000, 210000, 240, 12, 1000, 4000, 800, 0, 2000, 0},
    {"vented tank", 7500, 500, 9000, 210000, 240, 12, 1000, 4000, 800, 1, 2000, 0},
};

/* The load cases of a bin, five numbers for each, in the order of shell_write_cases: sx, 0, sphi, 0, tau; or with wind sx, 1, w, v, tau. */
static const uint64_t bin[] = {
    20000, 0, 0, 0, 0,       /* full */
    4000, 1, 1500, 0, 5000,  /* empty, under wind */
    12000, 1, 1500, 0, 6000, /* half full, under wind */
};

/* Prints a line that was written, 0 bytes of one that is refused; says why it is, and returns 1 then. */
static int print(const char *name, const uint8_t *line, uint64_t answer) {
    fwrite(line, 1, shell_written(answer), stdout);
    if (!shell_refusal(answer)) return 0;
    fprintf(stderr, "write: %s: refused %u: %s\n", name, shell_refusal(answer), shell_reason(answer));
    return 1;
}

int main(void) {
    int refused = 0;
    uint8_t line[SHELL_ROOM];
    for (size_t i = 0; i < sizeof silo / sizeof *silo; i++) {
        const struct course *c = &silo[i];
        uint64_t answer = shell_write(line, sizeof line, c->r, c->t, c->l, c->e, c->fy, c->edges, c->a, c->sx, c->sphi, c->tau, c->d);
        refused |= print(c->name, line, answer);
    }
    for (size_t i = 0; i < sizeof tank / sizeof *tank; i++) {
        const struct wall *c = &tank[i];
        uint64_t answer = shell_write_wind(line, sizeof line, c->r, c->t, c->l, c->e, c->fy, c->edges, c->a, c->sx, c->w, c->v, c->tau, c->d);
        refused |= print(c->name, line, answer);
    }
    uint64_t answer = shell_write_cases(line, sizeof line, bin, sizeof bin / sizeof *bin, 5000, 500, 10000, 210000, 240, 12, 1000, 0, 0, 0);
    refused |= print("bin", line, answer);
    if (fflush(stdout) || ferror(stdout)) {
        perror("write: standard output");
        return 2;
    }
    return refused;
}
