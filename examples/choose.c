/* Chooses the plates of a silo's courses from those in the yard, by the forces on their edges. A course that no plate is found for is named on standard
   error, and the exit status is 1. Compile: cc -Wconversion choose.c $(pkg-config --cflags --libs shellsheet) */
#include <shellsheet.h>
#include <stdio.h>

/* In the order of shell_choose_plate: lengths in mm, e and fy in N/mm², forces in N/mm. */
struct course {
    const char *name;
    uint64_t r, l, e, fy, edges, a, nx, nphi, nxphi;
};

/* Thicknesses in hundredths of a mm, the thinnest first. */
static const uint64_t yard[] = {300, 400, 500, 600, 800, 1000};

static const struct course silo[] = {
    {"top course", 4000, 3000, 210000, 240, 12, 1000, 40, 6, 24},
    {"middle course", 4000, 3000, 210000, 240, 22, 1000, 80, 6, 40},
    {"bottom course", 4000, 2500, 210000, 240, 12, 1200, 160, 5, 50},
};

int main(void) {
    int missing = 0;
    for (size_t i = 0; i < sizeof silo / sizeof *silo; i++) {
        const struct course *c = &silo[i];
        uint64_t answer = shell_choose_plate(yard, sizeof yard / sizeof *yard, c->r, c->l, c->e, c->fy, c->edges, c->a, c->nx, c->nphi, c->nxphi);
        if (shell_place(answer)) {
            unsigned t = (unsigned)yard[shell_place(answer) - 1];
            printf("%s: %u.%02u mm\n", c->name, t / 100, t % 100);
            continue;
        }
        missing = 1;
        if (shell_refusal(answer))
            fprintf(stderr, "choose: %s: refused %u: %s\n", c->name, shell_refusal(answer), shell_reason(answer));
        else
            fprintf(stderr, "choose: %s: no plate of the yard holds\n", c->name);
    }
    if (fflush(stdout) || ferror(stdout)) {
        perror("choose: standard output");
        return 2;
    }
    return missing;
}
