/* Judges one steel shell, an unstiffened circular cylinder, to DIN 18800-4:2008-11, by its numbers or by its line of a sheet, writes its line, and chooses a plate for it.
   Link with -lshellsheet (pkg-config shellsheet).

   UNITS: e and fy are in N/mm², but the three stresses are in kN/m²: 1 N/mm² is 1,000 kN/m². A stress passed in N/mm² is
   1,000 times too small, no check can notice it, and the shell holds. Round stresses and shortfalls up, and walls down.

   WHOLE NUMBERS: C cuts a double that is passed here without a word. Compile with -Wconversion, which warns of it, and round
   by hand: a stress of x N/mm² is (uint64_t)ceil(1000 * x), a wall of x mm (uint64_t)floor(100 * x), a shortfall of x mm
   (uint64_t)ceil(100 * x), a gust pressure of x kN/m² (uint64_t)ceil(1000 * x), an internal pressure of x kN/m² (uint64_t)floor(1000 * x), a line force of x N/mm
   (uint64_t)ceil(x). A negative whole number, such as a tension, arrives as one above 2^63 and is refused; a negative double
   has no defined value in C.

   WIND: shell_write_wind and shell_write_cases take the gust pressure w in N/m²: 1 kN/m² is 1,000 N/m². One passed in kN/m² is 1,000 times too small, no check can
   notice it, and the shell holds. Round it up.

   INTERNAL PRESSURE: shell_write_inner, shell_write_wind_inner and shell_write_cases take it in N/m²: 1 kN/m² is 1,000 N/m². It raises a resistance: pass only what is there for certain
   whenever the axial stress is, without a factor, and round it down.

   LINE FORCES: shell_choose_plate takes forces per length of edge in N/mm, which is kN/m. One passed in kN/mm is 1,000 times too small, no check can notice
   it, and too thin a plate is chosen. Round forces up, and plates down.

   BEFORE VERSION 0.2 shell_judge had ten numbers, and no shortfall. A client that was compiled for it has to be changed and compiled
   again: it passes no d, and what stands in that place would be read as one. With 0 for d its answers are those that it had.

   BEFORE VERSION 0.8 shell_judge_line granted the gain by internal pressure to some shells with an a above 1,000 that do not get it now; no shell gets one that it had not. Nothing has to be
   compiled in another way: link again, and run old sheets through shellsheet --readings. */
#ifndef SHELLSHEET_H
#define SHELLSHEET_H

#include <stddef.h>
#include <stdint.h>

/* The version, as two numbers and as text: "MAJOR.MINOR". It stands here alone: make reads it from these two lines. */
#define SHELLSHEET_VERSION_MAJOR 0
#define SHELLSHEET_VERSION_MINOR 8
#define SHELLSHEET_VERSION SHELLSHEET_TEXT(SHELLSHEET_VERSION_MAJOR, SHELLSHEET_VERSION_MINOR)
#define SHELLSHEET_TEXT(major, minor) SHELLSHEET_QUOTE(major) "." SHELLSHEET_QUOTE(minor)
#define SHELLSHEET_QUOTE(number) #number

#ifdef __cplusplus
extern "C" {
#endif

/* The answer to one record: a refusal, 6 to 11, or 10,000,000,000 × verdict + 100,000 × L + U. Any eleven numbers may be passed; a
   number outside its limits is answered by a refusal.

       r              radius of the middle surface, mm            100 to 50,000
       t              wall, hundredths of a mm                    100 to 10,000
       l              length, mm                                  10 to 200,000
       e              modulus, N/mm²                              60,000 to 220,000
       fy             yield stress, N/mm²                         100 to 700
       edges          11, 12 or 22, a digit for each edge: 1 held radially and axially, 2 held radially and free axially
       a              worst imperfection, thousandths of what is permitted: up to 2,000, below 1,000 counts as 1,000
       sx, sphi, tau  axial, ring and shear stress, kN/m² (not N/mm²), compression positive: up to 700,000
       d              shortfall of the wall that the delivery standard permits, hundredths of a mm: up to 50

   Where t is below 500, the wall is reckoned as t - d/2, by element 306 of the standard; from 500 up d has no effect. Further, r/t is
   from 20 to 2,500, with that wall, and l from r/20 to 50 r.

   It allocates nothing, keeps no state, changes no memory of the caller's, and may be called by many threads at once. It takes
   less than 20 KB of the calling thread's stack. */
uint64_t shell_judge(uint64_t r, uint64_t t, uint64_t l, uint64_t e, uint64_t fy, uint64_t edges, uint64_t a,
                     uint64_t sx, uint64_t sphi, uint64_t tau, uint64_t d);

/* The answer to one line of a sheet, given as length bytes without a newline behind them: a refusal, 4 to 11, 13 or 16, or
   100,000,000,000 × (case - 1) + 10,000,000,000 × verdict + 100,000 × L + U. Any bytes may be passed, and with a length of 0 none is read.

   The line may have wind, an internal pressure and several load cases, which shell_judge does not take. A load case is a stress group, of either kind:

       (shell r t l e fy edges a d (stress sx sphi tau))
       (shell r t l e fy edges a d (stress sx (wind w v) tau) (stress sx sphi tau))

   There are one to eight of them, with or without d before them, and with or without (inner p), which is for all of them, behind the last: (shell .. (stress ..) (inner p)). A
   line of over 512 bytes is refused by 4, one that is not of the form, as with no group or with nine, by 5. A refusal in any load case refuses the line, by the first check
   that is broken in any of them. The program shellsheet gives the same verdict or refusal to the line in a sheet.

   Each load case has the verdict that it would have on a line of its own. The line's is the worst: it fails if one fails, else it is open if one is open, else it holds. case is
   the governing one, the first with the line's verdict, counted from 1; L and U are of its sum. A line with one load case, without wind and internal pressure, has the number that shell_judge would give.

   Where the test of the internal pressure cannot be decided, U may be more than L + 2: L is of the sum with the pressure's gain, U of the sum without it.

   It allocates nothing, keeps no state, reads the line and changes no memory of the caller's, and may be called by many threads at once, also with one line. It takes
   less than 20 KB of the calling thread's stack. */
uint64_t shell_judge_line(const uint8_t *line, size_t length);

/* Writes the line of one record, and a newline behind it, at the start of the room bytes from out on:

       (shell r t l e fy edges a d (stress sx sphi tau))

   The answer is the number of bytes put, 51 to 79, and the bytes behind them keep their values; or it is a refusal, 6 to 12, and every
   byte keeps its value. A room below 512 is refused by 12, before any other check and also where the line would fit; 6 to 11 are those
   of shell_judge. No zero byte is put behind the newline.

   The numbers are those of shell_judge, in the same order and units, and any may be passed. Each is written as it is given: d also where
   it is 0 or has no effect, a also below 1,000. So the line spells this record, and the program shellsheet answers it as shell_judge does.

   It allocates nothing, keeps no state, changes no memory of the caller's but the bytes that it puts, and may be called by many threads at
   once, each with a buffer of its own. It takes less than 16 KB of the calling thread's stack. */
uint64_t shell_write(uint8_t *out, size_t room, uint64_t r, uint64_t t, uint64_t l, uint64_t e, uint64_t fy, uint64_t edges, uint64_t a,
                     uint64_t sx, uint64_t sphi, uint64_t tau, uint64_t d);

/* Writes the line of one record under wind, as shell_write does, with the wind in place of the ring stress:

       (shell r t l e fy edges a d (stress sx (wind w v) tau))

       w              gust pressure at the stagnation point, N/m² (not kN/m²): up to 10,000
       v              0 for a closed shell, 1 for an open or vented one

   All other numbers are those of shell_write. The program shellsheet turns the wind into an even pressure, by element 424 of the standard: w times
   delta = 0.46 (1 + 0.1 sqrt(Cphi (r/l) sqrt(r/t))), at most w, with Cphi 1.5, 1.25 or 1 for edges 11, 12 or 22, and 0.6 w more for a v of 1. The ring stress is that pressure times r/t, rounded up to
   a whole number of kN/m², and the shell is judged with it.

   The answer is the number of bytes put, 60 to 87, or a refusal, 6 to 13; room, the bytes that keep their values, memory and threads are as with
   shell_write. It takes less than 16 KB of the calling thread's stack. */
uint64_t shell_write_wind(uint8_t *out, size_t room, uint64_t r, uint64_t t, uint64_t l, uint64_t e, uint64_t fy, uint64_t edges, uint64_t a,
                          uint64_t sx, uint64_t w, uint64_t v, uint64_t tau, uint64_t d);

/* Writes the line of one record under internal pressure, as shell_write does, with the pressure behind the stresses:

       (shell r t l e fy edges a d (stress sx sphi tau) (inner p))

       p              internal pressure, N/m² (not kN/m²): up to 1,000,000

   It is written also where it is 0; shell_write writes a line without it, and the two lines have the same answer. All other numbers are those of shell_write.

   By element 429 of the standard the pressure raises the axial resistance of a shell with l/r up to 0.5 sqrt(r/t) and an axial slenderness S above 0.7, where
   (p/fy) (r/t) is at most 0.5 sqrt(1 - 0.75 k^2) - 0.25 k: kappa2 rises by a factor 1 + 1.2 S P^0.38 with P = (p/e) (r/t)^2, in which 1.2 S P^0.38 is scaled by
   (S - 0.7)/0.3 below S = 1, and k is kappa2 so raised, without the tolerance (before version 0.8: with it). The tolerance is in the resistance as ever. On other shells it has no effect.

   The answer is the number of bytes put, 61 to 95, or a refusal, 6 to 12 or 16; room, the bytes that keep their values, memory and threads are as with
   shell_write. It takes less than 16 KB of the calling thread's stack. */
uint64_t shell_write_inner(uint8_t *out, size_t room, uint64_t r, uint64_t t, uint64_t l, uint64_t e, uint64_t fy, uint64_t edges, uint64_t a,
                           uint64_t sx, uint64_t sphi, uint64_t tau, uint64_t d, uint64_t p);

/* Writes the line of one record under wind and internal pressure, as shell_write_wind and shell_write_inner do:

       (shell r t l e fy edges a d (stress sx (wind w v) tau) (inner p))

   The answer is the number of bytes put, 70 to 103, or a refusal, 6 to 13 or 16; all else is as with shell_write_wind and shell_write_inner. It takes
   less than 16 KB of the calling thread's stack. */
uint64_t shell_write_wind_inner(uint8_t *out, size_t room, uint64_t r, uint64_t t, uint64_t l, uint64_t e, uint64_t fy, uint64_t edges, uint64_t a,
                                uint64_t sx, uint64_t w, uint64_t v, uint64_t tau, uint64_t d, uint64_t p);

/* Writes the line of a shell with one to eight load cases, as shell_write does:

       (shell r t l e fy edges a d (stress sx sphi tau) (stress sx (wind w v) tau) .. (inner p))

       groups         five numbers for each load case, in order: sx, kind, x, y, tau; a kind of 0 has sphi in x, and y does not matter, any other has w in x and v in y
       numbers        how many numbers there are: five times the load cases, so not the number of load cases
       has, p         the internal pressure p, N/m²; where has is 0 the line has no such group, and p does not matter

   All other numbers are those of shell_write, but d stands behind a. The load cases are put in their order. With one load case the line is the one that shell_write or another of
   the four calls puts.

   The answer is the number of bytes put, 51 to 369, or a refusal: 12 for the room, before all else; then 5 for numbers that are not five for each of 1 to 8 load cases, whatever
   they are; then 6 to 11, 13 or 16 for the first check that any load case breaks. room, the bytes that keep their values, memory and threads are as with shell_write; groups is
   read, and not changed. It takes less than 16 KB of the calling thread's stack. */
uint64_t shell_write_cases(uint8_t *out, size_t room, const uint64_t *groups, size_t numbers, uint64_t r, uint64_t t, uint64_t l, uint64_t e, uint64_t fy,
                           uint64_t edges, uint64_t a, uint64_t d, uint64_t has, uint64_t p);

/* Chooses a plate from stock: the first of the count thicknesses from plates on with which a shell holds under three line forces.

       plates           thicknesses, hundredths of a mm, each larger than the one before it
       count            how many there are: 1 to 64
       nx, nphi, nxphi  axial, ring and shear force per length of edge, N/mm, compression positive: up to 100,000

   All other numbers are those of shell_judge, and any may be passed. There is no d: it counts as 0. A plate below 500 that may come thinner by d goes into the list
   as t - d/2, rounded down.

   Each plate is judged by itself, with a wall t of its thickness and stresses of 100,000 n/t kN/m², which are kept as fractions and not rounded. It is chosen if its
   verdict is SHELL_HOLDS, and not if it fails or is open. It is passed over without a verdict where t is not from 100 to 10,000, r/t is not from 20 to 2,500, or a
   stress is over 700,000 kN/m². A thicker plate may fail where a thinner one holds.

   The answer is 100 and the place of the plate in the list, counted from 1, so 101 to 164; or 100 (SHELL_PLATE_NONE) if no plate of the list holds; or a refusal, 6, 7,
   9, 10, 14 or 15. A list that is empty, too long or not in order is refused by 14, before any other check; with a count of 0 nothing is read from plates.

   It allocates nothing, keeps no state, reads the list and changes no memory of the caller's, and may be called by many threads at once, also with one list. It takes
   less than 16 KB of the calling thread's stack. */
uint64_t shell_choose_plate(const uint64_t *plates, size_t count, uint64_t r, uint64_t l, uint64_t e, uint64_t fy, uint64_t edges, uint64_t a,
                            uint64_t nx, uint64_t nphi, uint64_t nxphi);

enum shell_bytes {
    SHELL_ROOM = 512,    /* of a buffer for shell_write and the others that write, at least */
    SHELL_SHORTEST = 51  /* of a line with its newline, at least: a smaller answer is a refusal */
};

enum shell_cases {
    SHELL_CASES = 8  /* in a line, at most */
};

enum shell_plates {
    SHELL_PLATES = 64,      /* in a list for shell_choose_plate, at most */
    SHELL_PLATE_NONE = 100  /* its answer if no plate holds; with the place of a plate on top, its answer if one does */
};

/* Why a call is refused: the first of these checks, in this order, that is broken. */
enum shell_refusals {
    SHELL_REFUSED_ROOM = 12,          /* of the calls that write only: the buffer has fewer than 512 bytes */
    SHELL_REFUSED_LINE = 4,           /* of shell_judge_line only: the line has over 512 bytes */
    SHELL_REFUSED_FORM = 5,           /* of shell_judge_line: the line is not of the form; of shell_write_cases: there are not five numbers for each of 1 to 8 load cases */
    SHELL_REFUSED_PLATES = 14,        /* of shell_choose_plate only: the list has no plate or over 64, or one is not thicker than the one before it */
    SHELL_REFUSED_RANGE = 6,          /* r, t, l, e, fy or a stress is outside its range; of shell_choose_plate r, l, e or fy */
    SHELL_REFUSED_EDGES = 7,          /* edges are not 11, 12 or 22 */
    SHELL_REFUSED_FORCE = 15,         /* of shell_choose_plate only: a line force is over 100,000 */
    SHELL_REFUSED_SHORTFALL = 11,     /* d is over 50 */
    SHELL_REFUSED_WALL = 8,           /* r/t is not from 20 to 2,500; shell_choose_plate passes over such a plate */
    SHELL_REFUSED_LENGTH = 9,         /* l is below r/20 or over 50 r */
    SHELL_REFUSED_IMPERFECTION = 10,  /* a is over 2,000 */
    SHELL_REFUSED_WIND = 13,          /* of a record under wind only: w is over 10,000, or v is not 0 or 1 */
    SHELL_REFUSED_PRESSURE = 16       /* of a record with an internal pressure only: p is over 1,000,000 */
};

enum shell_verdicts {
    SHELL_HOLDS = 1,  /* the exact sum of (50) is at most 1 */
    SHELL_FAILS = 2,  /* it is over 1 */
    SHELL_OPEN = 3    /* L and U do not part it from 1: it is next to 1, or the test of an internal pressure cannot be decided */
};

/* The refusal in an answer, or 0 if the call was not refused. */
static inline unsigned shell_refusal(uint64_t answer) {
    return answer < SHELL_SHORTEST ? (unsigned)answer : 0;
}

/* The number of bytes that shell_write or another call that writes has put, or 0 if the record was refused. */
static inline size_t shell_written(uint64_t answer) {
    return answer >= SHELL_SHORTEST && answer <= SHELL_ROOM ? (size_t)answer : 0;
}

/* The place, from 1, of the plate that shell_choose_plate has chosen, or 0 if none holds or the call was refused. */
static inline unsigned shell_place(uint64_t answer) {
    return answer > SHELL_PLATE_NONE && answer <= SHELL_PLATE_NONE + SHELL_PLATES ? (unsigned)(answer - SHELL_PLATE_NONE) : 0;
}

/* The verdict in an answer, or 0 if the record or line was refused. */
static inline unsigned shell_verdict(uint64_t answer) {
    return (unsigned)(answer % 100000000000u / 10000000000u);
}

/* The governing load case in an answer of shell_judge_line, from 1 to SHELL_CASES, or 0 if the line was refused; of shell_judge it is 1. */
static inline unsigned shell_case(uint64_t answer) {
    return answer < 10000000000u ? 0 : (unsigned)(answer / 100000000000u + 1);
}

/* L: the exact sum, of several load cases that of the governing one, is at least L/10,000. At most 20,000. */
static inline unsigned shell_low(uint64_t answer) {
    return (unsigned)(answer % 10000000000u / 100000u);
}

/* U: if U is below 20,000, the exact sum is at most U/10,000. At most 20,000, and at most L + 2, but where the test of an internal pressure cannot be decided. */
static inline unsigned shell_high(uint64_t answer) {
    return answer < 10000000000u ? 0 : (unsigned)(answer % 100000u);
}

/* An answer in words: "holds", "fails", "open", "written", or why the call was refused. Constant text in English, never null; for a
   number that is no answer of these functions, "not an answer". Of shell_choose_plate it knows the refusals alone: its other answers could be numbers of bytes too, and
   shell_place tells what they are. */
static inline const char *shell_reason(uint64_t answer) {
    switch (answer) {
    case SHELL_REFUSED_ROOM: return "the buffer has fewer than 512 bytes";
    case SHELL_REFUSED_LINE: return "the line has over 512 bytes";
    case SHELL_REFUSED_FORM: return "the line is not of the form, with one to eight load cases";
    case SHELL_REFUSED_PLATES: return "the list has no plate or over 64, or a plate is not thicker than the one before it";
    case SHELL_REFUSED_RANGE: return "radius, wall, length, modulus, yield stress or a stress is outside its range";
    case SHELL_REFUSED_EDGES: return "the edges are not 11, 12 or 22";
    case SHELL_REFUSED_FORCE: return "a line force is over 100,000";
    case SHELL_REFUSED_SHORTFALL: return "the shortfall is over 50 hundredths of a mm";
    case SHELL_REFUSED_WALL: return "r/t is not from 20 to 2,500";
    case SHELL_REFUSED_LENGTH: return "the length is below r/20 or over 50 r";
    case SHELL_REFUSED_IMPERFECTION: return "the imperfection is over 2,000";
    case SHELL_REFUSED_WIND: return "the gust pressure is over 10,000, or v is not 0 or 1";
    case SHELL_REFUSED_PRESSURE: return "the internal pressure is over 1,000,000";
    default: break;
    }
    if (shell_written(answer)) return "written";
    switch (shell_case(answer) <= SHELL_CASES ? shell_verdict(answer) : 0) {
    case SHELL_HOLDS: return "holds";
    case SHELL_FAILS: return "fails";
    case SHELL_OPEN: return "open";
    default: return "not an answer";
    }
}

#ifdef __cplusplus
}
#endif

#endif
