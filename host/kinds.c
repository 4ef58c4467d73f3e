/* The two counts of degenerate faces, repeated and thin: `kinds`. Small meshes whose counts are known, report rooms of ten, eleven and twelve entries, and
 * report lines of several numbers of counts, with sums at the limits. What differs is printed. */
#include "shell.h"
#include <stdio.h>
#include <string.h>

enum { P = 7, MOST = 5 };
/* The unit legs, the first of them once more, and one point further along. */
static const double points[3 * P] = {0, 0, 0, 1, 0, 0, 0, 1, 0, 0, -1, 0, 0, 0, 1, 0, 0, 0, 2, 0, 0};
#define BELOW_ONE 0x1.fffffffffffffp-1

static int faults, tried;

/* Counts what was tried, and says what is not as it must be. */
static void expect(int good, const char *what) {
    tried++;
    if (!good) {
        faults++;
        printf("kinds: %s\n", what);
    }
}

/* A mesh, its settings, and what must be counted and come out. */
typedef struct {
    const char *what;
    uint32_t faces[3 * MOST];
    size_t F;
    uint32_t options;
    double s;
    uint32_t repeated, thin, left[3 * MOST];
    size_t stay;
} Known;

static const Known known[] = {
    {"a face of each kind", {0, 0, 1, 2, 1, 0, 3, 3, 3, 0, 2, 3}, 4, 1, 0x1p-10, 2, 1, {2, 1, 0}, 1},
    {"without bit 0", {0, 0, 1, 2, 1, 0, 3, 3, 3, 0, 2, 3}, 4, 0, 0x1p-10, 0, 0, {0, 0, 1, 2, 1, 0, 3, 3, 3, 0, 2, 3}, 4},
    {"each place of a repeated corner", {0, 0, 1, 0, 1, 0, 1, 0, 0, 4, 4, 4}, 4, 1, 0, 4, 0, {0}, 0},
    {"a repeated corner at the largest threshold", {0, 0, 1}, 1, 1, 1, 1, 0, {0}, 0},
    {"different points at one place", {0, 5, 1, 5, 1, 0, 1, 0, 5}, 3, 1, 0, 0, 3, {0}, 0},
    {"corners in a row", {0, 1, 6, 1, 0, 6, 6, 1, 0}, 3, 1, 0, 0, 3, {0}, 0},
    {"corners in a row, at minus zero", {0, 1, 6, 0, 1, 2}, 2, 1, -0.0, 0, 1, {0, 1, 2}, 1},
    {"a right angle at the largest threshold", {0, 1, 2, 1, 1, 2}, 2, 1, 1, 1, 1, {0}, 0},
    {"a right angle just below it", {0, 1, 2, 1, 1, 2}, 2, 1, BELOW_ONE, 1, 0, {0, 1, 2}, 1},
    {"degenerate faces that stand twice", {0, 0, 1, 0, 0, 1, 0, 1, 6, 0, 1, 6}, 4, 3, 0, 2, 2, {0}, 0},
};

static double mended[SHELL_POINTS_ROOM(P, MOST)];
static uint32_t triples[SHELL_FACES_ROOM(MOST)], origins[SHELL_ORIGINS_ROOM(MOST)], work[SHELL_WORK_ROOM(P, MOST)], report[SHELL_REPORT_ROOM + 1];

/* The repair of a known mesh in a dirty report room of so many entries. */
static ShellRepaired repair(const Known *k, size_t entries) {
    memset(report, 0x5a, sizeof report);
    return shell_repair(points, 3 * P, k->faces, 3 * k->F, k->s, k->options, mended, SHELL_POINTS_ROOM(P, MOST), triples, SHELL_FACES_ROOM(MOST), report,
                        entries, origins, SHELL_ORIGINS_ROOM(MOST), work, SHELL_WORK_ROOM(P, MOST));
}

/* Whether a known mesh is mended as it must be. */
static int mends(const Known *k) {
    ShellRepaired r = repair(k, SHELL_REPORT_ROOM);
    const uint32_t counts[SHELL_REPORT_ROOM] = {k->repeated, k->thin};
    return r.number == SHELL_ACCEPTED && r.counts == 11 && memcmp(report, counts, sizeof counts) == 0 && r.faces == 3 * k->stay &&
           memcmp(triples, k->left, 12 * k->stay) == 0;
}

/* Report rooms that are one entry short, exact and one entry longer. */
static void rooms(void) {
    const uint32_t dirty = 0x5a5a5a5a;
    ShellRepaired ten = repair(known, 10);
    int kept = 1;
    for (size_t i = 0; i < SHELL_REPORT_ROOM + 1; i++)
        kept = kept && report[i] == dirty;
    expect(ten.number == SHELL_SHORT_ROOM && ten.place == 2 && ten.points == 0 && ten.faces == 0 && ten.counts == 0 && ten.origins == 0 && kept,
           "a report room of ten is refused");
    ShellRepaired eleven = repair(known, 11);
    expect(eleven.number == SHELL_ACCEPTED && eleven.counts == 11 && report[10] == 0 && report[11] == dirty, "a report room of eleven is filled");
    ShellRepaired twelve = repair(known, 12);
    expect(twelve.number == SHELL_ACCEPTED && twelve.counts == 11 && report[10] == 0 && report[11] == dirty, "of a report room of twelve the last is kept");
}

/* Counts and their line. */
typedef struct {
    uint32_t counts[SHELL_REPORT_ROOM];
    const char *line;
} Told;

static const Told told[] = {
    {{0}, "mesh was already manifold, nothing changed"},
    {{1, 0}, "1 degenerate faces removed"},
    {{0, 1}, "1 degenerate faces removed"},
    {{3, 12, 0, 0, 0, 0, 0, 0, 0, 0, 1}, "15 degenerate faces removed, 1 isolated vertices removed"},
    {{0, 0, 7}, "7 duplicate faces removed"},
    {{4294967295, 0}, "4294967295 degenerate faces removed"},
    {{0, 4294967295}, "4294967295 degenerate faces removed"},
    {{4294967295, 1}, "4294967296 degenerate faces removed"},
    {{2147483648, 2147483648}, "4294967296 degenerate faces removed"},
    {{4294967295, 4294967295}, "8589934590 degenerate faces removed"},
    {{4294967295, 4294967295, 4294967295, 4294967295, 4294967295, 4294967295, 4294967295, 4294967295, 4294967295, 4294967295, 4294967295},
     "8589934590 degenerate faces removed, 4294967295 duplicate faces removed, 4294967295 non-manifold edges, 4294967295 faces dropped there, 4294967295 faces "
     "dropped as unorientable, 4294967295 bowtie vertices split, 4294967295 points added, 4294967295 faces reoriented, 4294967295 non-orientable components, "
     "4294967295 isolated vertices removed"},
};

/* Whether counts are told by their line, in a room that holds something. */
static int tells(const Told *t) {
    uint8_t line[SHELL_LINE_ROOM];
    memset(line, 0x5a, sizeof line);
    ShellLine written = shell_line(t->counts, SHELL_REPORT_ROOM, line, sizeof line);
    size_t length = strlen(t->line);
    int rest = 1;
    for (size_t i = length; i < sizeof line; i++)
        rest = rest && line[i] == 0;
    return written.number == SHELL_ACCEPTED && written.bytes == length && memcmp(line, t->line, length) == 0 && rest;
}

/* Whether a line of so many counts, in a room of so many bytes, is refused so and the room kept. */
static int refuses(size_t counts, size_t bytes, uint32_t number, uint32_t place) {
    const uint32_t some[16] = {1, 2, 3};
    uint8_t line[SHELL_LINE_ROOM];
    memset(line, 0x5a, sizeof line);
    ShellLine written = shell_line(some, counts, line, bytes);
    int kept = 1;
    for (size_t i = 0; i < sizeof line; i++)
        kept = kept && line[i] == 0x5a;
    return written.number == number && written.place == place && written.bytes == 0 && kept;
}

int main(void) {
    for (size_t i = 0; i < sizeof known / sizeof *known; i++)
        expect(mends(known + i), known[i].what);
    rooms();
    for (size_t i = 0; i < sizeof told / sizeof *told; i++)
        expect(tells(told + i), told[i].line);
    expect(refuses(0, 512, SHELL_BAD_LENGTH, 2), "a line of no counts is refused");
    expect(refuses(10, 512, SHELL_BAD_LENGTH, 2), "a line of ten counts is refused");
    expect(refuses(12, 512, SHELL_BAD_LENGTH, 2), "a line of twelve counts is refused");
    expect(refuses(10, 511, SHELL_BAD_LENGTH, 2), "a line of ten counts is refused before its short room");
    expect(refuses(11, 511, SHELL_SHORT_ROOM, 0), "a line of eleven counts wants 512 bytes");
    printf("kinds: %d tried, %d not as they must be\n", tried, faults);
    return faults != 0;
}
