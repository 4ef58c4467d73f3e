/* Where the faces of a repair come from, on small meshes whose origins are known: `origins`. Several passes that drop faces, faces that are there twice, turned
 * over, split and renumbered, with options of every kind; then rooms of several lengths, what is told of a short one, and what stands in them after a refusal.
 * What differs is printed. */
#include "shell.h"
#include <stdio.h>
#include <string.h>

enum { P = 6, MOST = 8, DIRT = 0x5a5a5a5a, LONGER = 3 };

/* The unit legs, and one point that lies where the first does, but for a minus zero. */
static const double points[3 * P] = {0, 0, 0, 1, 0, 0, 0, 1, 0, 0, -1, 0, 0, 0, 1, 0, -0.0, 0};

static int faults, tried;

/* Counts what was tried, and says what is not as it must be. */
static void expect(int good, const char *what, const char *how) {
    tried++;
    if (!good) {
        faults++;
        printf("origins: %s: %s\n", what, how);
    }
}

/* A mesh, its settings, and the faces that must come out with their origins. */
typedef struct {
    const char *what;
    double s;
    uint32_t options;
    size_t F;
    uint32_t faces[3 * MOST];
    size_t stay;
    uint32_t left[3 * MOST], origins[MOST];
} Known;

static const Known known[] = {
    {"nothing", 0, 63, 0, {0}, 0, {0}, {0}},
    {"no pass", 0, 0, 3, {0, 0, 1, 0, 1, 2, 0, 1, 2}, 3, {0, 0, 1, 0, 1, 2, 0, 1, 2}, {0, 1, 2}},
    {"two passes drop faces", 0, 3, 5, {0, 0, 1, 0, 1, 2, 0, 1, 2, 0, 2, 1, 3, 4, 0}, 2, {0, 1, 2, 3, 4, 0}, {1, 4}},
    {"three faces on an edge", 0x1p-10, 63, 3, {0, 1, 2, 0, 1, 3, 0, 1, 4}, 2, {0, 1, 2, 0, 3, 1}, {0, 1}},
    {"three corners equal", 0, 8, 1, {0, 0, 0}, 1, {6, 6, 6}, {0}},
    {"every face leaves", 0, 1, 2, {0, 0, 1, 1, 1, 1}, 0, {0}, {0}},
    {"the last face stays", 0, 1, 4, {0, 0, 1, 1, 1, 1, 2, 0, 2, 1, 2, 3}, 1, {1, 2, 3}, {3}},
    {"the first face leaves", 0, 1, 3, {4, 4, 1, 0, 1, 2, 0, 3, 4}, 2, {0, 1, 2, 0, 3, 4}, {1, 2}},
    {"of equal faces the first stays", 0, 2, 4, {3, 4, 0, 0, 1, 2, 1, 2, 0, 4, 0, 3}, 2, {3, 4, 0, 0, 1, 2}, {0, 1}},
    {"a face that is turned over", 0, 16, 2, {0, 1, 2, 0, 1, 3}, 2, {0, 1, 2, 0, 3, 1}, {0, 1}},
    {"turned over behind one that leaves", 0, 17, 3, {2, 2, 2, 0, 1, 2, 0, 1, 3}, 2, {0, 1, 2, 0, 3, 1}, {1, 2}},
    {"three passes drop faces",
     0,
     63,
     6,
     {1, 1, 4, 0, 1, 2, 2, 0, 1, 0, 1, 3, 3, 3, 0, 0, 1, 4},
     2,
     {0, 1, 2, 0, 3, 1},
     {1, 3}},
    {"equal places but for a minus zero", 0, 32, 2, {5, 1, 2, 0, 1, 2}, 2, {3, 1, 2, 0, 1, 2}, {0, 1}},
    {"two faces that meet in a point, behind one that leaves", 0, 63, 3, {0, 0, 0, 0, 1, 2, 0, 3, 4}, 2, {0, 1, 2, 5, 3, 4}, {1, 2}},
};

static double mended[SHELL_POINTS_ROOM(P, MOST)];
static uint32_t triples[SHELL_FACES_ROOM(MOST)], report[SHELL_REPORT_ROOM], origins[SHELL_ORIGINS_ROOM(MOST) + LONGER], work[SHELL_WORK_ROOM(P, MOST)];

/* The repair of a known mesh, with so many entries of room for the origins and for work, all dirty; NULL for a room of no entries. */
static ShellRepaired repair(const Known *k, size_t entries, size_t work_entries) {
    memset(origins, 0x5a, sizeof origins);
    memset(work, 0x5a, sizeof work);
    return shell_repair(points, 3 * P, k->faces, 3 * k->F, k->s, k->options, mended, SHELL_POINTS_ROOM(P, k->F), triples, SHELL_FACES_ROOM(k->F), report,
                        SHELL_REPORT_ROOM, entries == 0 ? NULL : origins, entries, work, work_entries);
}

/* Whether the origins stand in front, then zero up to the stated room, and then what was there. */
static int stand(const Known *k) {
    int good = 1;
    for (size_t i = 0; i < k->F + LONGER; i++)
        good = good && origins[i] == (i < k->stay ? k->origins[i] : i < k->F ? 0 : DIRT);
    return good;
}

/* Whether no entry of the origins' room and of the work room is changed. */
static int kept(void) {
    int good = 1;
    for (size_t i = 0; i < sizeof origins / sizeof *origins; i++)
        good = good && origins[i] == DIRT;
    for (size_t i = 0; i < sizeof work / sizeof *work; i++)
        good = good && work[i] == DIRT;
    return good;
}

/* A known mesh in a room that is exact and in longer ones. */
static void mends(const Known *k) {
    for (size_t more = 0; more <= LONGER; more++) {
        ShellRepaired r = repair(k, k->F + more, SHELL_WORK_ROOM(P, k->F));
        expect(r.number == SHELL_ACCEPTED && r.place == 0, k->what, "it is refused");
        expect(r.faces == 3 * k->stay && memcmp(triples, k->left, 12 * k->stay) == 0, k->what, "other faces come out");
        expect(r.origins == k->stay, k->what, "another number of origins is told");
        expect(k->F + more == 0 || stand(k), k->what, "the room of the origins does not hold what it must");
    }
}

/* Whether the repair is refused for a room at this place, and no room changed. */
static int refuses(const Known *k, size_t entries, size_t work_entries, uint32_t place) {
    ShellRepaired r = repair(k, entries, work_entries);
    return r.number == SHELL_SHORT_ROOM && r.place == place && r.points == 0 && r.faces == 0 && r.counts == 0 && r.origins == 0 && kept();
}

/* A known mesh in rooms that are short: the origins before the work room, and after the others and all else that is refused. */
static void rooms(const Known *k) {
    size_t F = k->F, enough = SHELL_WORK_ROOM(P, F);
    expect(F == 0 || refuses(k, F - 1, enough, 3), k->what, "a room of one origin less than faces");
    expect(F == 0 || refuses(k, 0, enough, 3), k->what, "no room for origins");
    expect(F == 0 || refuses(k, F - 1, enough - 1, 3), k->what, "both the origins and the work room short");
    expect(refuses(k, F, enough - 1, 4), k->what, "a work room of one entry less than is stated");
    expect(refuses(k, F + LONGER, 0, 4), k->what, "no work room");
    ShellRepaired bad = shell_repair(points, 3 * P, k->faces, 3 * F, 2, k->options, mended, 0, triples, 0, report, 0, NULL, 0, NULL, 0);
    expect(bad.number == SHELL_BAD_SETTING && bad.origins == 0, k->what, "a threshold of 2 before the rooms");
    ShellRepaired ten = shell_repair(points, 3 * P, k->faces, 3 * F, k->s, k->options, mended, SHELL_POINTS_ROOM(P, F), triples, SHELL_FACES_ROOM(F), report,
                                     SHELL_REPORT_ROOM - 1, NULL, 0, work, 0);
    expect(ten.number == SHELL_SHORT_ROOM && ten.place == 2 && ten.origins == 0, k->what, "a short report room before the origins");
}

int main(void) {
    for (size_t i = 0; i < sizeof known / sizeof *known; i++) {
        mends(known + i);
        rooms(known + i);
    }
    printf("origins: %d tried, %d not as they must be\n", tried, faults);
    return faults != 0;
}
