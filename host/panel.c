/* Many meshes in one repair: `panel PACKS`. Packs of meshes go through shell_repair_panel, and what comes out must be what the documents say (fuzz/panel.c),
 * and what one shell_repair a mesh gives, in rooms of its own, packed here: number, place, counts, and every entry of all six rooms, also beyond what is
 * stated; in rooms as they are stated, longer, each one short in turn, clean and dirty, and NULL where there are no entries. What is refused leaves every room
 * as it was.
 *
 * Tried are packs and refusals that are known; every mesh of at most one face on at most two points, with a corner or a coordinate too far off too, in all
 * packs of two with all options; packs of 0 to 257 meshes, of which the first, one between, the last, the largest, some or all are refused; so many random
 * packs of damaged meshes, from a fixed seed, with rows and settings spoiled; meshes that are too large by one; and rows whose sums wrap, in 32 bits and in 64.
 * The first that differs is printed, and else what was met: nothing may be missing. For few packs only some of the small ones are taken, none is long or large,
 * and something may be missing. */
#define _GNU_SOURCE
#include "panel.h"
#include "damaged.h"
#include "uses.h"
#include <math.h>
#include <stdio.h>
#include <stdlib.h>
#include <string.h>
#include <sys/mman.h>
#include <unistd.h>

/* The meshes of a pack and the entries of its rows, at most; entries of a room that cannot be as long as stated; so many packs that everything is met. */
enum { MOST_PACKED = 257, MOST_ROWS = 600, FEW = 1000, ENOUGH = 1000, NONE = -(1 << 30), DIRT = 0x5a };

/* A pack: its lists and rows, and what the call is told of them. */
static struct {
    double points[3 * MOST_PACKED * MOST_POINTS + 3];
    uint32_t faces[3 * MOST_PACKED * MOST_FACES + 3], point_counts[MOST_ROWS], face_counts[MOST_ROWS];
    Packing asked;
} pack;

/* Which meshes of a pack are refused. */
enum { NO_MESH, FIRST, BETWEEN, LAST, LARGEST, SOME, ALL, PLACES };

/* How often what was met: packs accepted and refused by number and place, packs by the places of refused meshes and by their length, meshes by their number. */
static struct {
    unsigned long accepted, whole[7][PACK_ROOMS], places[PLACES], lengths[MOST_PACKED + 1], meshes[7], longer, empty;
} met;

/* Prints what differs, and ends the program. */
static _Noreturn void differs(const char *from, const char *what) {
    const Packing *p = &pack.asked;
    printf("panel: not as %s: %s; %zu and %zu meshes, %zu point entries, %zu face entries, threshold %a, options %u, rooms", from, what, p->point_counts_len,
           p->face_counts_len, p->points_len, p->faces_len, p->s, p->options);
    for (int k = 0; k < PACK_ROOMS; k++)
        printf(" %zu", p->room[k]);
    printf("\npoints a mesh:");
    for (size_t k = 0; k < p->point_counts_len && k < MOST_PACKED; k++)
        printf(" %u", p->point_counts[k]);
    printf("\nfaces a mesh:");
    for (size_t k = 0; k < p->face_counts_len && k < MOST_PACKED; k++)
        printf(" %u", p->face_counts[k]);
    printf("\n");
    exit(1);
}

/* ---- packs */

/* An empty pack with these settings. */
static void begin(double s, uint32_t options) {
    pack.asked = (Packing){.points = pack.points, .faces = pack.faces, .point_counts = pack.point_counts, .face_counts = pack.face_counts};
    pack.asked.s = s;
    pack.asked.options = options;
}

/* Adds a mesh behind the others. */
static void add_mesh(const double *points, size_t P, const uint32_t *faces, size_t F) {
    Packing *p = &pack.asked;
    memcpy(pack.points + p->points_len, points, 24 * P);
    memcpy(pack.faces + p->faces_len, faces, 12 * F);
    p->points_len += 3 * P;
    p->faces_len += 3 * F;
    pack.point_counts[p->point_counts_len++] = (uint32_t)P;
    pack.face_counts[p->face_counts_len++] = (uint32_t)F;
}

/* A damaged mesh, or a part of one: its points alone, its first face, or nothing. */
static void add_any(void) {
    Mesh m = damaged();
    uint32_t part = below(24);
    add_mesh(m.points, part == 2 ? 0 : m.P, m.faces, part < 3 ? m.F > 0 && part == 1 : m.F);
}

/* Spoils mesh k by a coordinate that is too far off, or a corner that is no point, so that it is refused by itself; one that has neither is left. */
static void spoil_mesh(size_t k) {
    static const double far[] = {NAN, INFINITY, -INFINITY, 0x1.0000000000001p100, -0x1.0000000000001p100};
    size_t point = 0, corner = 0;
    for (size_t i = 0; i < k; i++) {
        point += 3 * (size_t)pack.point_counts[i];
        corner += 3 * (size_t)pack.face_counts[i];
    }
    uint32_t P = pack.point_counts[k], F = pack.face_counts[k];
    if (P > 0 && (F == 0 || below(2) == 0))
        pack.points[point + below(3 * P)] = far[below(5)];
    else if (F > 0)
        pack.faces[corner + below(3 * F)] = below(2) == 0 ? P : UINT32_MAX - below(2);
}

/* The mesh whose work room is the largest, the first of them. */
static size_t largest(const Packing *p) {
    size_t found = 0;
    for (size_t k = 1; k < p->point_counts_len; k++)
        if (SHELL_WORK_ROOM(p->point_counts[k], p->face_counts[k]) > SHELL_WORK_ROOM(p->point_counts[found], p->face_counts[found]))
            found = k;
    return found;
}

/* Spoils the meshes at these places. */
static void spoil_meshes(int places) {
    size_t M = pack.asked.point_counts_len;
    for (size_t k = 0; k < M; k++)
        if ((places == FIRST && k == 0) || (places == BETWEEN && k == M / 2) || (places == LAST && k + 1 == M) || places == ALL ||
            (places == LARGEST && k == largest(&pack.asked)) || (places == SOME && below(3) == 0))
            spoil_mesh(k);
}

/* ---- what comes out */

/* Adds entries behind those that stand in a room. */
static void add_entries(Packed *all, int room, const void *entries, uint64_t n, size_t size) {
    if (n > 0)
        memcpy((uint8_t *)all->row[room] + all->entries[room] * size, entries, n * size);
    all->entries[room] += n;
}

/* One mesh by its own call, in rooms of its own, behind those before it. */
static void add_call(Packed *all, const Packing *p, const double *points, size_t P, const uint32_t *faces, size_t F) {
    double *mended = row(SHELL_POINTS_ROOM(P, F), 8);
    uint32_t *triples = row(SHELL_FACES_ROOM(F), 4), *origins = row(SHELL_ORIGINS_ROOM(F), 4), *work = row(SHELL_WORK_ROOM(P, F), 4), report[SHELL_REPORT_ROOM];
    ShellRepaired r = shell_repair(points, 3 * P, faces, 3 * F, p->s, p->options, mended, SHELL_POINTS_ROOM(P, F), triples, SHELL_FACES_ROOM(F), report,
                                   SHELL_REPORT_ROOM, origins, SHELL_ORIGINS_ROOM(F), work, SHELL_WORK_ROOM(P, F));
    const uint32_t four[4] = {r.number, r.place, (uint32_t)(r.points / 3), (uint32_t)(r.faces / 3)};
    if (r.number != 0 && r.number != 2 && r.number != 4 && r.number != 5)
        differs("the documents say", "a mesh by itself is refused for what the whole is asked");
    add_entries(all, 0, mended, r.points, 8);
    add_entries(all, 1, triples, r.faces, 4);
    add_entries(all, 2, report, r.counts, 4);
    add_entries(all, 3, origins, r.origins, 4);
    add_entries(all, 4, four, 4, 4);
    free(mended), free(triples), free(origins), free(work);
}

/* One call a mesh, for a pack whose rooms are long enough. */
static Packed one_call_each(const Packing *p) {
    Packed all = {0, 0, {0}, {NULL}};
    size_t point = 0, corner = 0;
    for (int k = 0; k < PACK_ANSWERS; k++)
        all.row[k] = row(p->room[k], panel_sizes[k]);
    for (size_t k = 0; k < p->point_counts_len; k++) {
        add_call(&all, p, p->points + point, p->point_counts[k], p->faces + corner, p->face_counts[k]);
        point += 3 * (size_t)p->point_counts[k];
        corner += 3 * (size_t)p->face_counts[k];
    }
    return all;
}

/* Counts what was met in an accepted pack: its meshes, and where those are that are refused. */
static void count_meshes(const Packing *p, const Packed *wanted) {
    const uint32_t *meshes = wanted->row[4];
    size_t M = p->point_counts_len, refused = 0;
    for (size_t k = 0; k < M; k++) {
        met.meshes[meshes[4 * k]]++;
        refused += meshes[4 * k] != 0;
    }
    met.accepted++;
    met.lengths[M]++;
    met.places[NO_MESH] += refused == 0;
    met.places[SOME] += refused > 0 && refused < M;
    met.places[ALL] += refused == M && M > 0;
    if (M == 0 || refused == M)
        return;
    met.places[FIRST] += meshes[0] != 0;
    met.places[LAST] += meshes[4 * (M - 1)] != 0;
    met.places[BETWEEN] += M > 2 && meshes[4 * (M / 2)] != 0;
    met.places[LARGEST] += meshes[4 * largest(p)] != 0;
}

/* Counts what was met; of an accepted pack the header must state the rooms as the documents do. */
static void count_pack(const Packing *p, const Packed *wanted) {
    size_t P = p->points_len / 3, F = p->faces_len / 3, M = p->point_counts_len;
    uint64_t stated[PACK_ROOMS];
    if (wanted->number != 0) {
        met.whole[wanted->number][wanted->place]++;
        met.lengths[MOST_PACKED] += wanted->number == 2 && M == MOST_PACKED;
        return;
    }
    panel_rooms(p, stated);
    if (stated[0] != SHELL_POINTS_ROOM(P, F) || stated[1] != SHELL_FACES_ROOM(F) || stated[2] != SHELL_REPORTS_ROOM(M) || stated[3] != SHELL_ORIGINS_ROOM(F) ||
        stated[4] != SHELL_MESHES_ROOM(M) || stated[5] != shell_panel_work_room(p->point_counts, p->face_counts, M))
        differs("the documents say", "the header states other rooms");
    count_meshes(p, wanted);
    for (int k = 0; k < PACK_ROOMS; k++) {
        met.longer += p->room[k] > stated[k];
        met.empty += p->room[k] == 0;
    }
}

/* Asks for the pack as it is; the number and the place that must come out. */
static Packed ask_as_is(const Lending *how) {
    Packing *p = &pack.asked;
    Packed wanted = panel_packed(p);
    ShellPanel found = panel_called(p, how);
    const char *what = panel_differs(p, &found, &wanted);
    if (what != NULL)
        differs("the documents say", what);
    if (wanted.number == 0) {
        Packed each = one_call_each(p);
        what = panel_differs(p, &found, &each);
        if (what != NULL)
            differs("one call each", what);
        panel_free(&each);
    }
    count_pack(p, &wanted);
    panel_free(&wanted);
    return wanted;
}

/* Asks for the pack in rooms that differ from the stated ones by so much, at least none. */
static void ask(const int by[PACK_ROOMS], const Lending *how) {
    uint64_t stated[PACK_ROOMS];
    panel_rooms(&pack.asked, stated);
    for (int k = 0; k < PACK_ROOMS; k++) {
        size_t n = stated[k] > LONGEST / 8 ? FEW : stated[k];
        pack.asked.room[k] = by[k] < 0 && n < (size_t)-by[k] ? 0 : n + (size_t)by[k];
    }
    ask_as_is(how);
}

/* Some way to lend rooms. */
static Lending anyhow(void) { return (Lending){(int)below(DIRTS), (int)below(2), (int)below(2), below(1000)}; }

/* Asks for the pack in rooms as stated, longer, each one short in turn, and one of them with no entries. */
static void ask_in_rooms(void) {
    int by[PACK_ROOMS] = {0};
    Lending how = anyhow();
    ask(by, &how);
    for (int k = 0; k < PACK_ROOMS; k++)
        by[k] = (int)below(4);
    how = anyhow();
    ask(by, &how);
    for (int k = 0; k < PACK_ROOMS; k++) {
        int held = by[k];
        by[k] = -1;
        how = anyhow();
        ask(by, &how);
        by[k] = held;
    }
    by[below(PACK_ROOMS)] = NONE;
    how = anyhow();
    ask(by, &how);
}

/* ---- packs and refusals that are known */

/* A pack, its settings, and what must come out; meshes: number, place, points and faces of each. */
typedef struct {
    size_t M;
    uint32_t point_counts[3], face_counts[3];
    double points[30];
    uint32_t faces[18];
    double s;
    uint32_t options;
    uint64_t entries[PACK_ANSWERS];
    double mended[24];
    uint32_t triples[12], report[22], origins[4], meshes[12];
} Known;

#define LEGS 0, 0, 0, 1, 0, 0, 0, 1, 0, 0, -1, 0, 0, 0, 1
#define FOUR_LEGS 0, 0, 0, 1, 0, 0, 0, 1, 0, 0, -1, 0
#define ON_ONE_EDGE 0, 1, 2, 0, 1, 3, 0, 1, 4
#define CROWDED(dropped, turned, isolated) 0, 0, 0, 1, dropped, 0, 0, 0, turned, 0, isolated

/* A face 0 0 0, a corner that is no point, and the unit legs; the first and the last refused; all; none; two of nothing; one; one twice, from 0 in each. */
static const Known known[] = {
    {3, {1, 1, 5}, {1, 1, 3}, {0, 0, 0, 0, 0, 0, LEGS}, {0, 0, 0, 0, 0, 1, ON_ONE_EDGE}, 0x1p-10, 4, {18, 9, 22, 3, 12}, {0, 0, 0, LEGS},
     {0, 0, 0, 0, 1, 2, 0, 1, 3}, {CROWDED(0, 0, 0), CROWDED(1, 0, 0)}, {0, 0, 1}, {0, 0, 1, 1, 5, 0, 0, 0, 0, 0, 5, 2}},
    {3, {2, 1, 1}, {1, 1, 2}, {0, 0, 0, NAN}, {1, 1, 1, 0, 0, 0, 0, 0, 0, 0, 0, 1}, 0, 63, {0, 0, 11, 0, 12}, {0},
     {0}, {1, 0, 0, 0, 0, 0, 0, 0, 0, 0, 1}, {0}, {4, 1, 0, 0, 0, 0, 0, 0, 5, 1, 0, 0}},
    {2, {1, 0}, {0, 1}, {0, 0, NAN}, {0, 0, 0}, 0, 63, {0, 0, 0, 0, 8}, {0}, {0}, {0}, {0}, {4, 0, 0, 0, 5, 0, 0, 0}},
    {0, {0}, {0}, {0}, {0}, 0, 0, {0, 0, 0, 0, 0}, {0}, {0}, {0}, {0}, {0}},
    {2, {0, 0}, {0, 0}, {0}, {0}, 0, 63, {0, 0, 22, 0, 8}, {0}, {0}, {0}, {0}, {0}},
    {1, {5}, {2}, {LEGS}, {0, 1, 2, 0, 3, 4}, 0x1p-10, 63, {18, 6, 11, 2, 4}, {LEGS, 0, 0, 0},
     {0, 1, 2, 5, 3, 4}, {0, 0, 0, 0, 0, 0, 1, 1}, {0, 1}, {0, 0, 6, 2}},
    {2, {5, 5}, {3, 3}, {LEGS, LEGS}, {ON_ONE_EDGE, ON_ONE_EDGE}, 0x1p-10, 63, {24, 12, 22, 4, 8}, {FOUR_LEGS, FOUR_LEGS},
     {0, 1, 2, 0, 3, 1, 0, 1, 2, 0, 3, 1}, {CROWDED(1, 1, 1), CROWDED(1, 1, 1)}, {0, 1, 0, 1}, {0, 0, 4, 2, 0, 0, 4, 2}},
};

/* The known packs: what the documents' plain form gives is known. */
static void try_known(void) {
    for (const Known *k = known; k < known + sizeof known / sizeof *known; k++) {
        size_t point = 0, corner = 0;
        begin(k->s, k->options);
        for (size_t i = 0; i < k->M; i++) {
            add_mesh(k->points + point, k->point_counts[i], k->faces + corner, k->face_counts[i]);
            point += 3 * (size_t)k->point_counts[i];
            corner += 3 * (size_t)k->face_counts[i];
        }
        ask_in_rooms();
        memset(pack.asked.room, 0xff, sizeof pack.asked.room);
        Packed found = panel_packed(&pack.asked);
        const void *const rows[PACK_ANSWERS] = {k->mended, k->triples, k->report, k->origins, k->meshes};
        for (int i = 0; i < PACK_ANSWERS; i++)
            if (found.number != 0 || found.entries[i] != k->entries[i] || memcmp(found.row[i], rows[i], k->entries[i] * panel_sizes[i]) != 0)
                differs("is known", "a pack by the documents");
        panel_free(&found);
    }
}

/* A call that is refused: the rows and the lengths, of points that are all 0 but the first number, and corners that are all 0 but the third. */
typedef struct {
    const char *what;
    double first;
    uint32_t third;
    size_t points_len, faces_len, point_counts_len, face_counts_len;
    uint32_t point_counts[2], face_counts[2];
    double s;
    uint32_t options;
    size_t room[PACK_ROOMS];
    uint32_t number, place;
} Refusal;

/* Two meshes, of nine points and of one point with one face: the first has the larger work room, 208, and the second the faces. */
#define TWO 0, 0, 30, 3, 2, 2, {9, 1}, {0, 1}

static const Refusal refusals[] = {
    {"the points room is one short", TWO, 0, 0, {38, 3, 22, 1, 8, 208}, 6, 0},
    {"the faces room is one short", TWO, 0, 0, {39, 2, 22, 1, 8, 208}, 6, 1},
    {"the report room is one short", TWO, 0, 0, {39, 3, 21, 1, 8, 208}, 6, 2},
    {"the origins room is one short", TWO, 0, 0, {39, 3, 22, 0, 8, 208}, 6, 3},
    {"the meshes room is one short", TWO, 0, 0, {39, 3, 22, 1, 7, 208}, 6, 4},
    {"the work room is one short", TWO, 0, 0, {39, 3, 22, 1, 8, 207}, 6, 5},
    {"of short rooms the first", TWO, 0, 0, {39, 3, 22, 0, 7, 0}, 6, 3},
    {"no rooms", TWO, 0, 0, {0}, 6, 0},
    {"a bad coordinate and a short room", NAN, 1, 3, 3, 1, 1, {1}, {1}, 0, 0, {11, 3, 11, 1, 4, 144}, 6, 0},
    {"bad meshes and a short work room", NAN, 1, 3, 3, 2, 2, {1, 0}, {0, 1}, 0, 0, {12, 3, 22, 1, 8, 127}, 6, 5},
    {"more point counts than face counts", 0, 0, 0, 0, 2, 1, {0}, {0}, 0, 0, {0, 0, 22, 0, 8, 64}, 1, 0},
    {"more face counts than point counts", 0, 0, 0, 0, 1, 2, {0}, {0}, 0, 0, {0, 0, 22, 0, 8, 64}, 1, 0},
    {"rows that differ, and a face more", 0, 0, 0, 3, 0, 1, {0}, {0}, 0, 0, {0}, 1, 0},
    {"rows that differ, and settings", 0, 0, 0, 0, 257, 258, {0}, {0}, NAN, 64, {0}, 1, 0},
    {"a point more than is counted", 0, 0, 6, 0, 1, 1, {1}, {0}, 0, 0, {6, 0, 11, 0, 4, 96}, 1, 0},
    {"a point less", 0, 0, 3, 0, 2, 2, {1, 1}, {0}, 0, 0, {6, 0, 22, 0, 8, 80}, 1, 0},
    {"points that end within one", 0, 0, 4, 0, 1, 1, {1}, {0}, 0, 0, {6, 0, 11, 0, 4, 96}, 1, 0},
    {"a face more than is counted", 0, 0, 3, 3, 1, 1, {1}, {0}, 0, 0, {12, 3, 11, 1, 4, 144}, 1, 1},
    {"faces that end within one", 0, 0, 3, 2, 1, 1, {1}, {1}, 0, 0, {12, 3, 11, 1, 4, 144}, 1, 1},
    {"points and faces", 0, 0, 0, 0, 1, 1, {1}, {1}, 0, 0, {12, 3, 11, 1, 4, 144}, 1, 0},
    {"points without a mesh", 0, 0, 3, 0, 0, 0, {0}, {0}, 0, 0, {0}, 1, 0},
    {"faces without a mesh", 0, 0, 0, 3, 0, 0, {0}, {0}, 0, 0, {0}, 1, 1},
    {"too many meshes, and a face more", 0, 0, 0, 3, 257, 257, {0}, {0}, NAN, 64, {0}, 1, 1},
    {"too many meshes, and settings", 0, 0, 0, 0, 257, 257, {0}, {0}, NAN, 64, {0}, 2, 0},
    {"too many meshes", 0, 0, 0, 0, 257, 257, {0}, {0}, 0, 0, {0, 0, 11 * 257, 0, 4 * 257, 64}, 2, 0},
    {"many meshes without rooms", 0, 0, 0, 0, 256, 256, {0}, {0}, 0, 0, {0}, 6, 2},
    {"threshold and options", 0, 0, 0, 0, 1, 1, {0}, {0}, NAN, 64, {0}, 3, 0},
    {"a threshold below 0 before the rooms", TWO, -0x1p-1074, 0, {0}, 3, 0},
    {"options without a mesh", 0, 0, 0, 0, 0, 0, {0}, {0}, 0, 64, {0}, 3, 1},
};

/* The pack of a known refusal. */
static void begin_refusal(const Refusal *k) {
    Packing *p = &pack.asked;
    begin(k->s, k->options);
    memset(pack.points, 0, 8 * k->points_len);
    memset(pack.faces, 0, 4 * k->faces_len);
    memset(pack.point_counts, 0, 4 * k->point_counts_len);
    memset(pack.face_counts, 0, 4 * k->face_counts_len);
    memcpy(pack.point_counts, k->point_counts, sizeof k->point_counts);
    memcpy(pack.face_counts, k->face_counts, sizeof k->face_counts);
    pack.points[0] = k->first;
    pack.faces[2] = k->third;
    p->points_len = k->points_len;
    p->faces_len = k->faces_len;
    p->point_counts_len = k->point_counts_len;
    p->face_counts_len = k->face_counts_len;
    memcpy(p->room, k->room, sizeof k->room);
}

/* The known refusals, in clean rooms and in dirty ones. */
static void try_refusals(void) {
    for (const Refusal *k = refusals; k < refusals + sizeof refusals / sizeof *refusals; k++)
        for (int dirt = 0; dirt < DIRTS; dirt++) {
            const Lending how = {dirt, dirt % 2, dirt / 2 % 2, 7};
            begin_refusal(k);
            Packed found = ask_as_is(&how);
            if (found.number != k->number || found.place != k->place)
                differs("is known", k->what);
        }
}

/* Rows of so many counts, the last of them another one, whose sum, times 3, is the length in 32 bits, and much more than that. */
static const struct {
    uint32_t each, last;
    size_t n, length;
} wrapping[] = {{0, 1431655766, 1, 2},
                {1431655765, 1, 2, 2},
                {2147483648, 2147483648, 2, 0},
                {4294967295, 1, 2, 0},
                {4294967295, 255, 256, 0},
                {2147483648, 2147483648, 256, 0},
                {4294967295, 300, 301, 0},
                {1431655766, 1431655766, 257, 514},
                {1431655766, 1431655766, 600, 1200}};

/* Such rows, of point counts and of face counts, beside a row of zeros: 1, and not 2 where they are too long. */
static void try_wrapping(void) {
    for (size_t k = 0; k < 2 * sizeof wrapping / sizeof *wrapping; k++) {
        size_t n = wrapping[k / 2].n, of_faces = k % 2;
        uint32_t *row = of_faces ? pack.face_counts : pack.point_counts, *other = of_faces ? pack.point_counts : pack.face_counts;
        begin(0, 0);
        memset(pack.points, 0, 8 * wrapping[k / 2].length);
        memset(pack.faces, 0, 4 * wrapping[k / 2].length);
        for (size_t i = 0; i < n; i++) {
            row[i] = i + 1 < n ? wrapping[k / 2].each : wrapping[k / 2].last;
            other[i] = 0;
        }
        *(of_faces ? &pack.asked.faces_len : &pack.asked.points_len) = wrapping[k / 2].length;
        pack.asked.point_counts_len = pack.asked.face_counts_len = n;
        const Lending how = anyhow();
        Packed found = ask_as_is(&how);
        if (found.number != 1 || found.place != of_faces)
            differs("is known", "a row whose sum wraps");
    }
}

/* ---- small packs */

enum { SMALL = 41 };
static Mesh small[SMALL];

/* Every mesh of at most one face on at most two points, with corners that may be the first beyond the points; and those of one and of two points alone with the
 * last coordinate too far off. */
static void make_small(void) {
    Mesh *next = small;
    for (uint32_t P = 0; P <= 2; P++)
        for (uint32_t n = P + 1, which = 0; which <= n * n * n + (P > 0); which++) {
            *next = (Mesh){{0, 0, 0, 1, -0.0, 0}, 0, {which % n, which / n % n, which / n / n % n}, P, which < n * n * n};
            if (which > n * n * n)
                next->points[3 * P - 1] = NAN;
            next++;
        }
}

/* All packs of two of these, or one in so many, with all options, in rooms as stated and in longer ones. */
static void try_small(uint32_t one_in) {
    make_small();
    for (uint32_t which = 0; which < SMALL * SMALL; which += one_in)
        for (uint32_t options = 0; options <= SHELL_ALL_OPTIONS; options++) {
            const Mesh *one = small + which % SMALL, *other = small + which / SMALL;
            const Lending how = anyhow();
            int by[PACK_ROOMS];
            for (int k = 0; k < PACK_ROOMS; k++)
                by[k] = below(4) == 0;
            begin(1e-12, options);
            add_mesh(one->points, one->P, one->faces, one->F);
            add_mesh(other->points, other->P, other->faces, other->F);
            ask(by, &how);
        }
}

/* ---- packs of many lengths, and random ones */

/* Begins a pack of so many meshes with any settings that are accepted. */
static void begin_any(size_t M) {
    static const double thresholds[] = {0, 1e-12, 1.0 / 1024, 0.25, 1, -0.0};
    begin(thresholds[below(6)], below(2) ? SHELL_ALL_OPTIONS : below(64));
    for (size_t k = 0; k < M; k++)
        add_any();
}

/* Packs of these lengths, the first of them or all, with refused meshes in each place. */
static void try_lengths(int all) {
    static const size_t lengths[] = {0, 1, 2, 3, 40, 255, 256, 257};
    for (size_t k = 0; k < (all ? sizeof lengths / sizeof *lengths : 5); k++)
        for (int places = 0; places < PLACES; places++) {
            begin_any(lengths[k]);
            spoil_meshes(places);
            ask_in_rooms();
        }
}

/* Spoils one of the rows, so that its sum is another one, wraps in 32 bits, or is the same with other meshes; or makes it longer. */
static void spoil_row(uint32_t *row, size_t *n, size_t *length) {
    uint32_t how = below(7), k = *n == 0 ? 0 : below((uint32_t)*n), other = *n == 0 ? 0 : below((uint32_t)*n);
    if (how == 0 || *n == 0)
        row[(*n)++] = below(2);
    else if (how == 1)
        row[k]++;
    else if (how == 2 && row[k] > 0)
        row[k]--;
    else if (how == 3)
        *length += 1 + below(3);
    else if (how == 4) {
        row[k] += 1431655766;
        *length += 2;
    } else if (row[k] > 0) {
        row[k]--;
        row[other]++;
    }
}

/* Spoils the settings. */
static void spoil_settings(void) {
    static const double thresholds[] = {-0x1p-1074, 0x1.0000000000001p0, NAN, INFINITY, -1};
    static const uint32_t options[] = {64, 127, 1u << 31, UINT32_MAX};
    uint32_t how = below(3);
    if (how != 0)
        pack.asked.s = thresholds[below(5)];
    if (how != 1)
        pack.asked.options = options[below(4)];
}

/* A random pack as it is, and then with its rows and settings spoiled. */
static void try_random(void) {
    Packing *p = &pack.asked;
    begin_any(below(10) == 0 ? 40 : below(13));
    spoil_meshes(below(2) ? NO_MESH : (int)below(PLACES));
    ask_in_rooms();
    for (uint32_t n = 1 + below(3); n > 0; n--) {
        uint32_t how = below(3);
        if (how == 0)
            spoil_settings();
        else if (how == 1)
            spoil_row(pack.point_counts, &p->point_counts_len, &p->points_len);
        else
            spoil_row(pack.face_counts, &p->face_counts_len, &p->faces_len);
        ask((int[PACK_ROOMS]){0}, &(Lending){(int)below(DIRTS), (int)below(2), (int)below(2), n});
    }
}

/* ---- meshes that are too large, and long rows */

/* So many bytes of zero, most of which will not be touched. */
static void *wide(size_t bytes) {
    void *out = mmap(NULL, bytes, PROT_READ | PROT_WRITE, MAP_PRIVATE | MAP_ANONYMOUS | MAP_NORESERVE, -1, 0);
    if (out == MAP_FAILED)
        exit(2);
    return out;
}

/* Whether a wide room holds an answer in front, zero to what is stated, and behind that a byte of dirt. */
static int holds_wide(const uint8_t *room, const void *answer, size_t bytes, size_t stated) {
    if (bytes > 0 && memcmp(room, answer, bytes) != 0)
        return 0;
    size_t left = stated - bytes;
    return room[stated] == DIRT && (left == 0 || (room[bytes] == 0 && memcmp(room + bytes, room + bytes + 1, left - 1) == 0));
}

/* Says what differs in wide rooms. */
static void compare_wide(const ShellPanel *found, const Packed *wanted, void *const room[PACK_ROOMS], const char *from) {
    const uint64_t entries[PACK_ROOMS] = {found->points, found->faces, found->counts, found->origins, found->meshes, 0};
    if (found->number != wanted->number || found->place != wanted->place || memcmp(entries, wanted->entries, sizeof wanted->entries) != 0)
        differs(from, "another number, place or count");
    for (int k = 0; k < PACK_ROOMS; k++)
        if (!holds_wide(room[k], k < PACK_ANSWERS ? wanted->row[k] : NULL, entries[k] * panel_sizes[k], pack.asked.room[k] * panel_sizes[k]))
            differs(from, "a wide room does not hold what it must");
}

/* Lends wide rooms for the pack as they are stated, of which the first byte is dirty, one in the middle, the last, and the next. */
static void lend_wide(void *room[PACK_ROOMS]) {
    uint64_t stated[PACK_ROOMS];
    panel_rooms(&pack.asked, stated);
    for (int k = 0; k < PACK_ROOMS; k++) {
        size_t bytes = stated[k] * panel_sizes[k];
        uint8_t *lent = room[k] = wide(bytes + 1);
        pack.asked.room[k] = stated[k];
        lent[0] = lent[bytes / 2] = lent[bytes - 1] = lent[bytes] = DIRT;
    }
}

/* A pack whose second mesh has so many points and faces, and the others a point and a face each, all numbers 0; the second is refused so, or accepted. */
static void try_large(uint32_t P, uint32_t F, uint32_t number, uint32_t place) {
    const uint32_t point_counts[3] = {1, P, 1}, face_counts[3] = {1, F, 1};
    size_t points_len = 3 * ((size_t)P + 2), faces_len = 3 * ((size_t)F + 2);
    double *points = wide(8 * points_len);
    uint32_t *faces = wide(4 * faces_len);
    Packing *p = &pack.asked;
    void *r[PACK_ROOMS];
    *p = (Packing){points, faces, point_counts, face_counts, points_len, faces_len, 3, 3, 0.5, SHELL_DROP_DEGENERATE, {0}};
    lend_wide(r);
    const size_t *n = p->room;
    ShellPanel found = shell_repair_panel(points, points_len, faces, faces_len, point_counts, 3, face_counts, 3, p->s, p->options, r[0], n[0], r[1], n[1], r[2],
                                          n[2], r[3], n[3], r[4], n[4], r[5], n[5]);
    Packed wanted = panel_packed(p), each = one_call_each(p);
    compare_wide(&found, &wanted, r, "the documents say");
    compare_wide(&found, &each, r, "one call each");
    const uint32_t *meshes = wanted.row[4];
    if (meshes[4] != number || meshes[5] != place)
        differs("is known", "a large mesh");
    count_pack(p, &wanted);
    panel_free(&wanted);
    panel_free(&each);
    munmap(points, 8 * points_len);
    munmap(faces, 4 * faces_len);
    for (int k = 0; k < PACK_ROOMS; k++)
        munmap(r[k], n[k] * panel_sizes[k] + 1);
}

/* A row of n counts, many more than a tile has, that takes little memory: all but the first are the same, and stand in a file that is mapped over and over.
 * NULL if the system has no room for it. */
static uint32_t *long_row(size_t n, uint32_t each, uint32_t first) {
    enum { TILE = 1 << 26 };
    int file = memfd_create("counts", 0);
    uint8_t *out = mmap(NULL, 4 * n + TILE, PROT_NONE, MAP_PRIVATE | MAP_ANONYMOUS | MAP_NORESERVE, -1, 0);
    if (file < 0 || out == MAP_FAILED || ftruncate(file, TILE) != 0)
        return NULL;
    for (size_t at = 0; at < 4 * n; at += TILE)
        if (mmap(out + at, TILE, PROT_READ | PROT_WRITE, (at == 0 ? MAP_PRIVATE : MAP_SHARED) | MAP_FIXED, file, 0) == MAP_FAILED)
            return NULL;
    uint32_t *row = (uint32_t *)(void *)out, *tile = row + TILE / 4;
    for (size_t i = 0; i < TILE / 4 && each != 0; i++)
        tile[i] = each;
    row[0] = first;
    close(file);
    return row;
}

/* Rows of 1431655766 counts whose sum, times 3, is 2 more than 64 bits hold, beside a row of zeros: 1, of points and of faces, of which there are two numbers.
 * Whether the system has room for that. */
static int try_long_rows(void) {
    static const double numbers[2];
    static const uint32_t corners[2];
    const size_t n = 1431655766;
    uint32_t *many = long_row(n, UINT32_MAX, 2863311531), *zeros = long_row(n, 0, 0);
    begin(0, 0);
    if (many == NULL || zeros == NULL)
        return 0;
    ShellPanel found = shell_repair_panel(numbers, 2, NULL, 0, many, n, zeros, n, 0, 0, NULL, 0, NULL, 0, NULL, 0, NULL, 0, NULL, 0, NULL, 0);
    if (found.number != 1 || found.place != 0)
        differs("is known", "point counts whose sum wraps in 64 bits");
    found = shell_repair_panel(NULL, 0, corners, 2, zeros, n, many, n, 0, 0, NULL, 0, NULL, 0, NULL, 0, NULL, 0, NULL, 0, NULL, 0);
    if (found.number != 1 || found.place != 1)
        differs("is known", "face counts whose sum wraps in 64 bits");
    met.whole[1][0]++;
    met.whole[1][1]++;
    return 1;
}

/* ---- all */

/* Whether everything was met: packs of these lengths, meshes refused by each number and in each place, and the whole for each reason. */
static int complete(void) {
    static const int lengths[] = {0, 1, 2, 3, 40, 255, 256, 257}, wholes[][2] = {{1, 2}, {2, 1}, {3, 2}, {6, PACK_ROOMS}};
    int good = met.meshes[0] > 0 && met.meshes[2] > 0 && met.meshes[4] > 0 && met.meshes[5] > 0 && met.longer > 0 && met.empty > 0;
    for (size_t k = 0; k < sizeof lengths / sizeof *lengths; k++)
        good = good && met.lengths[lengths[k]] > 0;
    for (int k = 0; k < PLACES; k++)
        good = good && met.places[k] > 0;
    for (size_t k = 0; k < sizeof wholes / sizeof *wholes; k++)
        for (int place = 0; place < wholes[k][1]; place++)
            good = good && met.whole[wholes[k][0]][place] > 0;
    return good;
}

int main(int count, char **words) {
    if (count != 2) {
        fprintf(stderr, "usage: panel PACKS\n");
        return 2;
    }
    unsigned long packs = strtoul(words[1], NULL, 10);
    int all = packs >= ENOUGH;
    try_known();
    try_refusals();
    try_wrapping();
    if (all && !try_long_rows())
        printf("panel: no room here for rows whose sums wrap in 64 bits\n");
    try_lengths(all);
    try_small(all ? 1 : 101);
    for (unsigned long k = 0; k < packs; k++)
        try_random();
    if (all) {
        try_large(SHELL_MOST_POINTS + 1, 0, SHELL_TOO_LARGE, 0);
        try_large(1, SHELL_MOST_FACES + 1, SHELL_TOO_LARGE, 1);
        try_large(SHELL_MOST_POINTS + 1, SHELL_MOST_FACES + 1, SHELL_TOO_LARGE, 0);
        try_large(SHELL_MOST_POINTS, 0, SHELL_ACCEPTED, 0);
        try_large(1, SHELL_MOST_FACES, SHELL_ACCEPTED, 0);
    }
    printf("panel: %lu packs accepted; of their meshes %lu accepted, refused 2 %lu, 4 %lu, 5 %lu times; the first refused in %lu packs, one between in %lu, "
           "the last in %lu, the largest in %lu, some in %lu, all in %lu\n",
           met.accepted, met.meshes[0], met.meshes[2], met.meshes[4], met.meshes[5], met.places[FIRST], met.places[BETWEEN], met.places[LAST],
           met.places[LARGEST], met.places[SOME], met.places[ALL]);
    printf("panel: packs refused 1 at 0 %lu and at 1 %lu, 2 %lu, 3 at 0 %lu and at 1 %lu, 6 by the room", met.whole[1][0], met.whole[1][1], met.whole[2][0],
           met.whole[3][0], met.whole[3][1]);
    for (int k = 0; k < PACK_ROOMS; k++)
        printf(" %lu", met.whole[6][k]);
    printf(" times\n");
    if (all && !complete()) {
        printf("panel: something was not met\n");
        return 1;
    }
    return 0;
}
