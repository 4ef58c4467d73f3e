/* The edge call and the loop call on small meshes whose answers are known: `bowties`. Bowties and other meshes that have edges but no loops, crowded edges,
 * faces that repeat a corner, and meshes that both calls accept; each in a work room of zeros, in a dirty one, and in those that are zero before some entry
 * or but for it. Then rooms that are one entry short, and faults of several kinds at once. What differs is printed. */
#include "shell.h"
#include <math.h>
#include <stdio.h>
#include <string.h>

enum { MOST_P = 6, MOST_F = 4, DIRT = 0x5a };

/* A mesh, and what both calls must give: number and place, and if that is 0 the ends of its edges and the edges of its faces, its loops and their ends. */
typedef struct {
    const char *what;
    size_t P, F;
    uint32_t faces[3 * MOST_F];
    uint32_t number, place;
    size_t E;
    uint32_t edges[6 * MOST_F], face_edges[3 * MOST_F];
    uint32_t loops_number, loops_place;
    size_t L, K;
    uint32_t loop_vertices[3 * MOST_F], loop_ends[3 * MOST_F];
} Known;

static const Known known[] = {
    {"a bowtie", 5, 2, {0, 1, 2, 0, 3, 4}, 0, 0, 6, {0, 1, 0, 2, 0, 3, 0, 4, 1, 2, 3, 4}, {4, 1, 0, 5, 3, 2}, 8, 0, 0, 0, {0}, {0}},
    {"a bowtie at vertex 2", 5, 2, {0, 1, 2, 2, 3, 4}, 0, 0, 6, {0, 1, 0, 2, 1, 2, 2, 3, 2, 4, 3, 4}, {2, 1, 0, 5, 4, 3}, 8, 2, 0, 0, {0}, {0}},
    {"an edge walked twice the same way", 4, 2, {0, 1, 2, 0, 1, 3}, 0, 0, 5, {0, 1, 0, 2, 0, 3, 1, 2, 1, 3}, {3, 1, 0, 4, 2, 0}, 8, 0, 0, 0, {0}, {0}},
    {"an edge {0, 0} and a face at vertex 0", 4, 2, {0, 0, 1, 0, 2, 3}, 0, 0, 5, {0, 0, 0, 1, 0, 2, 0, 3, 2, 3}, {1, 1, 0, 4, 3, 2}, 8, 0, 0, 0, {0}, {0}},
    {"one face", 3, 1, {0, 1, 2}, 0, 0, 3, {0, 1, 0, 2, 1, 2}, {2, 1, 0}, 0, 0, 3, 1, {2, 1, 0}, {3}},
    {"a loop of one vertex", 2, 1, {0, 0, 1}, 0, 0, 2, {0, 0, 0, 1}, {1, 1, 0}, 0, 0, 1, 1, {0}, {1}},
    {"two faces on an edge", 4, 2, {0, 1, 2, 0, 3, 1}, 0, 0, 5, {0, 1, 0, 2, 0, 3, 1, 2, 1, 3}, {3, 1, 0, 4, 0, 2}, 0, 0, 4, 1, {2, 1, 3, 0}, {4}},
    {"two faces apart", 6, 2, {5, 4, 3, 1, 0, 2}, 0, 0, 6, {0, 1, 0, 2, 1, 2, 3, 4, 3, 5, 4, 5}, {3, 4, 5, 1, 2, 0}, 0, 0, 6, 2, {1, 2, 0, 4, 5, 3}, {3, 6}},
    {"edges but no boundary", 3, 2, {0, 0, 1, 2, 0, 0}, 0, 0, 3, {0, 0, 0, 1, 0, 2}, {1, 1, 0, 0, 2, 2}, 0, 0, 0, 0, {0}, {0}},
    {"a closed shell", 4, 4, {0, 2, 1, 0, 1, 3, 1, 2, 3, 2, 0, 3}, 0, 0, 6, {0, 1, 0, 2, 0, 3, 1, 2, 1, 3, 2, 3}, {3, 0, 1, 4, 2, 0, 5, 4, 3, 2, 5, 1}, 0, 0, 0,
     0, {0}, {0}},
    {"points and no face", 5, 0, {0}, 0, 0, 0, {0}, {0}, 0, 0, 0, 0, {0}, {0}},
    {"nothing", 0, 0, {0}, 0, 0, 0, {0}, {0}, 0, 0, 0, 0, {0}, {0}},
    {"three corners equal", 1, 1, {0, 0, 0}, 7, 0, 0, {0}, {0}, 7, 0, 0, 0, {0}, {0}},
    {"three faces on the first edge", 5, 3, {0, 1, 2, 0, 1, 3, 0, 1, 4}, 7, 0, 0, {0}, {0}, 7, 0, 0, 0, {0}, {0}},
    {"three faces on the third edge", 5, 3, {0, 1, 2, 1, 2, 3, 1, 2, 4}, 7, 2, 0, {0}, {0}, 7, 2, 0, 0, {0}, {0}},
    {"a face three times behind another", 6, 4, {0, 1, 2, 3, 4, 5, 4, 5, 3, 5, 4, 3}, 7, 3, 0, {0}, {0}, 7, 3, 0, 0, {0}, {0}},
};

static int faults, tried;

/* Counts what was tried, and says what is not as it must be. */
static void expect(int good, const char *call, const char *what, const char *how) {
    tried++;
    if (!good) {
        faults++;
        printf("bowties: %s, %s, %s\n", call, what, how);
    }
}

/* Points on a line, at the squares: so each length is a whole number. */
static double points[3 * MOST_P];

/* The rooms, with one entry more than is stated for the largest mesh, and their lengths as they are lent. */
static double lengths[SHELL_LENGTHS_ROOM(MOST_F) + 1];
static uint32_t edges[SHELL_EDGES_ROOM(MOST_F) + 1], face_edges[SHELL_FACE_EDGES_ROOM(MOST_F) + 1], loop_vertices[SHELL_LOOP_VERTICES_ROOM(MOST_F) + 1],
    loop_ends[SHELL_LOOP_ENDS_ROOM(MOST_F) + 1], work[SHELL_WORK_ROOM(MOST_P, MOST_F) + 1], work_before[SHELL_WORK_ROOM(MOST_P, MOST_F) + 1];

/* Makes every room dirty, but for the entries of the work room below `from` and from `to` on, which are zero; the last of all is always dirty. */
static void soil(size_t from, size_t to) {
    memset(lengths, DIRT, sizeof lengths);
    memset(edges, DIRT, sizeof edges);
    memset(face_edges, DIRT, sizeof face_edges);
    memset(loop_vertices, DIRT, sizeof loop_vertices);
    memset(loop_ends, DIRT, sizeof loop_ends);
    memset(work, DIRT, sizeof work);
    for (size_t i = 0; i + 1 < sizeof work / sizeof *work; i++)
        if (i < from || i >= to)
            work[i] = 0;
    memcpy(work_before, work, sizeof work);
}

/* Whether a room of so many entries holds an answer in front, zero up to what is stated, and dirt behind; with `stated` 0, dirt alone. */
static int holds(const void *room, size_t size, size_t bytes, const void *answer, size_t count, size_t stated) {
    const unsigned char *at = room;
    int good = count == 0 || memcmp(at, answer, count * size) == 0;
    for (size_t i = count * size; i < bytes; i++)
        good = good && at[i] == (i < stated * size ? 0 : DIRT);
    return good;
}

/* Whether the work room is zero up to what is stated and else as it was. */
static int worked(size_t stated) {
    int good = 1;
    for (size_t i = 0; i < sizeof work / sizeof *work; i++)
        good = good && work[i] == (i < stated ? 0 : work_before[i]);
    return good;
}

/* Whether the edge call gives what it must, in rooms that are so many entries longer than stated. */
static int lists_edges(const Known *k, size_t longer) {
    double measured[SHELL_LENGTHS_ROOM(MOST_F)];
    size_t F = k->F, room = SHELL_WORK_ROOM(k->P, F);
    ShellEdges r = shell_edges(points, 3 * k->P, k->faces, 3 * F, edges, SHELL_EDGES_ROOM(F) + longer, lengths, SHELL_LENGTHS_ROOM(F) + longer, face_edges,
                               SHELL_FACE_EDGES_ROOM(F) + longer, work, room + longer);
    int ok = k->number == 0;
    for (size_t i = 0; i < k->E; i++)
        measured[i] = points[3 * k->edges[2 * i + 1]] - points[3 * k->edges[2 * i]];
    return r.number == k->number && r.place == k->place && r.edges == 2 * k->E && r.lengths == k->E && r.face_edges == (ok ? 3 * F : 0) &&
           holds(edges, 4, sizeof edges, k->edges, 2 * k->E, ok ? SHELL_EDGES_ROOM(F) : 0) &&
           holds(lengths, 8, sizeof lengths, measured, k->E, ok ? SHELL_LENGTHS_ROOM(F) : 0) &&
           holds(face_edges, 4, sizeof face_edges, k->face_edges, ok ? 3 * F : 0, ok ? SHELL_FACE_EDGES_ROOM(F) : 0) &&
           holds(loop_vertices, 4, sizeof loop_vertices, NULL, 0, 0) && holds(loop_ends, 4, sizeof loop_ends, NULL, 0, 0) && worked(ok ? room : 0);
}

/* Whether the loop call does. */
static int lists_loops(const Known *k, size_t longer) {
    size_t F = k->F, room = SHELL_WORK_ROOM(k->P, F);
    ShellLoops r = shell_loops(points, 3 * k->P, k->faces, 3 * F, loop_vertices, SHELL_LOOP_VERTICES_ROOM(F) + longer, loop_ends,
                               SHELL_LOOP_ENDS_ROOM(F) + longer, work, room + longer);
    int ok = k->loops_number == 0;
    return r.number == k->loops_number && r.place == k->loops_place && r.loop_vertices == k->L && r.loop_ends == k->K &&
           holds(loop_vertices, 4, sizeof loop_vertices, k->loop_vertices, k->L, ok ? SHELL_LOOP_VERTICES_ROOM(F) : 0) &&
           holds(loop_ends, 4, sizeof loop_ends, k->loop_ends, k->K, ok ? SHELL_LOOP_ENDS_ROOM(F) : 0) && holds(edges, 4, sizeof edges, NULL, 0, 0) &&
           holds(lengths, 8, sizeof lengths, NULL, 0, 0) && holds(face_edges, 4, sizeof face_edges, NULL, 0, 0) && worked(ok ? room : 0);
}

/* Both calls on a mesh, with entries of the work room dirty from `from` up to `to`. */
static void both(const Known *k, size_t from, size_t to, const char *how) {
    for (size_t longer = 0; longer < 2; longer++) {
        soil(from, to);
        expect(lists_edges(k, longer), "edges", k->what, how);
        soil(from, to);
        expect(lists_loops(k, longer), "loops", k->what, how);
    }
}

/* A mesh in work rooms of every kind. */
static void in_rooms(const Known *k) {
    size_t room = SHELL_WORK_ROOM(k->P, k->F);
    both(k, 0, 0, "a work room of zeros");
    both(k, 0, sizeof work, "a dirty work room");
    for (size_t i = 0; i < room; i++) {
        both(k, i, sizeof work, "a work room that is zero in front");
        both(k, i, i + 1, "a work room that is zero but for one entry");
    }
    /* The loop call in the work room that the edge call has left. */
    soil(0, sizeof work);
    int good = lists_edges(k, 0);
    memset(edges, DIRT, sizeof edges);
    memset(lengths, DIRT, sizeof lengths);
    memset(face_edges, DIRT, sizeof face_edges);
    memcpy(work_before, work, sizeof work);
    expect(good && lists_loops(k, 0), "edges and then loops", k->what, "one work room");
}

/* Whether the edge call, in rooms that are so much shorter than stated, refuses so and keeps every room. */
static int edges_refuse(const double *at, size_t at_len, const uint32_t *faces, size_t faces_len, const size_t less[4], uint32_t number, uint32_t place) {
    size_t P = at_len / 3, F = faces_len / 3;
    soil(0, sizeof work);
    ShellEdges r = shell_edges(at, at_len, faces, faces_len, edges, SHELL_EDGES_ROOM(F) - less[0], lengths, SHELL_LENGTHS_ROOM(F) - less[1], face_edges,
                               SHELL_FACE_EDGES_ROOM(F) - less[2], work, SHELL_WORK_ROOM(P, F) - less[3]);
    return r.number == number && r.place == place && r.edges == 0 && r.lengths == 0 && r.face_edges == 0 && holds(edges, 4, sizeof edges, NULL, 0, 0) &&
           holds(lengths, 8, sizeof lengths, NULL, 0, 0) && holds(face_edges, 4, sizeof face_edges, NULL, 0, 0) && worked(0);
}

/* Whether the loop call does. */
static int loops_refuse(const double *at, size_t at_len, const uint32_t *faces, size_t faces_len, const size_t less[3], uint32_t number, uint32_t place) {
    size_t P = at_len / 3, F = faces_len / 3;
    soil(0, sizeof work);
    ShellLoops r = shell_loops(at, at_len, faces, faces_len, loop_vertices, SHELL_LOOP_VERTICES_ROOM(F) - less[0], loop_ends,
                               SHELL_LOOP_ENDS_ROOM(F) - less[1], work, SHELL_WORK_ROOM(P, F) - less[2]);
    return r.number == number && r.place == place && r.loop_vertices == 0 && r.loop_ends == 0 && holds(loop_vertices, 4, sizeof loop_vertices, NULL, 0, 0) &&
           holds(loop_ends, 4, sizeof loop_ends, NULL, 0, 0) && worked(0);
}

/* Every choice of rooms that are one entry short: the first of them is told, before a crowded edge and a boundary that is not simple. */
static void short_rooms(const Known *k) {
    for (unsigned which = 1; which < 16; which++) {
        const size_t less[4] = {which & 1, which >> 1 & 1, which >> 2 & 1, which >> 3};
        uint32_t first = less[0] ? 0 : less[1] ? 1 : less[2] ? 2 : 3;
        expect(edges_refuse(points, 3 * k->P, k->faces, 3 * k->F, less, SHELL_SHORT_ROOM, first), "edges", k->what, "short rooms");
        if (which < 8)
            expect(loops_refuse(points, 3 * k->P, k->faces, 3 * k->F, less, SHELL_SHORT_ROOM, first), "loops", k->what, "short rooms");
    }
}

/* Both calls on input with faults of several kinds, in exact rooms and in short ones. */
static void refused(const double *at, size_t at_len, const uint32_t *faces, size_t faces_len, uint32_t number, uint32_t place, const char *what) {
    const size_t exact[4] = {0, 0, 0, 0}, some = faces_len >= 3, all[4] = {some, some, some, 1};
    expect(edges_refuse(at, at_len, faces, faces_len, exact, number, place), "edges", what, "exact rooms");
    expect(loops_refuse(at, at_len, faces, faces_len, exact, number, place), "loops", what, "exact rooms");
    expect(edges_refuse(at, at_len, faces, faces_len, all, number, place), "edges", what, "short rooms");
    expect(loops_refuse(at, at_len, faces, faces_len, all + 1, number, place), "loops", what, "short rooms");
}

/* Refusals 1, 4 and 5, each in front of all that comes after it. */
static void in_order(void) {
    const uint32_t bowtie[] = {0, 1, 2, 0, 3, 4, 0}, crowded[] = {0, 1, 2, 0, 1, 3, 5, 0, 1};
    double bad[3 * MOST_P];
    memcpy(bad, points, sizeof bad);
    bad[7] = NAN;
    bad[9] = INFINITY;
    refused(bad, 14, crowded, 8, SHELL_BAD_LENGTH, 0, "points no multiple of 3");
    refused(bad, 15, crowded, 8, SHELL_BAD_LENGTH, 1, "faces no multiple of 3");
    refused(bad, 15, crowded, 9, SHELL_BAD_POINT, 2, "a coordinate that is not a number");
    bad[7] = 0;
    refused(bad, 15, bowtie, 6, SHELL_BAD_POINT, 3, "a coordinate that is infinite");
    bad[9] = 0x1.0000000000001p100;
    refused(bad, 15, NULL, 0, SHELL_BAD_POINT, 3, "a coordinate beyond 2^100, and no face");
    bad[0] = NAN;
    refused(bad, 3, NULL, 0, SHELL_BAD_POINT, 0, "one point that is none, and no face");
    refused(points, 15, crowded, 9, SHELL_BAD_CORNER, 2, "a corner that is no point");
    refused(points, 12, bowtie, 6, SHELL_BAD_CORNER, 1, "a corner that is just no point");
}

/* Rooms that are NULL where nothing is stated. */
static void without_rooms(void) {
    soil(0, sizeof work);
    ShellEdges e = shell_edges(NULL, 0, NULL, 0, NULL, 0, NULL, 0, NULL, 0, work, 64);
    expect(e.number == 0 && e.place == 0 && e.edges == 0 && e.lengths == 0 && e.face_edges == 0 && worked(64), "edges", "nothing", "no rooms but work");
    soil(0, sizeof work);
    ShellLoops l = shell_loops(NULL, 0, NULL, 0, NULL, 0, NULL, 0, work, 64);
    expect(l.number == 0 && l.place == 0 && l.loop_vertices == 0 && l.loop_ends == 0 && worked(64), "loops", "nothing", "no rooms but work");
    soil(0, sizeof work);
    e = shell_edges(NULL, 0, NULL, 0, NULL, 0, NULL, 0, NULL, 0, work, 63);
    expect(e.number == SHELL_SHORT_ROOM && e.place == 3 && worked(0), "edges", "nothing", "a work room of 63");
    l = shell_loops(NULL, 0, NULL, 0, NULL, 0, NULL, 0, work, 63);
    expect(l.number == SHELL_SHORT_ROOM && l.place == 2 && worked(0), "loops", "nothing", "a work room of 63");
}

int main(void) {
    for (size_t i = 0; i < MOST_P; i++)
        points[3 * i] = (double)(i * i);
    for (size_t i = 0; i < sizeof known / sizeof *known; i++) {
        in_rooms(known + i);
        if (known[i].F > 0)
            short_rooms(known + i);
    }
    in_order();
    without_rooms();
    printf("bowties: %d tried, %d not as they must be\n", tried, faults);
    return faults != 0;
}
