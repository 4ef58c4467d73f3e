/* The chain repair, check, edges, loops, and writing to a PLY file and reading it, on damaged meshes, from a fixed seed: `chain MESHES`. After a repair with
 * all six options each mesh must be what is proved of it: the check says yes, the edge call and the loop call accept, each boundary edge stands in exactly one
 * loop, each directed edge is walked at most once, every point is used and has one fan, as many faces as repeat a corner are counted so, and the counts add up;
 * and after it and after repairs with other options, the origins rise strictly, one for each face, and each names an input face that has its corners in the
 * same places, bit by bit, at most the last two exchanged. The mending list of each of these repairs is written, in rooms of several kinds; it has as many
 * lines of each kind as the report counts, and gives, applied to the mesh, what the repair gave, bit by bit. Ten meshes with the same threshold are packed into
 * one call that repairs them with all six options, and the part of each in its rooms must be what its own repair gave, bit by bit. Before the repair the check
 * must say yes exactly if no face repeats a corner, each directed edge is walked at most once and each point that is used has one fan, and where it says yes
 * the edge call and the loop call must accept; the edge call must accept whatever the loop call accepts or refuses for its boundary, and refuse the same where
 * an edge is crowded. Before and after it the mesh is read from the PLY file that it is written to with the same bits. The first mesh that differs is
 * printed. */
#include "damaged.h"
#include "lists.h"
#include "shell.h"
#include <stdio.h>
#include <stdlib.h>
#include <string.h>

/* The rooms of repair, edges and loops, and how many entries stand in them. */
typedef struct {
    double *points, *lengths;
    uint32_t *faces, *report, *origins, *work, *edges, *face_edges, *loop_vertices, *loop_ends;
    ShellRepaired repaired;
    ShellEdges found;
    ShellLoops loops;
} Rooms;

/* A room of exactly n entries, so that a step beyond it is seen; never of size 0. */
static void *room(size_t n, size_t size) {
    void *out = malloc(n == 0 ? 1 : n * size);
    if (out == NULL)
        exit(2);
    memset(out, 0x5a, n * size);
    return out;
}

/* A bowtie, three faces on an edge, a Moebius strip, two bodies with a common tip, and one patch that has two fans at a point. */
enum { PLAIN = 5 };
static Mesh plain(size_t which) {
    static const Mesh five[PLAIN] = {
        {{0, 0, 0, 1, 0, 0, 0, 1, 0, -1, 0, 0, 0, -1, 0}, 1e-12, {0, 1, 2, 0, 3, 4}, 5, 2},
        {{0, 0, 0, 1, 0, 0, 0, 1, 0, 0, -1, 0, 0, 0, 1}, 1e-12, {0, 1, 2, 0, 1, 3, 0, 1, 4}, 5, 3},
        {{0, 0, 0, 1, 0, 0, 0, 1, 0, 0, 0, 1, 1, 1, 1}, 1e-12, {0, 1, 2, 1, 2, 3, 2, 3, 4, 3, 4, 0, 4, 0, 1}, 5, 5},
        {{0, 0, 0, 1, 0, 1, 0, 1, 1, -1, -1, 1, 1, 0, -1, 0, 1, -1, -1, -1, -1},
         1e-12,
         {0, 2, 1, 0, 1, 3, 1, 2, 3, 2, 0, 3, 0, 5, 4, 0, 4, 6, 4, 5, 6, 5, 0, 6},
         7,
         8},
        {{1, 0, 0, 0, 1, 0, 0, 0, 0, -1, 0, 0, 0, 0, 1}, 1e-12, {0, 1, 2, 3, 4, 2, 3, 0, 4, 1, 0, 3}, 5, 4}};
    return five[which];
}

static void print(const Mesh *m) {
    printf("threshold %a\n", m->s);
    for (size_t i = 0; i < m->P; i++)
        printf("point %a %a %a\n", m->points[3 * i], m->points[3 * i + 1], m->points[3 * i + 2]);
    for (size_t i = 0; i < m->F; i++)
        printf("face %u %u %u\n", m->faces[3 * i], m->faces[3 * i + 1], m->faces[3 * i + 2]);
}

/* The edge call and then the loop call in rooms that are just large enough, with the work room of the call before. */
static void find_edges(Rooms *r, const double *points, size_t P, const uint32_t *faces, size_t F) {
    r->edges = room(SHELL_EDGES_ROOM(F), 4);
    r->lengths = room(SHELL_LENGTHS_ROOM(F), 8);
    r->face_edges = room(SHELL_FACE_EDGES_ROOM(F), 4);
    r->loop_vertices = room(SHELL_LOOP_VERTICES_ROOM(F), 4);
    r->loop_ends = room(SHELL_LOOP_ENDS_ROOM(F), 4);
    r->found = shell_edges(points, 3 * P, faces, 3 * F, r->edges, SHELL_EDGES_ROOM(F), r->lengths, SHELL_LENGTHS_ROOM(F), r->face_edges,
                           SHELL_FACE_EDGES_ROOM(F), r->work, SHELL_WORK_ROOM(P, F));
    r->loops = shell_loops(points, 3 * P, faces, 3 * F, r->loop_vertices, SHELL_LOOP_VERTICES_ROOM(F), r->loop_ends, SHELL_LOOP_ENDS_ROOM(F), r->work,
                           SHELL_WORK_ROOM(P, F));
}

static void free_edges(Rooms *r) {
    free(r->edges);
    free(r->lengths);
    free(r->face_edges);
    free(r->loop_vertices);
    free(r->loop_ends);
}

/* What all meshes together had: those that are sound before the repair, those that are not for the fans at a point alone, and those whose edges are listed
 * though their loops are refused; boundary edges and loops after the repair, and degenerate faces of both kinds before it; bytes of PLY files; faces that are
 * traced by their origins, those of them that have another place in the output, and those that stand there with their corners exchanged; bytes of mending
 * lists; packs, and meshes in them. */
typedef struct {
    uint64_t sound, tied, listed, boundary, loops, repeated, thin, bytes, traced, moved, turned, lists, packs, packed;
} Sums;

/* Whether a PLY file is counted and read as this mesh, in rooms that are just large enough. */
static int reads_as(const uint8_t *file, size_t bytes, const double *points, size_t P, const uint32_t *faces, size_t F) {
    double *read_points = room(SHELL_PLY_POINTS_ROOM(P), 8);
    uint32_t *read_faces = room(SHELL_PLY_FACES_ROOM(F), 4), *work = room(SHELL_WORK_ROOM(P, F), 4);
    ShellPlyCounts counts = shell_ply_counts(file, bytes);
    ShellPly found = shell_read_ply(file, bytes, read_points, SHELL_PLY_POINTS_ROOM(P), read_faces, SHELL_PLY_FACES_ROOM(F), work, SHELL_WORK_ROOM(P, F));
    int same = counts.number == SHELL_ACCEPTED && counts.points == P && counts.faces == F && found.number == SHELL_ACCEPTED && found.points == 3 * P &&
               found.faces == 3 * F && memcmp(read_points, points, 24 * P) == 0 && memcmp(read_faces, faces, 12 * F) == 0;
    free(read_points);
    free(read_faces);
    free(work);
    return same;
}

/* Writes the mesh to a PLY file, with all the room that is ever wanted, then with a room as long as the file and one byte less, and reads it. Says what
 * differs, or NULL. */
static const char *there_and_back(const double *points, size_t P, const uint32_t *faces, size_t F, Sums *sums) {
    size_t most = SHELL_PLY_FILE_ROOM(P, F), w = SHELL_WORK_ROOM(P, F);
    uint8_t *file = room(most, 1);
    uint32_t *work = room(w, 4);
    ShellPlyFile written = shell_write_ply(points, 3 * P, faces, 3 * F, file, most, work, w);
    size_t bytes = written.number == SHELL_ACCEPTED ? written.bytes : 1;
    uint8_t *exact = room(bytes, 1);
    ShellPlyFile again = shell_write_ply(points, 3 * P, faces, 3 * F, exact, bytes, work, w);
    ShellPlyFile shorter = shell_write_ply(points, 3 * P, faces, 3 * F, file, bytes - 1, work, w);
    const char *found = NULL;
    if (written.number != SHELL_ACCEPTED || again.number != SHELL_ACCEPTED || again.bytes != bytes || memcmp(file, exact, bytes) != 0)
        found = "it is not written as a PLY file";
    else if (shorter.number != SHELL_SHORT_ROOM || shorter.place != 0)
        found = "it is written into less room than its file has";
    else if (!reads_as(exact, bytes, points, P, faces, F))
        found = "it is not read from the PLY file that it is written to";
    sums->bytes += bytes;
    free(file);
    free(exact);
    free(work);
    return found;
}

/* How many faces have two corners with the same number. */
static uint32_t repeated(const Mesh *m) {
    uint32_t count = 0;
    for (const uint32_t *face = m->faces; face < m->faces + 3 * m->F; face += 3)
        count += face[0] == face[1] || face[1] == face[2] || face[2] == face[0];
    return count;
}

static int has(const uint32_t *face, uint32_t v) { return face[0] == v || face[1] == v || face[2] == v; }

/* Whether two faces with the corner v share another one. */
static int joined(const uint32_t *one, const uint32_t *other, uint32_t v) {
    return (one[0] != v && has(other, one[0])) || (one[1] != v && has(other, one[1])) || (one[2] != v && has(other, one[2]));
}

/* Whether v has faces and they are one fan: from the first of them every other is reached over shared edges at v. */
static int one_fan(const uint32_t *faces, size_t F, uint32_t v) {
    const uint32_t *at[MOST_FACES];
    size_t count = 0, reached = 1;
    for (size_t i = 0; i < F; i++)
        if (has(faces + 3 * i, v))
            at[count++] = faces + 3 * i;
    for (size_t i = 0; i < reached && reached < count; i++)
        for (size_t j = reached; j < count; j++)
            if (joined(at[i], at[j], v)) {
                const uint32_t *face = at[j];
                at[j] = at[reached];
                at[reached++] = face;
            }
    return count > 0 && reached == count;
}

/* How often the faces step from a to b, in a table of P rows. */
static unsigned char *steps(const uint32_t *faces, size_t P, size_t F) {
    unsigned char *table = calloc(P * P + 1, 1);
    if (table == NULL)
        exit(2);
    for (size_t i = 0; i < 3 * F; i++)
        table[faces[i] * P + faces[i % 3 == 2 ? i - 2 : i + 1]]++;
    return table;
}

/* Whether each directed edge is walked at most once. */
static int each_once(const uint32_t *faces, size_t P, size_t F) {
    unsigned char *walked = steps(faces, P, F);
    int ok = 1;
    for (size_t i = 0; i < P * P; i++)
        ok = ok && walked[i] <= 1;
    free(walked);
    return ok;
}

/* Whether each point that is used has one fan. */
static int all_fans(const uint32_t *faces, size_t P, size_t F) {
    int ok = 1;
    for (uint32_t v = 0; v < P; v++) {
        int used = 0;
        for (size_t i = 0; i < F; i++)
            used = used || has(faces + 3 * i, v);
        ok = ok && (!used || one_fan(faces, F, v));
    }
    return ok;
}

/* Says how the check, the edge call and the loop call do not fit together for a mesh as it is, or NULL; counts what they answer. */
static const char *unmended(const Mesh *m, Sums *sums) {
    Rooms r = {.work = room(SHELL_WORK_ROOM(m->P, m->F), 4)};
    ShellCheck check = shell_check(m->P, m->faces, 3 * m->F, r.work, SHELL_WORK_ROOM(m->P, m->F));
    find_edges(&r, m->points, m->P, m->faces, m->F);
    free_edges(&r);
    free(r.work);
    int once = repeated(m) == 0 && each_once(m->faces, m->P, m->F), sound = once && all_fans(m->faces, m->P, m->F);
    int accepted = r.found.number == SHELL_ACCEPTED && r.loops.number == SHELL_ACCEPTED;
    int crowded = r.found.number == SHELL_CROWDED_EDGE, listed = r.found.number == SHELL_ACCEPTED && r.loops.number == SHELL_BAD_BOUNDARY;
    sums->sound += sound;
    sums->tied += once && !sound;
    sums->listed += listed;
    if (check.number != SHELL_ACCEPTED || check.yes != (uint64_t)sound)
        return sound ? "the check says no to what is sound" : "the check says yes to what is not sound";
    if (sound && !accepted)
        return "the edge call or the loop call refuses what the check says yes to";
    if (crowded && (r.loops.number != r.found.number || r.loops.place != r.found.place))
        return "the loop call tells another crowded edge than the edge call";
    return crowded || listed || accepted ? NULL : "the edge call or the loop call refuses otherwise";
}

/* The two sums of the report: faces and points. */
static int adds_up(const Mesh *m, const uint32_t *report, size_t P, size_t F) {
    uint32_t removed = report[SHELL_REPEATED_REMOVED] + report[SHELL_THIN_REMOVED] + report[SHELL_DUPLICATE_FACES_REMOVED] +
                       report[SHELL_FACES_DROPPED_AT_NONMANIFOLD] + report[SHELL_FACES_DROPPED_FOR_ORIENTATION];
    return m->F == F + removed && m->P + report[SHELL_POINTS_ADDED_BY_SPLITTING] == P + report[SHELL_ISOLATED_VERTICES_REMOVED];
}

/* Whether a face of the output stands where the input's does, bit by bit: 1 if so, 2 if only with corners 1 and 2 exchanged, else 0. */
static int stands(const Mesh *m, const uint32_t *was, const double *points, const uint32_t *is) {
    int same = 1, exchanged = 1;
    for (int k = 0; k < 3; k++) {
        same = same && memcmp(m->points + 3 * was[k], points + 3 * is[k], 24) == 0;
        exchanged = exchanged && memcmp(m->points + 3 * was[k], points + 3 * is[(3 - k) % 3], 24) == 0;
    }
    return same ? 1 : exchanged ? 2 : 0;
}

/* How the origins do not say where the faces of the output come from, or NULL: one for each face, below F, rising strictly, in the same place; and the rest of
 * the room, which has one entry more than is stated, as it must be. */
static const char *untraced(const Mesh *m, const Rooms *r, uint32_t options, Sums *sums) {
    size_t F = r->repaired.faces / 3;
    if (r->repaired.origins != F)
        return "there is not one origin for each face";
    for (size_t k = 0; k < F; k++) {
        uint32_t origin = r->origins[k];
        if (origin >= m->F)
            return "an origin is no input face";
        if (k > 0 && origin <= r->origins[k - 1])
            return "the origins do not rise";
        int how = stands(m, m->faces + 3 * origin, r->points, r->faces + 3 * k);
        if (how == 0 || (how == 2 && !(options & SHELL_ORIENT_CONSISTENTLY)))
            return "a face does not stand where its origin does";
        sums->traced++;
        sums->moved += origin != k;
        sums->turned += how == 2;
    }
    for (size_t k = F; k < m->F; k++)
        if (r->origins[k] != 0)
            return "behind the origins it is not zero";
    return r->origins[m->F] == 0x5a5a5a5a ? NULL : "an entry beyond the room of the origins is changed";
}

/* How often the loops do: each is listed against its walk. */
static unsigned char *loop_steps(const Rooms *r, size_t P) {
    unsigned char *table = calloc(P * P + 1, 1);
    if (table == NULL)
        exit(2);
    for (size_t i = 0, k = 0; i < r->loops.loop_ends; i++)
        for (size_t first = k; k < r->loop_ends[i]; k++)
            table[r->loop_vertices[k] * P + r->loop_vertices[k == first ? r->loop_ends[i] - 1 : k - 1]]++;
    return table;
}

/* Whether each directed edge is walked at most once, and stands once in the loops if its opposite is not walked, and else nowhere. */
static int looped(const Rooms *r, size_t P, size_t F, uint64_t *boundary) {
    unsigned char *walked = steps(r->faces, P, F), *in_loops = loop_steps(r, P);
    int ok = 1;
    for (size_t a = 0; a < P; a++)
        for (size_t b = 0; b < P; b++) {
            int is = walked[a * P + b] == 1 && walked[b * P + a] == 0;
            ok = ok && walked[a * P + b] <= (a != b) && in_loops[a * P + b] == is;
            *boundary += is;
        }
    free(walked);
    free(in_loops);
    return ok;
}

/* What differs from what is proved of the output, or NULL. */
static const char *fault(const Mesh *m, Rooms *r, Sums *sums) {
    if (r->repaired.number != SHELL_ACCEPTED || r->repaired.counts != SHELL_REPORT_ROOM)
        return "the repair refuses";
    size_t P = r->repaired.points / 3, F = r->repaired.faces / 3;
    if (r->report[SHELL_REPEATED_REMOVED] != repeated(m))
        return "another number of faces repeat a corner";
    if (!adds_up(m, r->report, P, F))
        return "the counts do not add up";
    const char *found = untraced(m, r, SHELL_ALL_OPTIONS, sums);
    if (found != NULL)
        return found;
    for (uint32_t v = 0; v < P; v++)
        if (!one_fan(r->faces, F, v))
            return "a point has not one fan";
    ShellCheck check = shell_check(P, r->faces, 3 * F, r->work, SHELL_WORK_ROOM(P, F));
    if (check.number != SHELL_ACCEPTED || check.yes != 1)
        return "the check says no";
    find_edges(r, r->points, P, r->faces, F);
    if (r->found.number != SHELL_ACCEPTED)
        return "the edge call refuses";
    if (r->loops.number != SHELL_ACCEPTED)
        return "the loop call refuses";
    return looped(r, P, F, &sums->boundary) ? there_and_back(r->points, P, r->faces, F, sums) : "a boundary edge is not in one loop";
}

/* The repair in rooms that are just large enough, but for one entry more for the origins, and a work room for what may come out. */
static Rooms repair(const Mesh *m, uint32_t options) {
    size_t P = m->P, F = m->F, most = SHELL_WORK_ROOM(P + 3 * F, F);
    Rooms r = {.points = room(SHELL_POINTS_ROOM(P, F), 8), .faces = room(SHELL_FACES_ROOM(F), 4), .report = room(SHELL_REPORT_ROOM, 4), .work = room(most, 4)};
    r.origins = room(SHELL_ORIGINS_ROOM(F) + 1, 4);
    r.repaired = shell_repair(m->points, 3 * P, m->faces, 3 * F, m->s, options, r.points, SHELL_POINTS_ROOM(P, F), r.faces, SHELL_FACES_ROOM(F), r.report,
                              SHELL_REPORT_ROOM, r.origins, SHELL_ORIGINS_ROOM(F) + 1, r.work, most);
    return r;
}

static void free_rooms(Rooms *r) {
    free_edges(r);
    free(r->points);
    free(r->faces);
    free(r->report);
    free(r->origins);
    free(r->work);
}

/* A list as it is written, and how long it is. */
typedef struct {
    uint8_t *text;
    size_t length;
} Written;

/* Writes the mending list of a repair with these options: into the room that is enough for any list, with a work room of one number; into a room as long as the
 * list, with the work room that this leaves; and with a work room of several numbers into one byte less, into none, and as long as the list. Says what differs,
 * or NULL. */
static const char *write_list(const Mesh *m, uint32_t options, Written *list) {
    size_t P = m->P, F = m->F, most = SHELL_LIST_ROOM(P, F), w = SHELL_WORK_ROOM(P, F);
    uint32_t *work = room(w, 4);
    uint8_t *any = room(most, 1);
    ShellList written = shell_list(m->points, 3 * P, m->faces, 3 * F, m->s, options, any, most, work, w);
    size_t bytes = written.number == SHELL_ACCEPTED ? written.bytes : 0;
    *list = (Written){room(bytes, 1), bytes};
    ShellList again = shell_list(m->points, 3 * P, m->faces, 3 * F, m->s, options, list->text, bytes, work, w);
    const char *found = written.number != SHELL_ACCEPTED || again.number != SHELL_ACCEPTED ? "the list of the repair is refused" : NULL;
    if (found == NULL && (again.bytes != bytes || memcmp(any, list->text, bytes) != 0 || (bytes < most && any[bytes] != 0x5a)))
        found = "another list of the repair is written into a room that is as long";
    for (size_t i = 0; i < w; i++)
        work[i] = (uint32_t)i;
    ShellList shorter = shell_list(m->points, 3 * P, m->faces, 3 * F, m->s, options, any, bytes == 0 ? 0 : bytes - 1, work, w);
    ShellList none = shell_list(m->points, 3 * P, m->faces, 3 * F, m->s, options, NULL, 0, work, w - 1);
    ShellList dirty = shell_list(m->points, 3 * P, m->faces, 3 * F, m->s, options, any, bytes, work, w);
    int too_short = bytes > 0 && (shorter.number != SHELL_SHORT_ROOM || shorter.place != 0);
    if (found == NULL && (too_short || none.number != SHELL_SHORT_ROOM || none.place != (bytes == 0)))
        found = "the list of the repair is written into less room than it has";
    if (found == NULL && (dirty.number != SHELL_ACCEPTED || dirty.bytes != bytes || memcmp(any, list->text, bytes) != 0))
        found = "another list of the repair is written with a dirty work room";
    free(any);
    free(work);
    return found;
}

/* Whether a list has as many lines of each kind as a report counts. */
static int counted(const Mesh *m, const Written *list, const uint32_t *report) {
    static const int counts[LINE_KINDS] = {SHELL_REPEATED_REMOVED, SHELL_THIN_REMOVED, SHELL_DUPLICATE_FACES_REMOVED, SHELL_FACES_DROPPED_AT_NONMANIFOLD,
                                           SHELL_FACES_REORIENTED, SHELL_FACES_DROPPED_FOR_ORIENTATION, SHELL_POINTS_ADDED_BY_SPLITTING,
                                           SHELL_ISOLATED_VERTICES_REMOVED};
    uint32_t lines[LINE_KINDS] = {0};
    List l;
    int same = open_list(&l, list->text, list->length, m->faces, m->F, m->P);
    while (same && next_line(&l))
        lines[l.kind]++;
    same = same && l.wrong == NOTHING_WRONG;
    for (int k = 0; k < LINE_KINDS; k++)
        same = same && lines[k] == report[counts[k]];
    close_list(&l);
    return same;
}

/* Writes the mending list of a repair with these options and applies it, in rooms that are just large enough, and says how that is not what the repair gave, or
 * NULL. */
static const char *not_by_list(const Mesh *m, const Rooms *r, uint32_t options, Sums *sums) {
    size_t P = m->P, F = m->F;
    Written list;
    const char *found = write_list(m, options, &list);
    double *points = room(SHELL_POINTS_ROOM(P, F), 8);
    uint32_t *faces = room(SHELL_FACES_ROOM(F), 4), *work = room(SHELL_WORK_ROOM(P, F), 4);
    ShellApplied a = shell_apply(m->points, 3 * P, m->faces, 3 * F, list.text, list.length, points, SHELL_POINTS_ROOM(P, F), faces, SHELL_FACES_ROOM(F), work,
                                 SHELL_WORK_ROOM(P, F));
    if (found == NULL && a.number != SHELL_ACCEPTED)
        found = "the list of the repair does not apply";
    if (found == NULL && (a.points != r->repaired.points || a.faces != r->repaired.faces || memcmp(points, r->points, SHELL_POINTS_ROOM(P, F) * 8) != 0 ||
                          memcmp(faces, r->faces, SHELL_FACES_ROOM(F) * 4) != 0))
        found = "the list of the repair gives another mesh";
    if (found == NULL && !counted(m, &list, r->report))
        found = "the list of the repair has not the lines that its report counts";
    sums->lists += list.length;
    free(list.text);
    free(points);
    free(faces);
    free(work);
    return found;
}

/* Meshes with one threshold that wait for a pack, and their repairs with all six options; and whether any was there already. */
enum { PACKED = 10, WAITING = THRESHOLDS };
typedef struct {
    Mesh meshes[PACKED];
    Rooms repairs[PACKED];
    size_t M;
    int begun;
} Waiting;

/* What one call gives of a pack, in rooms that are just large enough. */
typedef struct {
    double *points;
    uint32_t *faces, *report, *origins, *meshes;
    ShellPanel repaired;
} Pack;

/* Repairs the meshes that wait by one call. */
static Pack repair_pack(const Waiting *w) {
    size_t P = 0, F = 0, M = w->M;
    uint32_t point_counts[PACKED], face_counts[PACKED];
    for (size_t k = 0; k < M; k++) {
        P += point_counts[k] = (uint32_t)w->meshes[k].P;
        F += face_counts[k] = (uint32_t)w->meshes[k].F;
    }
    Pack p = {.points = room(SHELL_POINTS_ROOM(P, F), 8), .faces = room(SHELL_FACES_ROOM(F), 4), .report = room(SHELL_REPORTS_ROOM(M), 4)};
    p.origins = room(SHELL_ORIGINS_ROOM(F), 4);
    p.meshes = room(SHELL_MESHES_ROOM(M), 4);
    size_t most = shell_panel_work_room(point_counts, face_counts, M), point = 0, corner = 0;
    double *points = room(3 * P, 8);
    uint32_t *faces = room(3 * F, 4), *work = room(most, 4);
    for (const Mesh *m = w->meshes; m < w->meshes + M; point += 3 * m->P, corner += 3 * m->F, m++) {
        memcpy(points + point, m->points, 24 * m->P);
        memcpy(faces + corner, m->faces, 12 * m->F);
    }
    p.repaired = shell_repair_panel(points, 3 * P, faces, 3 * F, point_counts, M, face_counts, M, w->meshes[0].s, SHELL_ALL_OPTIONS, p.points,
                                    SHELL_POINTS_ROOM(P, F), p.faces, SHELL_FACES_ROOM(F), p.report, SHELL_REPORTS_ROOM(M), p.origins, SHELL_ORIGINS_ROOM(F),
                                    p.meshes, SHELL_MESHES_ROOM(M), work, most);
    free(points);
    free(faces);
    free(work);
    return p;
}

/* Frees the rooms of a pack. */
static void free_pack(Pack *p) {
    free(p->points);
    free(p->faces);
    free(p->report);
    free(p->origins);
    free(p->meshes);
}

/* The first mesh that waits whose part of the pack, found as shell.h says, is not what its own repair gave; M if there is none, and all has its part. */
static size_t other_part(const Waiting *w, const Pack *p) {
    const double *points = p->points;
    const uint32_t *faces = p->faces, *report = p->report, *origins = p->origins;
    for (size_t k = 0; k < w->M && p->repaired.number == SHELL_ACCEPTED; k++) {
        const Rooms *r = w->repairs + k;
        const uint32_t *four = p->meshes + 4 * k;
        size_t P = r->repaired.points / 3, F = r->repaired.faces / 3;
        if (four[0] != SHELL_ACCEPTED || four[1] != 0 || four[2] != P || four[3] != F || memcmp(points, r->points, 24 * P) != 0 ||
            memcmp(faces, r->faces, 12 * F) != 0 || memcmp(report, r->report, 4 * SHELL_REPORT_ROOM) != 0 || memcmp(origins, r->origins, 4 * F) != 0)
            return k;
        points += 3 * P;
        faces += 3 * F;
        report += SHELL_REPORT_ROOM;
        origins += F;
    }
    const ShellPanel *a = &p->repaired;
    int whole = a->number == SHELL_ACCEPTED && points == p->points + a->points && faces == p->faces + a->faces && report == p->report + a->counts &&
                origins == p->origins + a->origins && a->meshes == SHELL_MESHES_ROOM(w->M);
    return whole ? w->M : 0;
}

/* Repairs the meshes that wait by one call, and says whether each is what its own repair gave; then none waits. */
static int packs_as_one(Waiting *w, Sums *sums) {
    Pack p = repair_pack(w);
    size_t M = w->M, other = other_part(w, &p);
    if (other < M) {
        printf("chain: in a pack of %zu, mesh %zu is not what its own repair gives\n", M, other);
        print(w->meshes + other);
    }
    for (size_t k = 0; k < M; k++)
        free_rooms(w->repairs + k);
    free_pack(&p);
    sums->packs++;
    sums->packed += M;
    w->M = 0;
    return other == M;
}

/* Lets a mesh and its repair wait with those that have its threshold, until they are enough for a pack; whether that is as it must be. */
static int wait_for_pack(Waiting *all, const Mesh *m, const Rooms *r, Sums *sums) {
    Waiting *w = all;
    while (w->begun && w->meshes[0].s != m->s)
        w++;
    w->begun = 1;
    w->meshes[w->M] = *m;
    w->repairs[w->M++] = *r;
    return w->M < PACKED || packs_as_one(w, sums);
}

/* Repairs the mesh, and says what differs after it. */
static const char *chain(const Mesh *m, Waiting *waiting, Sums *sums) {
    Rooms r = repair(m, SHELL_ALL_OPTIONS);
    const char *found = fault(m, &r, sums);
    if (found == NULL)
        found = not_by_list(m, &r, SHELL_ALL_OPTIONS, sums);
    sums->loops += r.loops.loop_ends;
    sums->repeated += r.report[SHELL_REPEATED_REMOVED];
    sums->thin += r.report[SHELL_THIN_REMOVED];
    return wait_for_pack(waiting, m, &r, sums) || found != NULL ? found : "a pack that it is in is mended otherwise";
}

/* Whether the origins are 0 to F - 1. */
static int all_there(const Mesh *m, const Rooms *r) {
    for (uint32_t k = 0; k < m->F; k++)
        if (r->origins[k] != k)
            return 0;
    return r->repaired.origins == m->F;
}

/* Repairs the mesh with these options, and without those of them that drop a face, and says how its faces are not traced. */
static const char *otherwise(const Mesh *m, uint32_t some, Sums *sums) {
    static const uint32_t dropping = SHELL_DROP_DEGENERATE | SHELL_DROP_DUPLICATE_FACES | SHELL_RESOLVE_NONMANIFOLD_EDGES | SHELL_ORIENT_CONSISTENTLY;
    const uint32_t options[2] = {some, some & ~dropping};
    for (int k = 0; k < 2; k++) {
        Rooms r = repair(m, options[k]);
        const char *found = r.repaired.number == SHELL_ACCEPTED ? untraced(m, &r, options[k], sums) : "the repair refuses";
        if (found == NULL && k == 1 && !all_there(m, &r))
            found = "a face leaves though no pass drops one";
        if (found == NULL)
            found = not_by_list(m, &r, options[k], sums);
        free_rooms(&r);
        if (found != NULL) {
            printf("chain: with options %u\n", options[k]);
            return found;
        }
    }
    return NULL;
}

int main(int count, char **names) {
    if (count != 2) {
        fprintf(stderr, "usage: chain MESHES\n");
        return 2;
    }
    unsigned long meshes = strtoul(names[1], NULL, 10);
    static Waiting waiting[WAITING];
    Sums sums = {0};
    for (unsigned long k = 0; k < meshes; k++) {
        Mesh m = k < PLAIN ? plain(k) : damaged();
        const char *found = chain(&m, waiting, &sums);
        if (found == NULL)
            found = otherwise(&m, (uint32_t)(k % SHELL_ALL_OPTIONS), &sums);
        if (found == NULL)
            found = unmended(&m, &sums);
        if (found == NULL)
            found = there_and_back(m.points, m.P, m.faces, m.F, &sums);
        if (found != NULL) {
            printf("chain: mesh %lu: %s\n", k, found);
            print(&m);
            return 1;
        }
    }
    for (int k = 0; k < WAITING; k++)
        if (waiting[k].M > 0 && !packs_as_one(waiting + k, &sums))
            return 1;
    printf("chain: %lu meshes, %lu of them sound before the repair, %lu not sound for the fans at a point alone, %lu with edges but no loops; it removes %lu "
           "faces that repeat a corner and %lu thin ones; after it %lu boundary edges in %lu loops; %lu bytes of PLY files there and back; with these and "
           "other options %lu faces traced by their origins, %lu of them in another place of the list, %lu with corners exchanged, and %lu bytes of mending "
           "lists written and applied; %lu packs of %lu meshes, mended as alone\n",
           meshes, (unsigned long)sums.sound, (unsigned long)sums.tied, (unsigned long)sums.listed, (unsigned long)sums.repeated, (unsigned long)sums.thin,
           (unsigned long)sums.boundary, (unsigned long)sums.loops, (unsigned long)sums.bytes, (unsigned long)sums.traced, (unsigned long)sums.moved,
           (unsigned long)sums.turned, (unsigned long)sums.lists, (unsigned long)sums.packs, (unsigned long)sums.packed);
    return 0;
}
