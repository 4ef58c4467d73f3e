/* The panel builder's way to call the library: mend a shell, say what was done and which face of the scan its last face is, check it, list its edges and its
 * boundary, write it as a PLY file for the layout program and read it back, mend one by a list that a technician went through, mend a keyboard of three keys in
 * one call, and sort its patches. Shells that are not mended are checked too, and their edges listed: of one the loops are refused, and of one, two bodies that
 * share a tip, only the check says that it is not sound. */
#include "shell.h"
#include <stdio.h>
#include <string.h>

/* The calls, their rooms and the places of a report are those of the header's edition. */
#if SHELL_VERSION != 9
#error "written for edition 9 of shell.h"
#endif

/* Rooms for shells of up to 7 points and 8 faces. A repair may add 3 points a face, so the calls after it want a work room for that many. */
enum { P = 7, F = 8, MOST = P + 3 * F };
static double mended[SHELL_POINTS_ROOM(P, F)], lengths[SHELL_LENGTHS_ROOM(F)];
static uint32_t triples[SHELL_FACES_ROOM(F)], report[SHELL_REPORT_ROOM], origins[SHELL_ORIGINS_ROOM(F)], work[SHELL_WORK_ROOM(MOST, F)];
static uint32_t edges[SHELL_EDGES_ROOM(F)], face_edges[SHELL_FACE_EDGES_ROOM(F)], loop_vertices[SHELL_LOOP_VERTICES_ROOM(F)], loop_ends[SHELL_LOOP_ENDS_ROOM(F)];
static uint8_t file[SHELL_PLY_FILE_ROOM(MOST, F)], mending[SHELL_LIST_ROOM(P, F)];
static double read_points[SHELL_PLY_POINTS_ROOM(MOST)];
static uint32_t read_faces[SHELL_PLY_FACES_ROOM(F)];
#define ROOM(room) room, sizeof room / sizeof *room

static int refused(const char *call, uint32_t number, uint32_t place) {
    printf("%s: refused %u at %u\n", call, number, place);
    return 1;
}

/* Says whether a shell is sound, so that a finger can be followed across its edges and around its points; it must be so or not. */
static int check(size_t point_count, const uint32_t *faces, size_t faces_len, int must) {
    ShellCheck sound = shell_check(point_count, faces, faces_len, ROOM(work));
    if (sound.number != SHELL_ACCEPTED)
        return refused("check", sound.number, sound.place);
    printf("  sound: %s\n", sound.yes ? "yes" : "no");
    return sound.yes != (uint64_t)must;
}

/* Edges with their lengths. */
static int list_edges(const double *points, size_t points_len, const uint32_t *faces, size_t faces_len) {
    ShellEdges found = shell_edges(points, points_len, faces, faces_len, ROOM(edges), ROOM(lengths), ROOM(face_edges), ROOM(work));
    if (found.number != SHELL_ACCEPTED)
        return refused("edges", found.number, found.place);
    printf("  edges");
    for (size_t i = 0; i < found.lengths; i++)
        printf("%s %u-%u %.3f", i == 0 ? "" : ",", edges[2 * i], edges[2 * i + 1], lengths[i]);
    printf("\n");
    return 0;
}

/* The boundary loops, each against its walk; or at which vertex the boundary is not simple, so that it has none. */
static int list_loops(const double *points, size_t points_len, const uint32_t *faces, size_t faces_len) {
    ShellLoops found = shell_loops(points, points_len, faces, faces_len, ROOM(loop_vertices), ROOM(loop_ends), ROOM(work));
    if (found.number == SHELL_BAD_BOUNDARY) {
        printf("  no loops: the boundary is not simple at vertex %u\n", found.place);
        return 0;
    }
    if (found.number != SHELL_ACCEPTED)
        return refused("loops", found.number, found.place);
    for (size_t i = 0, k = 0; i < found.loop_ends; i++) {
        printf("  loop");
        for (; k < loop_ends[i]; k++)
            printf(" %u", loop_vertices[k]);
        printf("\n");
    }
    return 0;
}

/* Edges and loops of a shell, mended or not. */
static int list(const double *points, size_t points_len, const uint32_t *faces, size_t faces_len) {
    return list_edges(points, points_len, faces, faces_len) || list_loops(points, points_len, faces, faces_len);
}

/* A shell as it is scanned, which is not sound: its lengths are wanted, also where its boundary is not simple. */
static int measure(const char *name, const double *points, size_t points_len, const uint32_t *faces, size_t faces_len) {
    printf("%s, not mended\n", name);
    return check(points_len / 3, faces, faces_len, 0) || list(points, points_len, faces, faces_len);
}

/* A shell as a PLY file and back. A program that does not know the file asks for its counts first, and makes rooms of 3 times as many entries. */
static int there_and_back(const double *points, size_t points_len, const uint32_t *faces, size_t faces_len) {
    ShellPlyFile written = shell_write_ply(points, points_len, faces, faces_len, ROOM(file), ROOM(work));
    if (written.number != SHELL_ACCEPTED)
        return refused("write", written.number, written.place);
    ShellPlyCounts counts = shell_ply_counts(file, written.bytes);
    if (counts.number != SHELL_ACCEPTED)
        return refused("counts", counts.number, counts.place);
    ShellPly found = shell_read_ply(file, written.bytes, read_points, SHELL_PLY_POINTS_ROOM(counts.points), read_faces, SHELL_PLY_FACES_ROOM(counts.faces),
                                    ROOM(work));
    if (found.number != SHELL_ACCEPTED)
        return refused("read", found.number, found.place);
    int same = found.points == points_len && found.faces == faces_len && memcmp(read_points, points, sizeof *points * points_len) == 0 &&
               memcmp(read_faces, faces, sizeof *faces * faces_len) == 0;
    printf("  PLY: %u bytes, read back as %s bits\n", (unsigned)written.bytes, same ? "the same" : "other");
    return !same;
}

/* Where a face of the output comes from: touch tables are built on the scan, and face k of the output is face origins[k] of it. */
static void print_origin(size_t k) {
    printf("  face %zu is face %u of the scan\n", k, origins[k]);
}

/* A repair with every pass, its report as a line, the origin of its last face, and the calls that want a mended shell. */
static int mend(const char *name, const double *points, size_t points_len, const uint32_t *faces, size_t faces_len) {
    ShellRepaired repaired = shell_repair(points, points_len, faces, faces_len, 1e-12, SHELL_ALL_OPTIONS, ROOM(mended), ROOM(triples), ROOM(report),
                                          ROOM(origins), ROOM(work));
    if (repaired.number != SHELL_ACCEPTED)
        return refused("repair", repaired.number, repaired.place);
    printf("%s: %u points, %u faces\n  faces", name, (unsigned)repaired.points / 3, (unsigned)repaired.faces / 3);
    for (size_t i = 0; i < repaired.faces; i++)
        printf("%s %u", i % 3 == 0 && i > 0 ? "," : "", triples[i]);

    uint8_t line[SHELL_LINE_ROOM];
    ShellLine written = shell_line(ROOM(report), ROOM(line));
    if (written.number != SHELL_ACCEPTED)
        return refused("line", written.number, written.place);
    printf("\n  %.*s\n", (int)written.bytes, (const char *)line);
    if (report[SHELL_REPEATED_REMOVED] + report[SHELL_THIN_REMOVED] > 0)
        printf("  of the degenerate faces %u repeat a corner, %u are thin\n", report[SHELL_REPEATED_REMOVED], report[SHELL_THIN_REMOVED]);
    if (repaired.origins > 0)
        print_origin(repaired.origins - 1);

    return check(repaired.points / 3, triples, repaired.faces, 1) || list(mended, repaired.points, triples, repaired.faces) ||
           there_and_back(mended, repaired.points, triples, repaired.faces);
}

/* A shell mended by a list: a line for each change, some of which may have been struck. Which line does not apply is told, from 0. */
static int apply(const char *what, const uint8_t *list, size_t list_len, const double *points, size_t points_len, const uint32_t *faces, size_t faces_len) {
    ShellApplied applied = shell_apply(points, points_len, faces, faces_len, list, list_len, ROOM(mended), ROOM(triples), ROOM(work));
    if (applied.number == SHELL_BAD_LIST) {
        printf("%s: line %u does not apply\n", what, applied.place);
        return 0;
    }
    if (applied.number != SHELL_ACCEPTED)
        return refused("apply", applied.number, applied.place);
    printf("%s: %u points, %u faces\n  faces", what, (unsigned)applied.points / 3, (unsigned)applied.faces / 3);
    for (size_t i = 0; i < applied.faces; i++)
        printf("%s %u", i % 3 == 0 && i > 0 ? "," : "", triples[i]);
    printf("\n");
    return 0;
}

/* What a repair does to a shell, written as a list and applied: the whole of it, without its second line, and without its first. */
static int list_and_apply(const double *points, size_t points_len, const uint32_t *faces, size_t faces_len) {
    static uint8_t struck[sizeof mending];
    ShellList written = shell_list(points, points_len, faces, faces_len, 1e-12, SHELL_ALL_OPTIONS, ROOM(mending), ROOM(work));
    if (written.number != SHELL_ACCEPTED)
        return refused("list", written.number, written.place);
    printf("three faces on an edge, what a repair does\n%.*s", (int)written.bytes, (const char *)mending);
    size_t bytes = (size_t)written.bytes, first = (size_t)((uint8_t *)memchr(mending, '\n', bytes) + 1 - mending);
    size_t second = (size_t)((uint8_t *)memchr(mending + first, '\n', bytes - first) + 1 - mending);
    memcpy(struck, mending, first);
    memcpy(struck + first, mending + second, bytes - second);
    return apply("by that list", mending, bytes, points, points_len, faces, faces_len) ||
           apply("with one line struck", struck, bytes - (second - first), points, points_len, faces, faces_len) ||
           apply("with another struck", mending + first, bytes - first, points, points_len, faces, faces_len);
}

/* One key of a keyboard: its faces, whose corners count from 0 in each key, and its report as a line; or why it is refused. */
static int print_key(size_t k, const uint32_t *four, const uint32_t *its_faces, const uint32_t *its_counts) {
    uint8_t line[SHELL_LINE_ROOM];
    if (four[0] != SHELL_ACCEPTED) {
        printf("  key %zu: refused %u at %u\n", k, four[0], four[1]);
        return 0;
    }
    ShellLine written = shell_line(its_counts, SHELL_REPORT_ROOM, ROOM(line));
    if (written.number != SHELL_ACCEPTED)
        return refused("line", written.number, written.place);
    printf("  key %zu: %u points, faces", k, four[2]);
    for (size_t i = 0; i < 3 * (size_t)four[3]; i++)
        printf("%s %u", i % 3 == 0 && i > 0 ? "," : "", its_faces[i]);
    printf("; %.*s\n", (int)written.bytes, (const char *)line);
    return 0;
}

/* A keyboard in one call: the points and the faces of its keys one after another, and how many each key has. A key that is refused, here for a corner that is
 * none of its points, stops no other, and has no part in what comes out; its place in the row says which key it is. */
static int keyboard(void) {
    enum { M = 3, POINTS = 5 + 3 + 5, FACES = 2 + 1 + 3 };
    const double points[] = {0, 0, 0, 1, 0, 0, 0, 1, 0, -1, 0, 0, 0, -1, 0, 0, 0, 0, 1, 0, 0, 0, 1, 0, 0, 0, 0, 1, 0, 0, 0, 1, 0, 0, -1, 0, 0, 0, 1};
    const uint32_t faces[] = {0, 1, 2, 0, 3, 4, 0, 1, 3, 0, 1, 2, 0, 1, 3, 0, 1, 4}, point_counts[M] = {5, 3, 5}, face_counts[M] = {2, 1, 3};
    static double key_points[SHELL_POINTS_ROOM(POINTS, FACES)];
    static uint32_t key_faces[SHELL_FACES_ROOM(FACES)], key_origins[SHELL_ORIGINS_ROOM(FACES)], counts[SHELL_REPORTS_ROOM(M)], meshes[SHELL_MESHES_ROOM(M)];
    ShellPanel keys = shell_repair_panel(ROOM(points), ROOM(faces), ROOM(point_counts), ROOM(face_counts), 1e-12, SHELL_ALL_OPTIONS, ROOM(key_points),
                                         ROOM(key_faces), ROOM(counts), ROOM(key_origins), ROOM(meshes), ROOM(work));
    if (keys.number != SHELL_ACCEPTED)
        return refused("keyboard", keys.number, keys.place);
    printf("keyboard of %d keys\n", M);
    const uint32_t *its_faces = key_faces, *its_counts = counts;
    for (size_t k = 0; k < M; k++) {
        if (print_key(k, meshes + 4 * k, its_faces, its_counts))
            return 1;
        if (meshes[4 * k] == SHELL_ACCEPTED) {
            its_faces += 3 * (size_t)meshes[4 * k + 3];
            its_counts += SHELL_REPORT_ROOM;
        }
    }
    printf("  %u keys mended: %u points, %u faces\n", (unsigned)(keys.counts / SHELL_REPORT_ROOM), (unsigned)keys.points / 3, (unsigned)keys.faces / 3);
    return 0;
}

/* Two patches of two faces, a square of side 1 and one of side 3: which of them is the part, by area? */
static int patches(void) {
    const double points[] = {0, 0, 0, 1, 0, 0, 1, 1, 0, 0, 1, 0, 5, 0, 0, 8, 0, 0, 8, 3, 0, 5, 3, 0};
    const uint32_t faces[] = {0, 1, 2, 0, 2, 3, 4, 5, 6, 4, 6, 7}, labels[] = {0, 0, 1, 1};
    uint32_t face_counts[SHELL_FACE_COUNTS_ROOM(2)], flags[SHELL_FLAGS_ROOM(2)], patch_work[SHELL_PATCHES_WORK_ROOM(2)];
    double numbers[SHELL_NUMBERS_ROOM(2)];
    ShellPatches found = shell_patches(ROOM(points), ROOM(faces), ROOM(labels), 2, SHELL_KEEP_LARGEST_N, 0, 0, 0, 0, 1, ROOM(face_counts), ROOM(numbers),
                                       ROOM(flags), ROOM(patch_work));
    if (found.number != SHELL_ACCEPTED)
        return refused("patches", found.number, found.place);
    for (size_t k = 0; k < found.flags; k++)
        printf("patch %zu: %u faces, area %g, %s\n", k, face_counts[k], numbers[7 * k], flags[k] ? "kept" : "dropped");
    return 0;
}

int main(void) {
    const double cross[] = {0, 0, 0, 1, 0, 0, 0, 1, 0, -1, 0, 0, 0, -1, 0}, legs[] = {0, 0, 0, 1, 0, 0, 0, 1, 0, 0, -1, 0, 0, 0, 1},
                 cube[] = {0, 0, 0, 1, 0, 0, 0, 1, 0, 0, 0, 1, 1, 1, 1}, row[] = {0, 0, 0, 1, 0, 0, 2, 0, 0, 3, 0, 0, 0, 1, 0},
                 tips[] = {0, 0, 0, 1, 0, 1, 0, 1, 1, -1, -1, 1, 1, 0, -1, 0, 1, -1, -1, -1, -1};
    const uint32_t bowtie[] = {0, 1, 2, 0, 3, 4}, crowded[] = {0, 1, 2, 0, 1, 3, 0, 1, 4}, moebius[] = {0, 1, 2, 1, 2, 3, 2, 3, 4, 3, 4, 0, 4, 0, 1},
                   crumbs[] = {0, 0, 1, 0, 1, 2, 0, 2, 3, 0, 1, 4, 1, 2, 3},
                   hourglass[] = {0, 2, 1, 0, 1, 3, 1, 2, 3, 2, 0, 3, 0, 4, 5, 0, 6, 4, 4, 6, 5, 5, 6, 0};
    return mend("bowtie", ROOM(cross), ROOM(bowtie)) || mend("three faces on an edge", ROOM(legs), ROOM(crowded)) ||
           mend("Moebius strip", ROOM(cube), ROOM(moebius)) || mend("crumbs", ROOM(row), ROOM(crumbs)) || measure("bowtie", ROOM(cross), ROOM(bowtie)) ||
           measure("hourglass", ROOM(tips), ROOM(hourglass)) || mend("hourglass", ROOM(tips), ROOM(hourglass)) ||
           list_and_apply(ROOM(legs), ROOM(crowded)) || keyboard() || patches();
}
