/* Jogasmun's static library: calls on scanned shells. For C and C++.
 *
 * What the caller owes: each pointer is good for the number of entries that follows it, and aligned; NULL is allowed where that number is 0; rooms
 * do not overlap each other or the input, and nobody else writes to either during the call. Float arithmetic is as a C program starts: no other
 * rounding, no flushing to zero, no traps. Nothing else is asked: every call checks its own input.
 *
 * What the caller gets: `number` 0 and `place` 0 if the call is accepted, and then how many entries stand in each answer room. Each answer stands at
 * the front of its room, the rest of the stated room is zero, the work room is all zero up to what is stated, and entries beyond are unchanged.
 * Refused: `number` and `place`, the rest 0, and no room is changed. Rooms may be longer than stated.
 *
 * What a call takes: no memory but its rooms and the stack, of which it takes less than SHELL_STACK_FEW_FACES bytes for up to SHELL_FEW_FACES faces, in
 * shell_repair_panel in each mesh, in shell_apply only if there are no more than SHELL_FEW_POINTS points too, and less than SHELL_STACK for any mesh;
 * shell_list, where it must search, less than SHELL_LIST_STACK (measured, host/stack.c). It keeps nothing, so that calls may run at once in several threads on
 * rooms of their own. */
#ifndef JOGASMUN_SHELL_H
#define JOGASMUN_SHELL_H

#include <stddef.h>
#include <stdint.h>

#ifdef __cplusplus
extern "C" {
#endif

/* The edition of this header: a higher number where a call, a room, a report or the meaning of an answer is another, or a call is new, so that a program can
 * tell whether it was written for it. Edition 9 has one call more, shell_repair_panel; every other call is as in edition 8. Edition 8 has two calls more,
 * shell_list and shell_apply, and refusal 15; every other call is as in edition 7. In edition 7 shell_repair has a further room, for origins, between report
 * and work, and tells how many stand there: a short work room is SHELL_SHORT_ROOM at place 4, and was at place 3. An object file that was compiled against an
 * edition before that must not be linked where it calls shell_repair: it hands over other rooms, and takes another answer. The others are as in edition 6.
 * There the edge check says no to more meshes than in edition 5: to those too in which the faces at a point form several groups. Edition 5 has the three calls
 * for PLY files and refusals 13 and 14 beside what edition 3 has; there is no edition 4. So an object file that was compiled against edition 7 or 8 may be
 * linked, and one against edition 3, 5 or 6 where it does not call shell_repair. In edition 3 shell_edges lists the edges and shell_loops the boundary loops,
 * each in rooms of its own; in edition 2 shell_edges has the rooms and the answers of both. A report has eleven counts in each; where no edition is defined it
 * has ten, and a program for those that lends ten is refused, SHELL_SHORT_ROOM at place 2. An object file that was compiled against edition 2 or none must not
 * be linked. */
#define SHELL_VERSION 9

/* The numbers a call may give back, and what `place` then is. */
enum {
    SHELL_ACCEPTED = 0,
    SHELL_BAD_LENGTH = 1,    /* points or faces no multiple of 3, or not eleven counts: 0 points, 1 faces, 2 counts; of a pack, its rows: see there */
    SHELL_TOO_LARGE = 2,     /* points, faces or patches: 0, 1, 2; meshes: 0 */
    SHELL_BAD_SETTING = 3,   /* threshold or options: 0, 1 */
    SHELL_BAD_POINT = 4,     /* a coordinate outside its domain: the first such point; of an STL file, the first such corner, counted through the file */
    SHELL_BAD_CORNER = 5,    /* a corner that is no point, in a PLY file a negative one too: the first such face */
    SHELL_SHORT_ROOM = 6,    /* a room too short: its place in the call's list of rooms, from 0 */
    SHELL_CROWDED_EDGE = 7,  /* edge call and loop call: an edge that occurs more than twice: the position of the first such among the sorted unique edges */
    SHELL_BAD_BOUNDARY = 8,  /* loop call alone: the boundary is not simple: the lowest vertex at fault */
    SHELL_BAD_LABEL = 9,     /* a label that is neither SHELL_NO_PATCH nor a patch: the first such face */
    SHELL_LABEL_COUNT = 10,  /* as many labels as faces are wanted: 0 */
    SHELL_BAD_FILE = 12,     /* an STL file whose length is not 84 plus 50 times its count: 0 */
    SHELL_BAD_PLY = 13,      /* a PLY file whose header is not of the one form, or whose body is not 24 bytes a vertex and 13 a face: 0 */
    SHELL_NOT_A_TRIPLE = 14, /* a face of a PLY file that does not count three corners: the first such face */
    SHELL_BAD_LIST = 15      /* a mending list that does not apply: its first bad line, from 0 */
};

/* The largest sizes, and the label of a face in no patch. */
#define SHELL_MOST_POINTS 4194304u
#define SHELL_MOST_FACES 1048576u
#define SHELL_MOST_PATCHES 1048576u
#define SHELL_MOST_MESHES 256u
#define SHELL_NO_PATCH 4294967295u

/* The stack that a call takes, in bytes: below the first number up to so many faces, of a pack in each mesh, for shell_apply up to so many points too, below
 * the second for any mesh. So few faces have no more than 12,288 corners: there are more points than that only where some are used by no face. shell_list may
 * take more of many faces, less than the third, where it finds the length of a text by a search (see there); a thread with a shorter stack must lend rooms that
 * spare it that. */
#define SHELL_FEW_FACES 4096u
#define SHELL_FEW_POINTS 16384u
#define SHELL_STACK_FEW_FACES 65536u
#define SHELL_STACK 2097152u
#define SHELL_LIST_STACK 6291456u

/* Rooms in entries, for P points, F faces and C patches. */
#define SHELL_WORK_ROOM(P, F) (16 * (size_t)(P) + 64 * (size_t)(F) + 64)
#define SHELL_POINTS_ROOM(P, F) (3 * ((size_t)(P) + 3 * (size_t)(F)))
#define SHELL_FACES_ROOM(F) (3 * (size_t)(F))
#define SHELL_REPORT_ROOM ((size_t)11)
#define SHELL_ORIGINS_ROOM(F) ((size_t)(F))
#define SHELL_EDGES_ROOM(F) (6 * (size_t)(F))
#define SHELL_LENGTHS_ROOM(F) (3 * (size_t)(F))
#define SHELL_FACE_EDGES_ROOM(F) (3 * (size_t)(F))
#define SHELL_LOOP_VERTICES_ROOM(F) (3 * (size_t)(F))
#define SHELL_LOOP_ENDS_ROOM(F) (3 * (size_t)(F))
#define SHELL_FACE_COUNTS_ROOM(C) ((size_t)(C))
#define SHELL_NUMBERS_ROOM(C) (7 * (size_t)(C))
#define SHELL_FLAGS_ROOM(C) ((size_t)(C))
#define SHELL_PATCHES_WORK_ROOM(C) (4 * (size_t)(C))
#define SHELL_LINE_ROOM ((size_t)512)
#define SHELL_STL_POINTS_ROOM(F) (9 * (size_t)(F))
#define SHELL_STL_FACES_ROOM(F) (3 * (size_t)(F))
#define SHELL_STL_WORK_ROOM(F) (64 * (size_t)(F) + 64)
#define SHELL_PLY_POINTS_ROOM(P) (3 * (size_t)(P))
#define SHELL_PLY_FACES_ROOM(F) (3 * (size_t)(F))
#define SHELL_REPORTS_ROOM(M) (11 * (size_t)(M)) /* for M meshes */
#define SHELL_MESHES_ROOM(M) (4 * (size_t)(M))

/* Bytes that are enough for the PLY file of P points and F faces. The file itself has 170, the digits of both counts, 24 a point and 13 a face: at most 12 less
 * than this. */
#define SHELL_PLY_FILE_ROOM(P, F) (184 + 24 * (size_t)(P) + 13 * (size_t)(F))

/* Bytes that are enough for the mending list of any repair of P points and F faces. */
#define SHELL_LIST_ROOM(P, F) (10 * (size_t)(P) + 118 * (size_t)(F))

/* The options of a repair, added up. The passes run in this order, except that orient_consistently runs before split_bowtie_vertices. */
enum {
    SHELL_DROP_DEGENERATE = 1,           /* faces that repeat a corner, or are thin by the threshold s */
    SHELL_DROP_DUPLICATE_FACES = 2,      /* of faces with the same three corners the first stays */
    SHELL_RESOLVE_NONMANIFOLD_EDGES = 4, /* of three and more faces on an edge two stay */
    SHELL_SPLIT_BOWTIE_VERTICES = 8,     /* a point whose faces form several fans is copied */
    SHELL_ORIENT_CONSISTENTLY = 16,      /* neighbours walk their common edge in opposite directions, or leave */
    SHELL_DROP_ISOLATED_VERTICES = 32,   /* points that no face uses */
    SHELL_ALL_OPTIONS = 63
};

/* The places of a repair's report. A face repeats a corner if two of its three numbers are equal, wherever the points lie; it is then counted as repeated and
 * not as thin. It is thin by the threshold s if |e1 x e2| <= s |e1| |e2| for the steps e1 and e2 from its first corner to the others. */
enum {
    SHELL_REPEATED_REMOVED = 0,
    SHELL_THIN_REMOVED = 1,
    SHELL_DUPLICATE_FACES_REMOVED = 2,
    SHELL_NONMANIFOLD_EDGES = 3,
    SHELL_FACES_DROPPED_AT_NONMANIFOLD = 4,
    SHELL_FACES_DROPPED_FOR_ORIENTATION = 5,
    SHELL_BOWTIE_VERTICES_SPLIT = 6,
    SHELL_POINTS_ADDED_BY_SPLITTING = 7,
    SHELL_FACES_REORIENTED = 8,
    SHELL_NONORIENTABLE_COMPONENTS = 9,
    SHELL_ISOLATED_VERTICES_REMOVED = 10
};

/* The repair, for a degeneracy threshold 0 <= s <= 1 and options: the mended points, the mended faces, the eleven counts of the report, and the origins. With
 * all options the edge check says yes to what comes out, and the edge call and the loop call accept it: no face repeats a corner, no directed edge is walked
 * twice, and the faces at each point are one fan. What comes out may have up to P + 3F points.
 *
 * Face k of the output is face origins[k] of the scan, both counted from 0, whatever the options are:
 *
 *     for (size_t k = 0; k < repaired.origins; k++)
 *         touch[k] = touch_of_scan[origins[k]];
 *
 * There is one origin for each face of the output, so `origins` is `faces` / 3; only that number says where the list ends, since 0 is an origin too and the
 * rest of the room is zero. Origins rise strictly, so that no face of the scan is named twice. The named face has its corners in the same places, bit by bit;
 * at most its last two corners are exchanged, and an exchange keeps the origin. The numbers of the corners may be others, where points are copied or leave.
 *
 * A face before the first that leaves or changes is stored once in its room, and an origin before the first face that leaves likewise (counted,
 * host/stores.c). Rooms, in this order: SHELL_POINTS_ROOM(P, F), SHELL_FACES_ROOM(F), SHELL_REPORT_ROOM, SHELL_ORIGINS_ROOM(F), SHELL_WORK_ROOM(P, F). */
typedef struct {
    uint32_t number, place;
    uint64_t points, faces, counts, origins;
} ShellRepaired;

ShellRepaired shell_repair(const double *points, size_t points_len, const uint32_t *faces, size_t faces_len, double s, uint32_t options,
                           double *out_points, size_t out_points_len, uint32_t *out_faces, size_t out_faces_len, uint32_t *report, size_t report_len,
                           uint32_t *origins, size_t origins_len, uint32_t *work, size_t work_len);

/* The repair of many meshes in one call, at most SHELL_MOST_MESHES. They are packed one after another: the points of all in one list, the faces in another, the
 * corners of each mesh counted from 0; mesh k has point_counts[k] points, three numbers each, and face_counts[k] faces. One threshold and one set of options
 * serve all.
 *
 * Each mesh is mended or refused as shell_repair would by itself, and a refused one stops no other. Four entries a mesh stand in the meshes room: the number
 * (0 if it is accepted), the place, and how many points and faces it has now; of a refused mesh the last two are 0. By itself a mesh is refused only
 * SHELL_TOO_LARGE, SHELL_BAD_POINT or SHELL_BAD_CORNER. The points, the faces, the eleven counts and the origins of those that are accepted are packed in
 * order, without gaps; a refused mesh has no part there, nor eleven counts. Corners and origins count from 0 in each mesh:
 *
 *     const double *its_points = out_points;
 *     const uint32_t *its_faces = out_faces, *its_counts = report, *its_origins = origins;
 *     for (size_t k = 0; k < M; k++)
 *         if (meshes[4 * k] == SHELL_ACCEPTED) {
 *             use(its_points, its_faces, its_counts, its_origins);
 *             its_points += 3 * (size_t)meshes[4 * k + 2], its_faces += 3 * (size_t)meshes[4 * k + 3], its_counts += 11, its_origins += meshes[4 * k + 3];
 *         }
 *
 * The answer's own `number` and `place` speak of the whole call, which is refused, in this order: SHELL_BAD_LENGTH where the rows differ in length (place 0),
 * the point counts, times 3, do not add up to points_len (0), or the face counts to faces_len (1); SHELL_TOO_LARGE for too many meshes (0); SHELL_BAD_SETTING;
 * SHELL_SHORT_ROOM. It is accepted even where every mesh is refused. `points`, `faces`, `counts`, `origins` and `meshes` are entries.
 *
 * Rooms, in this order, for P points and F faces of all M meshes together, refused ones too: SHELL_POINTS_ROOM(P, F), SHELL_FACES_ROOM(F),
 * SHELL_REPORTS_ROOM(M), SHELL_ORIGINS_ROOM(F), SHELL_MESHES_ROOM(M), and for work shell_panel_work_room of the rows, which is the largest SHELL_WORK_ROOM of
 * a mesh, and 0 where there is none. */
typedef struct {
    uint32_t number, place;
    uint64_t points, faces, counts, origins, meshes;
} ShellPanel;

ShellPanel shell_repair_panel(const double *points, size_t points_len, const uint32_t *faces, size_t faces_len, const uint32_t *point_counts,
                              size_t point_counts_len, const uint32_t *face_counts, size_t face_counts_len, double s, uint32_t options, double *out_points,
                              size_t out_points_len, uint32_t *out_faces, size_t out_faces_len, uint32_t *report, size_t report_len, uint32_t *origins,
                              size_t origins_len, uint32_t *meshes, size_t meshes_len, uint32_t *work, size_t work_len);

static inline size_t shell_panel_work_room(const uint32_t *point_counts, const uint32_t *face_counts, size_t meshes) {
    size_t largest = 0;
    for (size_t k = 0; k < meshes; k++)
        if (largest < SHELL_WORK_ROOM(point_counts[k], face_counts[k]))
            largest = SHELL_WORK_ROOM(point_counts[k], face_counts[k]);
    return largest;
}

/* The edge call. Edges: two ends each, the lower first, sorted; lengths: one for each edge; face edges: for each face the positions of its edges (1,2),
 * (2,0), (0,1) among them. The boundary does not matter: bowties too are accepted. Rooms, in this order: SHELL_EDGES_ROOM(F), SHELL_LENGTHS_ROOM(F),
 * SHELL_FACE_EDGES_ROOM(F), SHELL_WORK_ROOM(P, F). A work room of zeros, as every accepted call leaves it, is served fastest. */
typedef struct {
    uint32_t number, place;
    uint64_t edges, lengths, face_edges;
} ShellEdges;

ShellEdges shell_edges(const double *points, size_t points_len, const uint32_t *faces, size_t faces_len, uint32_t *edges, size_t edges_len, double *lengths,
                       size_t lengths_len, uint32_t *face_edges, size_t face_edges_len, uint32_t *work, size_t work_len);

/* The loop call, from the same points and faces. Loop vertices: each boundary loop against its walk; loop ends: where each loop ends, as running totals. A
 * boundary edge occurs once. The boundary must be simple: each vertex begins as many boundary edges as it ends, none or one. The points are checked as in
 * every call, though the loops do not depend on where they lie. Rooms, in this order: SHELL_LOOP_VERTICES_ROOM(F), SHELL_LOOP_ENDS_ROOM(F),
 * SHELL_WORK_ROOM(P, F). A work room of zeros is served fastest here too. */
typedef struct {
    uint32_t number, place;
    uint64_t loop_vertices, loop_ends;
} ShellLoops;

ShellLoops shell_loops(const double *points, size_t points_len, const uint32_t *faces, size_t faces_len, uint32_t *loop_vertices, size_t loop_vertices_len,
                       uint32_t *loop_ends, size_t loop_ends_len, uint32_t *work, size_t work_len);

/* The edge check: `yes` is 1 exactly when no face repeats a corner, every directed edge is used at most once, and the faces at each used point form one
 * group. Two faces at a point are joined if they share another corner, and a group is what is joined one to the next; so two cones that share their tip alone
 * get a no. Unused points do not matter. What it says yes to is not refused SHELL_CROWDED_EDGE or SHELL_BAD_BOUNDARY by the edge call or the loop call. Room:
 * SHELL_WORK_ROOM(P, F). */
typedef struct {
    uint32_t number, place;
    uint64_t yes;
} ShellCheck;

ShellCheck shell_check(uint64_t point_count, const uint32_t *faces, size_t faces_len, uint32_t *work, size_t work_len);

/* The bits that set the filter's limits. */
enum { SHELL_MIN_FACES = 1, SHELL_MIN_AREA = 2, SHELL_MIN_AABB_DIAGONAL = 4, SHELL_MIN_AREA_FRACTION = 8, SHELL_KEEP_LARGEST_N = 16 };

/* The patch call, from a label for each face: face counts, seven numbers a patch (area, min x y z, max x y z), and the flag 1 for each patch that the
 * filter keeps. `limits` is the sum of the bits of the limits that count; other bits say nothing, and with 0 every patch is kept. A patch is dropped
 * where its value is below the limit; keep_largest_n ranks all patches by area, ties by index. Rooms, in this order: SHELL_FACE_COUNTS_ROOM(C),
 * SHELL_NUMBERS_ROOM(C), SHELL_FLAGS_ROOM(C), SHELL_PATCHES_WORK_ROOM(C). A place beyond 32 bits, in a list of more labels than that, is told as
 * 4294967295. */
typedef struct {
    uint32_t number, place;
    uint64_t face_counts, numbers, flags;
} ShellPatches;

ShellPatches shell_patches(const double *points, size_t points_len, const uint32_t *faces, size_t faces_len, const uint32_t *labels, size_t labels_len,
                           uint64_t patch_count, uint32_t limits, uint64_t min_faces, double min_area, double min_aabb_diagonal,
                           double min_area_fraction, uint64_t keep_largest_n, uint32_t *face_counts, size_t face_counts_len, double *numbers,
                           size_t numbers_len, uint32_t *flags, size_t flags_len, uint32_t *work, size_t work_len);

/* The report line of eleven counts, `bytes` long and not ended by a zero of its own. Of the first two it has the sum, as degenerate faces; the sum is exact,
 * also where it has 33 bits. Room: SHELL_LINE_ROOM. */
typedef struct {
    uint32_t number, place;
    uint64_t bytes;
} ShellLine;

ShellLine shell_line(const uint32_t *counts, size_t counts_len, uint8_t *line, size_t line_len);

/* Reads a binary STL file in memory: 80 header bytes, a little-endian u32 facet count F, then 50 bytes a facet. Corners equal as numbers become one point,
 * numbered by first appearance, with the bits that appear first; coordinates are widened exactly, normals and attribute bytes skipped. `points` and
 * `faces` are entries, 3 a point and 3 a facet. Rooms, in this order: SHELL_STL_POINTS_ROOM(F), SHELL_STL_FACES_ROOM(F), SHELL_STL_WORK_ROOM(F). F stands
 * at byte 80 of the file. */
typedef struct {
    uint32_t number, place;
    uint64_t points, faces;
} ShellStl;

ShellStl shell_read_stl(const uint8_t *file, size_t file_len, double *points, size_t points_len, uint32_t *faces, size_t faces_len, uint32_t *work,
                        size_t work_len);

/* PLY files in memory, of one form: binary little-endian 1.0 with these nine lines in front, each ended by one newline (byte 10), P and F plain decimal numbers
 * without leading zeros,
 *
 *     ply
 *     format binary_little_endian 1.0
 *     element vertex P
 *     property double x
 *     property double y
 *     property double z
 *     element face F
 *     property list uchar int vertex_indices
 *     end_header
 *
 * then 24 bytes a vertex, its three coordinates, and 13 a face, a 3 and its three corners, and nothing behind. Any other header or length is refused,
 * SHELL_BAD_PLY: comments, other names of the types, blanks and carriage returns too. What is written and then read has the same bits, -0 too; what is read and
 * then written is the same file, byte for byte. */

/* How many vertices and faces a PLY file has, so that rooms for it can be made. Only header and length are looked at: it refuses SHELL_BAD_PLY and
 * SHELL_TOO_LARGE, as shell_read_ply does, and nothing else. `points` is P and `faces` F. It has no rooms. */
typedef struct {
    uint32_t number, place;
    uint64_t points, faces;
} ShellPlyCounts;

ShellPlyCounts shell_ply_counts(const uint8_t *file, size_t file_len);

/* Reads a PLY file of that form. `points` and `faces` are entries, 3P and 3F. It refuses, in this order: SHELL_BAD_PLY, SHELL_TOO_LARGE, SHELL_NOT_A_TRIPLE,
 * SHELL_BAD_POINT, SHELL_BAD_CORNER, SHELL_SHORT_ROOM. Rooms, in this order: SHELL_PLY_POINTS_ROOM(P), SHELL_PLY_FACES_ROOM(F), SHELL_WORK_ROOM(P, F). */
typedef struct {
    uint32_t number, place;
    uint64_t points, faces;
} ShellPly;

ShellPly shell_read_ply(const uint8_t *file, size_t file_len, double *points, size_t points_len, uint32_t *faces, size_t faces_len, uint32_t *work,
                        size_t work_len);

/* Writes a PLY file of that form from any points and triples that the other calls accept, `bytes` long. It refuses, in this order: SHELL_BAD_LENGTH,
 * SHELL_TOO_LARGE, SHELL_BAD_POINT, SHELL_BAD_CORNER, SHELL_SHORT_ROOM. Rooms, in this order: the file, as long as what is written, for which
 * SHELL_PLY_FILE_ROOM(P, F) is enough, and SHELL_WORK_ROOM(P, F). Bytes of the file's room behind what is written are unchanged. */
typedef struct {
    uint32_t number, place;
    uint64_t bytes;
} ShellPlyFile;

ShellPlyFile shell_write_ply(const double *points, size_t points_len, const uint32_t *faces, size_t faces_len, uint8_t *file, size_t file_len, uint32_t *work,
                             size_t work_len);

/* A mending list says what was done to a shell, one line a change; `text` is its bytes. The fields of a line are parted by one tab (byte 9), and every line,
 * the last one too, is ended by one newline (byte 10); numbers are plain decimal ones of 32 bits without leading zeros. The empty text is a list of no lines.
 *
 *     d FACE PASS REASON         the face is dropped; pass and reason are 1 repeated, 1 thin, 2 duplicate, 3 edge or 4 direction
 *     o FACE                     corners 1 and 2 of the face are exchanged
 *     s OLD NEW FACE..           a copy of point OLD becomes point NEW, and takes its place in these faces, which rise, each named once; perhaps none
 *     u POINT                    the point is isolated, and leaves
 *
 * A face is named by its number in the input, also behind faces that were dropped; a point by the number that it has then: new points are P, P + 1 and so on,
 * and points that leave do so together, behind the last line. Lines follow the passes: d of pass 1, of pass 2, of pass 3, then o, d of pass 4, s, u; among
 * those of one kind the first number rises strictly, among s lines the first and then the second. */

/* Writes the mending list of the repair that shell_repair makes of the same points, faces, threshold and options; `bytes` is how long it is. shell_apply makes
 * of it what that repair gives, bit by bit. It has as many lines of each kind as the report counts, none of a pass that is off, and none at all where nothing
 * changes. It refuses, in this order: SHELL_BAD_LENGTH, SHELL_TOO_LARGE, SHELL_BAD_SETTING, SHELL_BAD_POINT, SHELL_BAD_CORNER, SHELL_SHORT_ROOM. Rooms, in this
 * order: the text, as long as what is written, for which SHELL_LIST_ROOM(P, F) is always enough, and SHELL_WORK_ROOM(P, F). A text that does not fit is told
 * even where the work room is too short as well. Bytes of the text's room behind what is written are unchanged.
 *
 * What it costs: whether the text fits is found out before anything is written. The time grows with the mesh and no faster where the text's room has
 * SHELL_LIST_ROOM(P, F) bytes, so that it fits in any case; or where the work room is long enough and what is stated of it is all one number, as zeros are,
 * and as every accepted call leaves it, so that it can be worked in and put back. So lend one of these. Otherwise, where the text's room is shorter and the
 * work room is short or holds several numbers, the length is found by a search that has no lent memory: for a scan of 10,000 faces that takes about a third of
 * a second, of 100,000 a quarter of a minute, growing with the square of the faces, and longer where many share an edge; a call refused for its text takes as
 * long. */
typedef struct {
    uint32_t number, place;
    uint64_t bytes;
} ShellList;

/* The same with the work room in three parts, of which each is lent by itself: the first 3F entries, the next F, and the rest. shell_list parts it. */
ShellList shell_list_in_parts(const double *points, size_t points_len, const uint32_t *faces, size_t faces_len, double s, uint32_t options, uint8_t *text,
                              size_t text_len, uint32_t *corners, size_t corners_len, uint32_t *origins, size_t origins_len, uint32_t *rest, size_t rest_len);

static inline ShellList shell_list(const double *points, size_t points_len, const uint32_t *faces, size_t faces_len, double s, uint32_t options, uint8_t *text,
                                   size_t text_len, uint32_t *work, size_t work_len) {
    size_t F = faces_len / 3, corners_len = 3 * F < work_len ? 3 * F : work_len, left = work_len - corners_len, origins_len = F < left ? F : left;
    uint32_t *origins = work_len == 0 ? work : work + corners_len, *rest = work_len == 0 ? work : origins + origins_len;
    return shell_list_in_parts(points, points_len, faces, faces_len, s, options, text, text_len, work, corners_len, origins, origins_len, rest,
                               left - origins_len);
}

/* Applies a mending list to points and faces, and gives the mended points and faces: of the list of a repair what the repair gives, bit by bit. `points` and
 * `faces` are entries. A list from which lines were struck may be applied too. A line is bad where its form or its order is wrong, or it names a face that is
 * absent or was dropped by a line before it, an old point that is not below P, a new point that is not the next, a face that does not have the old point then,
 * or a `u` point that is absent or used; and an s line is bad behind 3F of them. Whether a reason is true is not asked. It refuses, in this order:
 * SHELL_BAD_LENGTH, SHELL_TOO_LARGE, SHELL_BAD_POINT, SHELL_BAD_CORNER, SHELL_BAD_LIST at the first bad line, and only then SHELL_SHORT_ROOM: a bad list is
 * told without any room. Rooms, in this order: SHELL_POINTS_ROOM(P, F), SHELL_FACES_ROOM(F), SHELL_WORK_ROOM(P, F). */
typedef struct {
    uint32_t number, place;
    uint64_t points, faces;
} ShellApplied;

ShellApplied shell_apply(const double *points, size_t points_len, const uint32_t *faces, size_t faces_len, const uint8_t *text, size_t text_len,
                         double *out_points, size_t out_points_len, uint32_t *out_faces, size_t out_faces_len, uint32_t *work, size_t work_len);

#ifdef __cplusplus
}
#endif

#endif
