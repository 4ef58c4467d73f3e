/* A fuzz target: bytes become an input of one of the calls and rooms for it; one of the edge call is asked of the loop call too. Number, place, counts and
 * every entry of every room must be those of the documents (document.c, passes.c, ply.c); the origins of every repair must rise and name faces that stand where
 * those of the output do; of what a repair with all six options gives, demand 3 must hold and the check say yes; what the check says yes to, the edge call and
 * the loop call must accept; a PLY file that is written must be read as what was written, and one that is read be written again. Or they become a pack of
 * meshes for one repair, with rows that may not fit it (panel.c). */
#define _DEFAULT_SOURCE
#include "blocks.h"
#include "document.h"
#include "lend.h"
#include "panel.h"
#include "uses.h"
#include <math.h>
#include <stdio.h>
#include <stdlib.h>
#include <string.h>
#include <sys/mman.h>

enum { FEW = 600, MANY = 6000, MOST = 40000, SHORT = 1000, POINTS = 6, FACES, LABELS, COUNTS, FILE_BYTES };

/* The calls that bytes may ask for; the loop call, behind them, is asked whatever the edge call is. Some numbers ask for the PLY calls, and some for a pack. */
enum { KINDS = LINE + 1, FIRST_PLY = 208, LAST_PLY = 239, FIRST_PACK = 144, LAST_PACK = 159 };

/* A pack has so many meshes of its own, of so many points and faces, and so many with those that stand there again; to the blocks it is one more call, and each
 * of its meshes another. */
enum { OWN_MESHES = 16, OWN_SIZE = 16, ALL_MESHES = 272, PACK = CALLS, PACKED };

typedef struct {
    const uint8_t *at, *end;
} Bytes;

static uint8_t take(Bytes *b) { return b->at < b->end ? *b->at++ : 0; }

/* How the rooms are lent: what they hold, where they lie, which one is longer or shorter than stated and by how much, whether an empty one is NULL. */
typedef struct {
    int dirt, front, odd, by, null;
    unsigned seed;
} Look;

static void wrong(const Asked *a, const char *what) {
    static const char *const names[] = {"repair", "edges", "check", "patches", "line", "loops", "write PLY", "read PLY"};
    fprintf(stderr, "%s: %s; P = %lu, %zu corners, options %u, threshold %a, %zu bytes\n", names[a->call], what, (unsigned long)a->P, a->faces_len, a->options,
            a->s, a->file_len);
    abort();
}

static double coordinate(uint8_t b) {
    static const double far[] = {0x1p100, -0x1p100, 0x1.0000000000001p100, INFINITY, -INFINITY, NAN, -0.0, 0x1p-1074, 0x1p-1022, 1e-160, -1e-150, 1e-300, 1e15, 0x1p53, 1e30, 0.1};
    return b < 240 ? ((double)b - 120) / 8 : far[b - 240];
}

static double threshold(uint8_t b) {
    static const double some[] = {0, 1e-12, 0x1p-10, 0.25, 1, -0.0, 0x1.0000000000001p0, 0x1.fffffffffffffp-1, NAN, -1, INFINITY, 0x1p-1074};
    return b < 12 ? some[b] : b / 255.0;
}

static double limit(uint8_t b) {
    static const double some[] = {NAN, INFINITY, -INFINITY, -0.0, -1, 0x1p-1074};
    return b < 6 ? some[b] : (b - 6) / 16.0;
}

static uint64_t number(uint8_t b) {
    static const uint64_t some[] = {1048576, 1048577, 4194304, 4194305, 0xffffffff, 0x100000000, 0x8000000000000000, 0xffffffffffffffff};
    return b < 248 ? b : some[b - 248];
}

/* A mesh in bytes: three for each point, then three for each face, or four with its label; and how many times over it stands, each time on points of
 * its own or always on the same. */
typedef struct {
    const uint8_t *places, *corners, *end;
    size_t P, F, per, copies, apart;
} Plan;

static void read_points(Asked *a, const Plan *m, size_t beyond) {
    size_t n = 3 * m->P * (m->apart ? m->copies : 1);
    double *points = lend(POINTS, n + beyond, 8, 0);
    for (size_t i = 0; i < n + beyond; i++) {
        const uint8_t *place = m->places + (m->P == 0 ? 0 : i % (3 * m->P));
        points[i] = coordinate(i < n && place < m->end ? *place : 0);
    }
    a->points = points;
    a->points_len = n + beyond;
    a->P = n / 3;
}

/* The corner that a byte asks for: one of its own points, which begin at the first; from 240 on it lies beyond all points. */
static uint32_t corner(uint32_t v, uint32_t all, uint32_t own, uint32_t first) {
    return v == 255 ? 0xffffffff : v >= 240 ? all + v - 240 : own == 0 ? v : v % own + first;
}

/* A corner is a point of its copy. */
static void read_faces(Asked *a, const Plan *m, size_t beyond) {
    size_t n = 3 * m->F * m->copies;
    uint32_t *faces = lend(FACES, n + beyond, 4, 0);
    for (size_t i = 0; i < n + beyond; i++) {
        uint32_t v = i < n ? m->corners[i / 3 % m->F * m->per + i % 3] : 0, copy = i < n && m->apart ? (uint32_t)(i / 3 / m->F) : 0;
        faces[i] = corner(v, (uint32_t)a->P, (uint32_t)m->P, copy * (uint32_t)m->P);
    }
    a->faces = faces;
    a->faces_len = n + beyond;
}

static void read_labels(Asked *a, const Plan *m, int beyond) {
    size_t n = m->F * m->copies;
    n = beyond < 0 && n == 0 ? 0 : n + beyond;
    uint32_t *labels = lend(LABELS, n, 4, 0);
    for (size_t i = 0; i < n; i++) {
        uint32_t v = m->F == 0 ? 0 : m->corners[i % m->F * m->per + 3];
        labels[i] = v == 255 ? SHELL_NO_PATCH : v == 254 ? 0xfffffffe : v;
    }
    a->labels = labels;
    a->labels_len = n;
}

/* The rest of the bytes as a mesh; `special` may ask for lists whose lengths do not fit. */
static void read_mesh(Asked *a, Bytes *b, uint8_t how, uint8_t special) {
    Plan m = {.per = a->call == PATCHES ? 4 : 3, .apart = !(how >> 5 & 1)};
    m.P = take(b);
    m.copies = take(b);
    m.places = b->at;
    for (size_t i = 0; i < 3 * m.P; i++)
        take(b);
    m.corners = b->at;
    m.end = b->end;
    m.F = (size_t)(b->end - b->at) / m.per;
    size_t faces = a->call == EDGES ? (m.copies < 254 ? MANY : MOST) : m.apart ? MANY : FEW, most = faces / (m.F + m.P + 1) + 1;
    m.copies = m.copies < 200 ? 1 : m.copies < 250 ? m.copies - 198 : most;
    m.copies = m.copies < most ? m.copies : most;
    read_points(a, &m, special >= 240 && special < 244 ? special % 3 : 0);
    read_faces(a, &m, special >= 242 && special < 246 ? special % 3 : 0);
    if (a->call == PATCHES)
        read_labels(a, &m, special == 246 ? 1 : special == 247 ? -1 : 0);
}

/* A PLY file that may be changed, with some room behind it. */
typedef struct {
    uint8_t *bytes;
    size_t length;
} File;
enum { EDITS = 8, INSERTED = 48 };

/* Puts a text into the file at a place, for so many bytes that stand there. */
static void put_text(File *f, size_t at, size_t gone, const char *text, size_t length) {
    at = at < f->length ? at : f->length;
    gone = gone < f->length - at ? gone : f->length - at;
    memmove(f->bytes + at + length, f->bytes + at + gone, f->length - at - gone);
    memcpy(f->bytes + at, text, length);
    f->length = f->length - gone + length;
}

/* One change of a file: a byte put in the place of another, put in, or at the end; bytes taken away or cut off; a text that a header of another form may have
 * put in, or in the place of what stands there; another count of corners for a face. */
static void edit(File *f, const uint8_t *how) {
    static const char *const texts[] = {"\r", "comment x\n", "18446744073709551616", "2305843009213693952", "9999999999999999999", "0",
                                        " ", "float", "uint8", "\n", "1", "00", "+", "-", "obj_info\n", "4194305", "1048577", "element edge 0\n",
                                        "end_header\n", "ply\n"};
    size_t at = (size_t)how[1] << 8 | how[2], faces = f->length / 13;
    const char *text = texts[how[3] % (sizeof texts / sizeof *texts)], byte = (char)how[3];
    switch (how[0] % 8) {
    case 0:
        put_text(f, at, 1, &byte, 1);
        break;
    case 1:
        put_text(f, at, 0, &byte, 1);
        break;
    case 2:
        put_text(f, at, how[3] % 32, "", 0);
        break;
    case 3:
        put_text(f, f->length, 0, &byte, 1);
        break;
    case 4:
        f->length -= how[3] < f->length ? how[3] : f->length;
        break;
    case 5:
        put_text(f, at, 0, text, strlen(text));
        break;
    case 6:
        put_text(f, at, strlen(text), text, strlen(text));
        break;
    default:
        if (faces > 0)
            put_text(f, f->length - 13 * (1 + at % faces), 1, &byte, 1);
    }
}

/* A PLY file of zeros that tells one point or one face more than is allowed, or is one byte shorter than that. */
static void make_huge_file(Asked *a, uint8_t which) {
    static uint8_t *huge;
    char header[HEADER];
    int points = which & 1;
    size_t length = document_header(points ? "4194305" : "0", points ? "0" : "1048577", header), body = points ? 24 * (size_t)4194305 : 13 * (size_t)1048577;
    if (huge == NULL)
        huge = mmap(NULL, HEADER + 24 * (size_t)4194305, PROT_READ | PROT_WRITE, MAP_PRIVATE | MAP_ANONYMOUS | MAP_NORESERVE, -1, 0);
    if (huge == MAP_FAILED)
        abort();
    memset(huge, 0, HEADER);
    memcpy(huge, header, length);
    a->file = huge;
    a->file_len = length + body - (which & 2 ? 1 : 0);
}

/* The rest of the bytes as a PLY file: as they are, or a mesh in the form and then some changes. */
static void read_file(Asked *a, Bytes *b, uint8_t how, uint8_t special) {
    uint8_t changes[EDITS][4];
    uint8_t count = take(b);
    File f = {NULL, (size_t)(b->end - b->at)};
    if (count < 250) {
        for (int k = 0; k < count % EDITS; k++)
            for (int i = 0; i < 4; i++)
                changes[k][i] = take(b);
        read_mesh(a, b, how, special);
        uint8_t *made = document_file(a->points, a->P, a->faces, a->faces_len / 3, &f.length);
        f.bytes = malloc(f.length + EDITS * INSERTED);
        if (f.bytes == NULL)
            abort();
        memcpy(f.bytes, made, f.length);
        free(made);
        for (int k = 0; k < count % EDITS; k++)
            edit(&f, changes[k]);
    }
    uint8_t *file = lend(FILE_BYTES, f.length, 1, 0);
    if (f.length > 0)
        memcpy(file, f.bytes == NULL ? b->at : f.bytes, f.length);
    free(f.bytes);
    a->file = file;
    a->file_len = f.length;
    if (special >= 252)
        make_huge_file(a, special);
    a->points_len = a->faces_len = a->P = 0;
}

/* Lists of zeros beyond the largest sizes. */
static void make_huge(Asked *a, uint8_t which) {
    static void *zeros;
    size_t points = 3 * ((size_t)SHELL_MOST_POINTS + 1), faces = 3 * ((size_t)SHELL_MOST_FACES + 1);
    if (zeros == NULL)
        zeros = mmap(NULL, 8 * points, PROT_READ, MAP_PRIVATE | MAP_ANONYMOUS | MAP_NORESERVE, -1, 0);
    if (zeros == MAP_FAILED)
        abort();
    if (which & 1) {
        a->points = zeros;
        a->points_len = points;
        a->P = points / 3;
    } else {
        a->faces = zeros;
        a->faces_len = faces;
    }
}

static void read_asked(Asked *a, Bytes *b, Look *look) {
    uint8_t call = take(b), how = take(b), special = take(b), odd = take(b), by = take(b);
    a->call = call < FIRST_PLY || call > LAST_PLY ? call % KINDS : call % 2 ? READ_PLY : WRITE_PLY;
    *look = (Look){how % DIRTS, how >> 3 & 1, odd, (int8_t)by, how >> 4 & 1, special};
    if (a->call == LINE) {
        a->counts_len = take(b) % 14;
        uint32_t *counts = lend(COUNTS, a->counts_len, 4, 0);
        for (size_t i = 0; i < a->counts_len; i++) {
            uint32_t base = take(b);
            counts[i] = base == 255 ? 0xffffffff : base << (take(b) % 32);
        }
        a->counts = counts;
        return;
    }
    if (a->call == READ_PLY) {
        read_file(a, b, how, special);
        return;
    }
    if (a->call == REPAIR) {
        a->options = take(b);
        a->s = threshold(take(b));
    }
    if (a->call == PATCHES) {
        a->patches = number(take(b));
        a->limits = take(b);
        a->min_faces = number(take(b));
        for (int k = 0; k < 3; k++)
            a->least[k] = limit(take(b));
        a->keep_largest_n = number(take(b));
    }
    read_mesh(a, b, how, special);
    if (special >= 250 && a->call == CHECK)
        a->P = number(special);
    else if (special >= 253)
        make_huge(a, special);
    if (a->call == CHECK)
        a->points_len = 0;
}

typedef struct {
    uint32_t number, place;
    uint64_t entries[6];
} Given;

/* The call itself, in rooms 0 to 5. */
static Given call(const Asked *a, void **r) {
    Given g = {0, 0, {0}};
    if (a->call == REPAIR) {
        ShellRepaired x = shell_repair(a->points, a->points_len, a->faces, a->faces_len, a->s, a->options, r[0], a->room[0], r[1], a->room[1], r[2], a->room[2],
                                       r[3], a->room[3], r[4], a->room[4]);
        g = (Given){x.number, x.place, {x.points, x.faces, x.counts, x.origins}};
    } else if (a->call == EDGES) {
        ShellEdges x = shell_edges(a->points, a->points_len, a->faces, a->faces_len, r[0], a->room[0], r[1], a->room[1], r[2], a->room[2], r[3], a->room[3]);
        g = (Given){x.number, x.place, {x.edges, x.lengths, x.face_edges}};
    } else if (a->call == LOOPS) {
        ShellLoops x = shell_loops(a->points, a->points_len, a->faces, a->faces_len, r[0], a->room[0], r[1], a->room[1], r[2], a->room[2]);
        g = (Given){x.number, x.place, {x.loop_vertices, x.loop_ends}};
    } else if (a->call == CHECK) {
        ShellCheck x = shell_check(a->P, a->faces, a->faces_len, r[0], a->room[0]);
        g = (Given){x.number, x.place, {x.yes}};
    } else if (a->call == PATCHES) {
        ShellPatches x = shell_patches(a->points, a->points_len, a->faces, a->faces_len, a->labels, a->labels_len, a->patches, a->limits, a->min_faces,
                                       a->least[0], a->least[1], a->least[2], a->keep_largest_n, r[0], a->room[0], r[1], a->room[1], r[2], a->room[2], r[3],
                                       a->room[3]);
        g = (Given){x.number, x.place, {x.face_counts, x.numbers, x.flags}};
    } else if (a->call == WRITE_PLY) {
        ShellPlyFile x = shell_write_ply(a->points, a->points_len, a->faces, a->faces_len, r[0], a->room[0], r[1], a->room[1]);
        g = (Given){x.number, x.place, {x.bytes}};
    } else if (a->call == READ_PLY) {
        ShellPly x = shell_read_ply(a->file, a->file_len, r[0], a->room[0], r[1], a->room[1], r[2], a->room[2]);
        g = (Given){x.number, x.place, {x.points, x.faces}};
    } else {
        ShellLine x = shell_line(a->counts, a->counts_len, r[0], a->room[0]);
        g = (Given){x.number, x.place, {x.bytes}};
    }
    return g;
}

/* Where a call's room stands among those that its input speaks of: edges, lengths, face edges, loop vertices, loop ends and work are one list. */
static int listed(int call, int k) { return call == LOOPS ? k + 3 : call == EDGES && k == 3 ? 5 : k; }

/* Lends the rooms as they are to look. None is longer than its pages; a shorter one is refused. */
static int lend_rooms(Asked *a, const Look *look, void **r) {
    size_t size[6];
    uint64_t stated[6];
    int rooms = document_rooms(a, size, stated), huge = a->P > SHELL_MOST_POINTS || a->faces_len / 3 > SHELL_MOST_FACES;
    int all = listed(a->call, rooms - 1) + 1;
    for (int k = 0; k < rooms; k++) {
        uint64_t n = huge || stated[k] > LONGEST / size[k] ? SHORT : stated[k];
        if (look->odd % all == listed(a->call, k))
            n = look->by < 0 && n < (uint64_t)-look->by ? 0 : n + look->by;
        a->room[k] = n;
        r[k] = lend(k, n, size[k], look->front);
        soil(k, look->dirt, look->seed + listed(a->call, k));
        keep(k);
        if (n == 0 && look->null)
            r[k] = NULL;
    }
    return rooms;
}

/* The call, and whether all is as it must be. */
static Given try(Asked *a, const Look *look, void **r) {
    size_t size[6];
    uint64_t stated[6];
    int rooms = lend_rooms(a, look, r);
    document_rooms(a, size, stated);
    Wanted w = document_answer(a);
    Given g = call(a, r);
    if (g.number != w.number || g.place != w.place)
        wrong(a, "another number or place");
    for (int k = 0; k < rooms; k++) {
        int work = k == rooms - 1 && a->call != LINE, accepted = g.number == 0;
        if (g.entries[k] != w.entries[k])
            wrong(a, "another count");
        if (!holds(k, w.row[k], accepted && !work ? w.entries[k] : 0, accepted ? stated[k] : 0))
            wrong(a, "a room does not hold what it must");
    }
    blocks_seen(a->call, g.number, g.place, g.entries, rooms);
    document_free(&w);
    return g;
}

static void *copy(const void *from, size_t bytes) {
    void *to = malloc(bytes + 1);
    if (to == NULL)
        abort();
    return bytes == 0 ? to : memcpy(to, from, bytes);
}

/* What is promised of faces that the check says yes to, on any points. */
static void after_yes(const Asked *a, const Look *look, const double *points, void **r) {
    Asked edges = {.call = EDGES, .P = a->P, .faces = a->faces, .faces_len = a->faces_len, .points = points, .points_len = 3 * a->P}, loops = edges;
    Look exact = {look->dirt, look->front, 0, 0, 0, look->seed};
    loops.call = LOOPS;
    if (try(&edges, &exact, r).number != 0)
        wrong(a, "the edge call refuses what the check says yes to");
    if (try(&loops, &exact, r).number != 0)
        wrong(a, "the loop call refuses what the check says yes to");
}

/* What is promised of a mesh that is mended: with any options that its faces are traced, with all six the rest of demand 3. */
static void after_repair(const Asked *a, const Look *look, const Given *g, void **r) {
    size_t P = g->entries[0] / 3, F = g->entries[1] / 3;
    const char *what = document_traced(a, r[0], r[1], F, r[3]);
    if (what != NULL)
        wrong(a, what);
    if (a->options != 63)
        return;
    double *points = copy(r[0], 24 * P);
    uint32_t *faces = copy(r[1], 12 * F);
    what = document_demand(a, P, faces, F, r[2]);
    if (what != NULL)
        wrong(a, what);
    Asked check = {.call = CHECK, .P = P, .faces = faces, .faces_len = 3 * F};
    Look exact = {look->dirt, look->front, 0, 0, 0, look->seed};
    if (try(&check, &exact, r).entries[0] != 1)
        wrong(a, "the check says no to what came out");
    after_yes(&check, look, points, r);
    free(points);
    free(faces);
}

/* Whether the call that counts says what it must of a file. */
static void count_file(const Asked *a) {
    Wanted w = {0, 0, {0}, {NULL}};
    uint64_t P, F;
    ShellPlyCounts x = shell_ply_counts(a->file, a->file_len);
    if (document_counts_refused(a, &w, &P, &F))
        P = F = 0;
    if (x.number != w.number || x.place != w.place || x.points != P || x.faces != F)
        wrong(a, "its points and faces are counted otherwise");
}

/* A file that was written is read, and must be the mesh that it was written from. */
static void read_again(const Asked *a, const Look *look, const Given *g, void **r) {
    Asked back = {.call = READ_PLY, .file = copy(r[0], g->entries[0]), .file_len = g->entries[0]};
    Look exact = {look->dirt, look->front, 0, 0, look->null, look->seed};
    Given read = try(&back, &exact, r);
    if (read.number != 0 || read.entries[0] != a->points_len || read.entries[1] != a->faces_len ||
        (a->points_len > 0 && memcmp(r[0], a->points, 8 * a->points_len) != 0) || (a->faces_len > 0 && memcmp(r[1], a->faces, 4 * a->faces_len) != 0))
        wrong(a, "what was written is not read again");
    count_file(&back);
    free((void *)back.file);
}

/* A mesh that was read is written, and must give the file that it was read from. */
static void write_again(const Asked *a, const Look *look, const Given *g, void **r) {
    Asked back = {.call = WRITE_PLY, .points = copy(r[0], 8 * g->entries[0]), .faces = copy(r[1], 4 * g->entries[1])};
    back.points_len = g->entries[0];
    back.faces_len = g->entries[1];
    back.P = back.points_len / 3;
    Look exact = {look->dirt, look->front, 0, 0, look->null, look->seed};
    Given written = try(&back, &exact, r);
    if (written.number != 0 || written.entries[0] != a->file_len || memcmp(r[0], a->file, a->file_len) != 0)
        wrong(a, "what was read is not written again");
    free((void *)back.points);
    free((void *)back.faces);
}

/* ---- packs */

static double pack_points[3 * OWN_SIZE * ALL_MESHES];
static uint32_t pack_faces[3 * OWN_SIZE * ALL_MESHES], pack_point_counts[ALL_MESHES], pack_face_counts[ALL_MESHES];

/* The next mesh of a pack: a byte for its points, one for its faces, then three for each. */
static void read_packed(Packing *p, Bytes *b) {
    uint32_t P = take(b) % OWN_SIZE, F = take(b) % OWN_SIZE;
    for (uint32_t i = 0; i < 3 * P; i++)
        pack_points[p->points_len++] = coordinate(take(b));
    for (uint32_t i = 0; i < 3 * F; i++)
        pack_faces[p->faces_len++] = corner(take(b), P, P, 0);
    pack_point_counts[p->point_counts_len++] = P;
    pack_face_counts[p->face_counts_len++] = F;
}

/* Lets the meshes of a pack stand there again, one after the other, until there are so many. */
static void repeat(Packing *p, size_t meshes) {
    size_t own = p->point_counts_len, points = p->points_len, corners = p->faces_len;
    for (size_t k = own; k < meshes; k++) {
        uint32_t P = pack_point_counts[k] = own == 0 ? 0 : pack_point_counts[k - own], F = pack_face_counts[k] = own == 0 ? 0 : pack_face_counts[k - own];
        for (uint32_t i = 0; i < 3 * P; i++, p->points_len++)
            pack_points[p->points_len] = pack_points[p->points_len - points];
        for (uint32_t i = 0; i < 3 * F; i++, p->faces_len++)
            pack_faces[p->faces_len] = pack_faces[p->faces_len - corners];
        p->point_counts_len++;
        p->face_counts_len++;
    }
}

/* Rows that may not fit the lists: one too long, a count that is too high or too low or wraps in 32 bits, or one point of the first mesh given to the last. */
static void spoil_rows(Packing *p, uint8_t special) {
    size_t last = p->point_counts_len == 0 ? 0 : p->point_counts_len - 1;
    p->point_counts_len += special == 240 && last + 1 < ALL_MESHES;
    p->face_counts_len += special == 241 && last + 1 < ALL_MESHES;
    pack_point_counts[0] += special == 242 ? 1 : special == 244 ? 1431655766 : special == 248 && pack_point_counts[0] > 0 ? -1u : 0;
    pack_face_counts[last] += special == 243 ? 1 : special == 245 ? 1431655766 : special == 249 && pack_face_counts[last] > 0 ? -1u : 0;
    pack_point_counts[last] += special == 248;
    p->points_len += special == 244 ? 2 : special == 246;
    p->faces_len += special == 245 ? 2 : special == 247;
}

/* The bytes as a pack in rooms, one of which may be longer or shorter than stated. */
static Packing read_pack(Bytes *b, Lending *lending) {
    take(b);
    uint8_t how = take(b), special = take(b), odd = take(b);
    int by = (int8_t)take(b);
    Packing p = {.points = pack_points, .faces = pack_faces, .point_counts = pack_point_counts, .face_counts = pack_face_counts};
    uint64_t stated[PACK_ROOMS];
    *lending = (Lending){how % DIRTS, how >> 3 & 1, how >> 4 & 1, special};
    p.options = take(b);
    p.s = threshold(take(b));
    uint8_t own = take(b) % OWN_MESHES, again = take(b);
    memset(pack_point_counts, 0, sizeof pack_point_counts);
    memset(pack_face_counts, 0, sizeof pack_face_counts);
    for (uint8_t k = 0; k < own; k++)
        read_packed(&p, b);
    repeat(&p, again < 200 ? own : again < 240 ? own * (again % 16 + 1u) : again + 14u);
    spoil_rows(&p, special);
    panel_rooms(&p, stated);
    for (int k = 0; k < PACK_ROOMS; k++) {
        size_t n = stated[k] > LONGEST / panel_sizes[k] ? SHORT : stated[k];
        p.room[k] = odd % PACK_ROOMS != k ? n : by < 0 && n < (size_t)-by ? 0 : n + (size_t)by;
    }
    return p;
}

/* A pack, and whether all is as it must be. */
static void try_pack(Bytes *b) {
    Lending how;
    Packing p = read_pack(b, &how);
    Packed wanted = panel_packed(&p);
    ShellPanel found = panel_called(&p, &how);
    const char *what = panel_differs(&p, &found, &wanted);
    if (what != NULL) {
        fprintf(stderr, "pack: %s; %zu and %zu meshes, %zu point entries, %zu corners, options %u, threshold %a\n", what, p.point_counts_len, p.face_counts_len,
                p.points_len, p.faces_len, p.options, p.s);
        abort();
    }
    const uint32_t *meshes = wanted.row[4];
    blocks_seen(PACK, found.number, found.place, (const uint64_t[]){found.points, found.faces, found.counts, found.origins, found.meshes}, PACK_ANSWERS);
    for (size_t k = 0; k < found.meshes; k += 4)
        blocks_seen(PACKED, meshes[k], meshes[k + 1], (const uint64_t[]){meshes[k + 2], meshes[k + 3]}, 2);
    panel_free(&wanted);
}

int LLVMFuzzerTestOneInput(const uint8_t *data, size_t size) {
    Bytes bytes = {data, data + size};
    if (size > 0 && data[0] >= FIRST_PACK && data[0] <= LAST_PACK) {
        try_pack(&bytes);
        return 0;
    }
    Asked a = {.call = REPAIR};
    Look look;
    void *r[6];
    lend(POINTS, 0, 8, 0);
    lend(FACES, 0, 4, 0);
    lend(LABELS, 0, 4, 0);
    lend(COUNTS, 0, 4, 0);
    lend(FILE_BYTES, 0, 1, 0);
    read_asked(&a, &bytes, &look);
    for (int k = POINTS; k <= FILE_BYTES; k++)
        keep(k);
    Given g = try(&a, &look, r);
    if (a.call == REPAIR && g.number == 0)
        after_repair(&a, &look, &g, r);
    if (a.call == CHECK && g.number == 0 && g.entries[0] == 1) {
        double *points = row(3 * a.P, 8);
        after_yes(&a, &look, points, r);
        free(points);
    }
    if (a.call == EDGES) {
        Asked loops = a;
        loops.call = LOOPS;
        try(&loops, &look, r);
    }
    if (a.call == READ_PLY)
        count_file(&a);
    if (a.call == READ_PLY && g.number == 0)
        write_again(&a, &look, &g, r);
    if (a.call == WRITE_PLY && g.number == 0)
        read_again(&a, &look, &g, r);
    for (int k = POINTS; k <= FILE_BYTES; k++)
        if (!holds(k, NULL, 0, 0))
            wrong(&a, "the input is changed");
    return 0;
}
