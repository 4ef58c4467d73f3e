/* How often a repair stores each entry of its points room, its faces room and its origins room: `stores [SIDE]`, to be run under valgrind's lackey, which lists
 * every store; tests/stores.py counts them.
 *
 * Each mesh is a grid of SIDE times SIDE squares with faults that are known: which face leaves in which pass, which corners change their number, which points
 * leave. It is mended by the library, and where all options are on by two stand-ins too that go by the known faults, in the same rooms. The sparing one stores
 * a face and its origin again only from the first that leaves in a pass on, and a corner in passes 5 and 6 only where its number changes; that is the most that
 * the library may store. The plain one stores every kept face and its origin again in each pass that is on, and every corner in passes 5 and 6: the counter
 * must see that. All three must give the same mesh and the same origins. Printed are, addresses in hexadecimal:
 *
 *     marks BEGAN ENDED                               a call stands between a store to the one and a store to the other, each of one byte
 *     call BY OPTIONS MESH                            one call, by `library`, `sparing` or `plain`, in the order of the marks
 *     room NAME ADDRESS BYTES BEFORE ANSWER STATED    a room of it: bytes of an entry, entries before the first fault, of the answer, of the stated room
 *     most DIGITS                                     how often each entry of the answer may be stored, a digit for each
 *     made DIGITS                                     of a stand-in: how often it did store them */
#include "shell.h"
#include <inttypes.h>
#include <stdatomic.h>
#include <stdio.h>
#include <stdlib.h>
#include <string.h>

enum { SIDE = 8, LEAST_SIDE = 6, MOST_SIDE = 64, MOST_POINTS = (MOST_SIDE + 1) * (MOST_SIDE + 1) + 16, MOST_FACES = 2 * MOST_SIDE * MOST_SIDE + 32 };

/* A mesh and its faults: for each face the pass that drops it, or 0; whether pass 4 turns it over; whether pass 5 gives it the copy of the point `split`, if
 * one is; and for each point whether no face uses it once the faces have left. The first face that leaves or changes, the first that leaves, and the first
 * point that leaves; NONE if there is none. */
typedef struct {
    uint32_t options;
    size_t P, F;
    double points[3 * MOST_POINTS];
    uint32_t faces[3 * MOST_FACES];
    uint8_t leaves[MOST_FACES], turns[MOST_FACES], takes[MOST_FACES], alone[MOST_POINTS];
    uint32_t split;
    size_t first_face, first_gone, first_point;
} Mesh;

enum { NONE = MOST_POINTS + MOST_FACES };

static size_t side = SIDE;

/* Eight bytes of anything. */
typedef uint64_t __attribute__((may_alias)) Eight;

/* Copies n bytes, and stores each once. The C library's own may store a byte twice, where two of its pieces overlap. */
void *memcpy(void *to, const void *from, size_t n) {
    for (size_t i = 0; i < n; i++)
        ((volatile uint8_t *)to)[i] = ((const uint8_t *)from)[i];
    return to;
}

/* The same where the two may overlap. */
void *memmove(void *to, const void *from, size_t n) {
    if ((uintptr_t)to <= (uintptr_t)from)
        return memcpy(to, from, n);
    while (n-- > 0)
        ((volatile uint8_t *)to)[n] = ((const uint8_t *)from)[n];
    return to;
}

/* Fills n bytes, eight at a time. The C library's own may store one at a time, and the list of stores becomes long. */
void *memset(void *to, int byte, size_t n) {
    volatile uint8_t *bytes = to;
    size_t i = 0;
    for (; i < n && (uintptr_t)(bytes + i) % sizeof(Eight) != 0; i++)
        bytes[i] = (uint8_t)byte;
    for (; n - i >= sizeof(Eight); i += sizeof(Eight))
        *(volatile Eight *)(bytes + i) = 0x0101010101010101 * (uint8_t)byte;
    for (; i < n; i++)
        bytes[i] = (uint8_t)byte;
    return to;
}

/* The lower one of two. */
static size_t lower(size_t x, size_t y) {
    return x < y ? x : y;
}

/* Puts a face before face k, which leaves in the pass given, or stays if that is 0. */
static void put_face(Mesh *m, size_t k, uint32_t a, uint32_t b, uint32_t c, uint8_t pass) {
    for (size_t i = m->F++; i > k; i--) {
        for (size_t j = 0; j < 3; j++)
            m->faces[3 * i + j] = m->faces[3 * i + j - 3];
        m->leaves[i] = m->leaves[i - 1];
        m->turns[i] = m->turns[i - 1];
        m->takes[i] = m->takes[i - 1];
    }
    m->faces[3 * k] = a;
    m->faces[3 * k + 1] = b;
    m->faces[3 * k + 2] = c;
    m->leaves[k] = pass;
    m->turns[k] = m->takes[k] = 0;
    if (k <= m->first_face && m->first_face != NONE)
        m->first_face++;
    if (k <= m->first_gone && m->first_gone != NONE)
        m->first_gone++;
    if (pass != 0) {
        m->first_face = lower(k, m->first_face);
        m->first_gone = lower(k, m->first_gone);
    }
}

/* Adds a point behind the others. */
static void add_point(Mesh *m, double x, double y, double z) {
    double *at = m->points + 3 * m->P++;
    at[0] = x;
    at[1] = y;
    at[2] = z;
}

/* Puts a point that no face uses before point k. */
static void put_point(Mesh *m, uint32_t k) {
    for (size_t i = m->P++; i > k; i--) {
        for (size_t j = 0; j < 3; j++)
            m->points[3 * i + j] = m->points[3 * i + j - 3];
        m->alone[i] = m->alone[i - 1];
    }
    for (size_t j = 0; j < 3; j++)
        m->points[3 * k + j] = 0.5;
    m->alone[k] = 1;
    m->first_point = lower(k, m->first_point);
    for (size_t i = 0; i < 3 * m->F; i++)
        if (m->faces[i] >= k) {
            m->faces[i]++;
            m->first_face = lower(i / 3, m->first_face);
        }
    m->split += m->split >= k;
}

/* Adds a flat grid behind what there is: its points row by row, its faces too, two for each square. */
static void add_grid(Mesh *m) {
    uint32_t first = (uint32_t)m->P, row = (uint32_t)side + 1;
    for (size_t i = 0; i < row * row; i++)
        add_point(m, (double)(i % row), (double)(i / row), 0);
    for (size_t i = 0; i < side * side; i++) {
        uint32_t v = first + (uint32_t)(i / side * row + i % side);
        put_face(m, m->F, v, v + 1, v + row, 0);
        put_face(m, m->F, v + 1, v + row + 1, v + row, 0);
    }
}

/* Nothing is at fault. */
static void sound(Mesh *m) {
    add_grid(m);
}

/* The face in the middle repeats a corner. */
static void repeated(Mesh *m) {
    add_grid(m);
    put_face(m, m->F / 2, 1, 0, 1, 1);
}

/* The face in the middle is thin: its corners stand in one line. */
static void thin(Mesh *m) {
    add_grid(m);
    put_face(m, m->F / 2, 1, 2, 3, 1);
}

/* The last face repeats a corner. */
static void last(Mesh *m) {
    add_grid(m);
    put_face(m, m->F, 1, 0, 1, 1);
}

/* Puts before face k one with the corners of face i. */
static void put_again(Mesh *m, size_t k, size_t i) {
    const uint32_t *face = m->faces + 3 * i;
    put_face(m, k, face[1], face[2], face[0], 2);
}

/* The face in the middle has the corners of one before it. */
static void duplicate(Mesh *m) {
    add_grid(m);
    put_again(m, m->F / 2, 3);
}

/* Puts before face k a long one, between corners 1 and 2 of face i of a grid, where that meets face i + 1, and the last point. Of the three its quality is the
 * lowest, so that it leaves in pass 3, or in pass 4 where that is off: there it is reached from face i + 1, with which it agrees, and not turned over. */
static void put_third(Mesh *m, size_t k, size_t i, uint8_t pass) {
    const uint32_t *face = m->faces + 3 * i;
    put_face(m, k, face[1], face[2], (uint32_t)m->P - 1, pass);
}

/* The face in the middle is a third one on an edge, and leaves in pass 3. */
static void third(Mesh *m) {
    add_grid(m);
    put_third(m, m->F / 2, 2, 3);
}

/* The face in the middle is a third one on an edge, and leaves in pass 4. */
static void against(Mesh *m) {
    add_grid(m);
    put_third(m, m->F / 2, 2, 4);
}

/* Turns face k over, so that pass 4 must turn it back. */
static void turn(Mesh *m, size_t k) {
    uint32_t b = m->faces[3 * k + 1];
    m->faces[3 * k + 1] = m->faces[3 * k + 2];
    m->faces[3 * k + 2] = b;
    m->turns[k] = 1;
    m->first_face = lower(k, m->first_face);
}

/* Lets face k take the copy of the point that is split. */
static void take(Mesh *m, size_t k) {
    m->takes[k] = 1;
    m->first_face = lower(k, m->first_face);
}

/* The face in the middle is turned over. */
static void turned(Mesh *m) {
    add_grid(m);
    turn(m, m->F / 2);
}

/* The last face of the grid stands in the middle of the list, and meets the grid in a point of its left side whose own faces stand after it: they take the
 * copy. The point that was its own is not there. */
static void bowtie(Mesh *m) {
    add_grid(m);
    const uint32_t *face = m->faces + 3 * --m->F;
    uint32_t a = face[0], c = face[2];
    m->split = (uint32_t)((side / 2 + 3) * (side + 1));
    m->P--;
    for (size_t i = 0; i < 3 * m->F; i++)
        if (m->faces[i] == m->split)
            take(m, i / 3);
    put_face(m, m->F / 2, a, m->split, c, 0);
}

/* A point in the middle is unused. */
static void unused(Mesh *m) {
    add_grid(m);
    put_point(m, (uint32_t)m->P / 2);
}

/* The last point is unused. */
static void unused_last(Mesh *m) {
    add_grid(m);
    put_point(m, (uint32_t)m->P);
}

/* A grid and a one-sided strip of seven faces, with faults for every pass from the middle of the list on: their places rise with the passes, or fall. The
 * strip is walked from its first face, both ways, to the edge between its sixth and its seventh face, which then walk it the same way. The seventh has the
 * lower quality and leaves in pass 4; the first and the sixth then meet in one point, and the sixth takes the copy. Of it five faces stand at the front. */
static void every(Mesh *m, int rising) {
    static const double strip[7][2] = {{0, 0}, {0.5, 1}, {1, 0}, {1.5, 1}, {2, 0}, {2.5, 1}, {3.5, 0}};
    for (size_t i = 0; i < 7; i++)
        add_point(m, strip[i][0], strip[i][1], 5);
    for (uint32_t i = 0; i < 5; i++)
        put_face(m, i, i + i % 2, i + 1 - i % 2, i + 2, 0);
    add_grid(m);
    turn(m, m->F - 4);
    size_t middle = m->F / 2, apart = m->F / 16;
    for (size_t i = 0; i < 6; i++) {
        size_t k = middle + i * apart;
        switch (rising ? i : 5 - i) {
        case 0:
            put_face(m, k, 8, 7, 8, 1);
            break;
        case 1:
            put_face(m, k, 8, 9, 10, 1);
            break;
        case 2:
            put_again(m, k, 8);
            break;
        case 3:
            put_third(m, k, 7, 3);
            break;
        case 4:
            put_face(m, k, 6, 1, 0, 4);
            break;
        default:
            put_face(m, k, 6, 5, 0, 0);
            m->split = 0;
            take(m, k);
        }
    }
    put_point(m, (uint32_t)(m->P - side));
}

/* Faults for every pass, the first pass first. */
static void every_rising(Mesh *m) {
    every(m, 1);
}

/* Faults for every pass, the last pass first. */
static void every_falling(Mesh *m) {
    every(m, 0);
}

/* The meshes, each with the options of its repair. */
static const struct {
    const char *what;
    uint32_t options;
    void (*make)(Mesh *);
} cases[] = {
    {"nothing at fault", 63, sound},
    {"a repeated corner", 1, repeated},
    {"a thin face", 1, thin},
    {"the last face leaves", 1, last},
    {"a face again", 2, duplicate},
    {"a third face on an edge", 4, third},
    {"a third face on an edge, against another", 16, against},
    {"a face turned over", 16, turned},
    {"two sheets that meet in a point", 63, bowtie},
    {"an unused point", 32, unused},
    {"the last point unused", 32, unused_last},
    {"faults for every pass, rising", 63, every_rising},
    {"faults for every pass, falling", 63, every_falling},
};

/* A point list, a face list and the origins of its faces at the front of their rooms, and how often each entry was stored there. */
typedef struct {
    double *points;
    uint32_t *faces, *origins;
    size_t P, F;
    uint8_t point_stores[3 * (MOST_POINTS + 1)], face_stores[3 * MOST_FACES], origin_stores[MOST_FACES];
} Lists;

/* Stores an entry of the face list, by one store. */
static void store_corner(Lists *l, size_t i, uint32_t v) {
    *(volatile uint32_t *)(l->faces + i) = v;
    l->face_stores[i]++;
}

/* Stores an origin, by one store. */
static void store_origin(Lists *l, size_t i, uint32_t face) {
    *(volatile uint32_t *)(l->origins + i) = face;
    l->origin_stores[i]++;
}

/* Stores an entry of the point list, by one store. */
static void store_number(Lists *l, size_t i, double x) {
    *(volatile double *)(l->points + i) = x;
    l->point_stores[i]++;
}

/* Gives corner i the number v: in the plain way by a store in any case, else only where that is another one. */
static void change_corner(Lists *l, size_t i, uint32_t v, int plain) {
    if (plain || l->faces[i] != v)
        store_corner(l, i, v);
}

/* Drops the faces that leave in a pass, with their origins. */
static void drop_faces(const Mesh *m, int pass, int plain, Lists *l) {
    size_t i = 0;
    while (!plain && i < l->F && m->leaves[l->origins[i]] != pass)
        i++;
    size_t kept = i;
    for (; i < l->F; i++)
        if (m->leaves[l->origins[i]] != pass) {
            for (size_t j = 0; j < 3; j++)
                store_corner(l, 3 * kept + j, l->faces[3 * i + j]);
            store_origin(l, kept++, l->origins[i]);
        }
    l->F = kept;
}

/* Exchanges corners 1 and 2 of each face that is turned over. */
static void turn_faces(const Mesh *m, Lists *l) {
    for (size_t i = 0; i < l->F; i++)
        if (m->turns[l->origins[i]]) {
            uint32_t b = l->faces[3 * i + 1];
            store_corner(l, 3 * i + 1, l->faces[3 * i + 2]);
            store_corner(l, 3 * i + 2, b);
        }
}

/* Copies the point that is split, if a face takes the copy, and gives it to those that do. */
static void split_point(const Mesh *m, int plain, Lists *l) {
    size_t takers = 0;
    for (size_t i = 0; i < 3 * l->F; i++) {
        int takes = m->takes[l->origins[i / 3]] && l->faces[i] == m->split;
        change_corner(l, i, takes ? (uint32_t)l->P : l->faces[i], plain);
        takers += takes != 0;
    }
    for (size_t j = 0; takers > 0 && j < 3; j++)
        store_number(l, 3 * l->P + j, l->points[3 * m->split + j]);
    l->P += takers > 0;
}

/* Drops the points that no face uses, and renumbers the corners. */
static void drop_points(const Mesh *m, int plain, Lists *l) {
    static uint32_t numbers[MOST_POINTS + 1];
    size_t first = l->P, kept = 0;
    for (size_t i = 0; i < l->P; i++) {
        int leaves = i < m->P && m->alone[i];
        first = leaves && first == l->P ? i : first;
        numbers[i] = (uint32_t)kept;
        kept += !leaves;
    }
    for (size_t i = 0; i < 3 * l->F; i++)
        change_corner(l, i, numbers[l->faces[i]], plain);
    for (size_t i = plain ? 0 : first; i < l->P; i++)
        for (size_t j = 0; j < 3 && !(i < m->P && m->alone[i]); j++)
            store_number(l, 3 * numbers[i] + j, l->points[3 * i + j]);
    l->P = kept;
}

/* Mends a mesh by its known faults, in the plain way or the sparing one. */
static void mend(const Mesh *m, int plain, Lists *l) {
    static const uint32_t options[] = {0, SHELL_DROP_DEGENERATE, SHELL_DROP_DUPLICATE_FACES, SHELL_RESOLVE_NONMANIFOLD_EDGES, SHELL_ORIENT_CONSISTENTLY};
    memset(l->point_stores, 0, 3 * (m->P + 1));
    memset(l->face_stores, 0, 3 * m->F);
    memset(l->origin_stores, 0, m->F);
    l->P = m->P;
    l->F = m->F;
    for (size_t i = 0; i < 3 * m->P; i++)
        store_number(l, i, m->points[i]);
    for (size_t i = 0; i < 3 * m->F; i++)
        store_corner(l, i, m->faces[i]);
    for (uint32_t i = 0; i < m->F; i++)
        store_origin(l, i, i);
    for (int pass = 1; pass <= 4; pass++)
        if (m->options & options[pass]) {
            if (pass == 4)
                turn_faces(m, l);
            drop_faces(m, pass, plain, l);
        }
    if (m->options & SHELL_SPLIT_BOWTIE_VERTICES)
        split_point(m, plain, l);
    if (m->options & SHELL_DROP_ISOLATED_VERTICES)
        drop_points(m, plain, l);
}

static double points_room[SHELL_POINTS_ROOM(MOST_POINTS, MOST_FACES)], known_points[3 * (MOST_POINTS + 1)];
static uint32_t faces_room[SHELL_FACES_ROOM(MOST_FACES)], known_faces[SHELL_FACES_ROOM(MOST_FACES)];
static uint32_t origins_room[SHELL_ORIGINS_ROOM(MOST_FACES)], known_origins[SHELL_ORIGINS_ROOM(MOST_FACES)];
static uint32_t report[SHELL_REPORT_ROOM], work[SHELL_WORK_ROOM(MOST_POINTS, MOST_FACES)];
static Lists known = {.points = known_points, .faces = known_faces, .origins = known_origins};
static Lists seen = {.points = points_room, .faces = faces_room, .origins = origins_room};
static volatile uint8_t began, ended;

/* Prints the numbers of a row, a digit for each. */
static void print_digits(const char *name, const uint8_t *row, size_t n) {
    static char digits[3 * MOST_POINTS + 3 * MOST_FACES];
    for (size_t i = 0; i < n; i++)
        digits[i] = (char)('0' + row[i]);
    printf("%s ", name);
    fwrite(digits, 1, n, stdout);
    printf("\n");
}

/* Prints what is known of a room after a call. */
static void print_room(const char *name, const void *room, size_t bytes, size_t before, size_t answer, size_t stated, const uint8_t *most,
                       const uint8_t *made) {
    printf("room %s %" PRIxPTR " %zu %zu %zu %zu\n", name, (uintptr_t)room, bytes, lower(before, answer), answer, stated);
    print_digits("most", most, answer);
    if (made != NULL)
        print_digits("made", made, answer);
}

enum { LIBRARY, SPARING, PLAIN };

/* Mends a mesh between the marks, in dirty rooms. Whether it is accepted. */
static int between_marks(const Mesh *m, int by) {
    size_t points = SHELL_POINTS_ROOM(m->P, m->F), faces = SHELL_FACES_ROOM(m->F), origins = SHELL_ORIGINS_ROOM(m->F);
    ShellRepaired r = {0};
    memset(points_room, 0x5a, points * sizeof *points_room);
    memset(faces_room, 0x5a, faces * sizeof *faces_room);
    memset(origins_room, 0x5a, origins * sizeof *origins_room);
    atomic_signal_fence(memory_order_seq_cst);
    began = 1;
    atomic_signal_fence(memory_order_seq_cst);
    if (by == LIBRARY)
        r = shell_repair(m->points, 3 * m->P, m->faces, 3 * m->F, 1e-12, m->options, points_room, points, faces_room, faces, report, SHELL_REPORT_ROOM,
                         origins_room, origins, work, SHELL_WORK_ROOM(m->P, m->F));
    else
        mend(m, by == PLAIN, &seen);
    atomic_signal_fence(memory_order_seq_cst);
    ended = 1;
    atomic_signal_fence(memory_order_seq_cst);
    if (by == LIBRARY) {
        seen.P = (size_t)r.points / 3;
        seen.F = (size_t)r.faces / 3;
    }
    return r.number == SHELL_ACCEPTED && (by != LIBRARY || r.origins == seen.F);
}

/* One call, and what is known of its rooms. Whether it gives the mesh that is known. */
static int call(const Mesh *m, int by, const char *what) {
    static const char *const names[] = {"library", "sparing", "plain"};
    int good = between_marks(m, by), made = by != LIBRARY;
    printf("call %s %" PRIu32 " %s, %zu faces\n", names[by], m->options, what, m->F);
    print_room("faces", faces_room, sizeof *faces_room, 3 * m->first_face, 3 * known.F, SHELL_FACES_ROOM(m->F), known.face_stores,
               made ? seen.face_stores : NULL);
    print_room("origins", origins_room, sizeof *origins_room, m->first_gone, known.F, SHELL_ORIGINS_ROOM(m->F), known.origin_stores,
               made ? seen.origin_stores : NULL);
    print_room("points", points_room, sizeof *points_room, 3 * m->first_point, 3 * known.P, SHELL_POINTS_ROOM(m->P, m->F), known.point_stores,
               made ? seen.point_stores : NULL);
    return good && seen.P == known.P && seen.F == known.F && memcmp(points_room, known_points, 24 * known.P) == 0 &&
           memcmp(faces_room, known_faces, 12 * known.F) == 0 && memcmp(origins_room, known_origins, 4 * known.F) == 0;
}

/* How many faces leave in a pass. */
static size_t leaving(const Mesh *m, int pass) {
    size_t count = 0;
    for (size_t i = 0; i < m->F; i++)
        count += m->leaves[i] == pass;
    return count;
}

/* Whether the library's report has so many faces dropped in each pass, and so many turned over. */
static int reported(const Mesh *m) {
    size_t turned = 0;
    for (size_t i = 0; i < m->F; i++)
        turned += m->turns[i];
    return report[SHELL_REPEATED_REMOVED] + report[SHELL_THIN_REMOVED] == leaving(m, 1) && report[SHELL_DUPLICATE_FACES_REMOVED] == leaving(m, 2) &&
           report[SHELL_FACES_DROPPED_AT_NONMANIFOLD] == leaving(m, 3) && report[SHELL_FACES_DROPPED_FOR_ORIENTATION] == leaving(m, 4) &&
           report[SHELL_FACES_REORIENTED] == turned;
}

int main(int count, char **words) {
    static Mesh meshes[sizeof cases / sizeof *cases];
    int good = 1;
    if (count > 1)
        side = strtoul(words[1], NULL, 10);
    if (count > 2 || side < LEAST_SIDE || side > MOST_SIDE) {
        fprintf(stderr, "usage: stores [SIDE], from %d to %d\n", LEAST_SIDE, MOST_SIDE);
        return 2;
    }
    printf("marks %" PRIxPTR " %" PRIxPTR "\n", (uintptr_t)&began, (uintptr_t)&ended);
    for (size_t i = 0; i < sizeof cases / sizeof *cases; i++) {
        Mesh *m = meshes + i;
        m->options = cases[i].options;
        m->first_face = m->first_gone = m->first_point = NONE;
        cases[i].make(m);
        mend(m, 0, &known);
        int as_known = call(m, LIBRARY, cases[i].what) && reported(m);
        for (int by = SPARING; m->options == SHELL_ALL_OPTIONS && by <= PLAIN; by++)
            as_known = call(m, by, cases[i].what) && as_known;
        if (!as_known)
            fprintf(stderr, "stores: %s, options %" PRIu32 ": not mended as it must be\n", cases[i].what, m->options);
        good = good && as_known;
    }
    return good ? 0 : 1;
}
