/* How much stack the calls take: `stack [--shapes N] FACES...`. Each call runs on a painted stack, on shapes of so many faces (the first N of them), with
 * work rooms of zeros and dirty ones, accepted and refused; the deepest place where the paint is gone says what the call took. It must be below what
 * shell.h promises. The list is written into a room that is enough for any list, and asked for with no room, so that with a dirty work room its length is found
 * by a search; of many faces only with the option for which that is quick. A pack is the shape, a mesh of one face, and one that is refused. */
#define _GNU_SOURCE
#include "shell.h"
#include <stdio.h>
#include <stdlib.h>
#include <string.h>
#include <sys/mman.h>
#include <ucontext.h>

enum { REPAIR, PANEL, LIST, LIST_LENGTH, EDGES, LOOPS, CHECK, PATCHES, WRITE_PLY, READ_PLY, PLY_COUNTS, APPLY, LINE, CALLS };
static const char *const names[CALLS] = {"repair",  "pack",      "list",     "list without room", "edges", "loops", "check",
                                         "patches", "write PLY", "read PLY", "PLY counts",        "apply", "line"};

/* The stack that is painted, up to how many faces a length is searched for with all options, and the meshes of a pack; those behind the shape have a point and
 * a face each. */
enum { DEEP = 16 << 20, PATCH_COUNT = 100, SEARCHED = 1000, MESHES = 3, BEHIND = MESHES - 1 };
static const uint64_t PAINT = 0xa5c3f00d5eed1e55;

static uint64_t state = 1;

/* A number below n, by xorshift. */
static uint32_t below(uint32_t n) {
    state ^= state << 13;
    state ^= state >> 7;
    state ^= state << 17;
    return (uint32_t)((state >> 32) % n);
}

static struct {
    uint32_t *faces, *labels, *work, *row[3], *origins, report[SHELL_REPORT_ROOM], reports[SHELL_REPORTS_ROOM(MESHES)], meshes[SHELL_MESHES_ROOM(MESHES)];
    uint32_t options, number;
    double *points, *mended, *lengths;
    size_t P, F, file_bytes, list_bytes;
    uint8_t line[SHELL_LINE_ROOM], *file, *list, *text;
    int call;
} job;

static void corners(size_t i, size_t a, size_t b, size_t c) {
    job.faces[3 * i] = (uint32_t)a;
    job.faces[3 * i + 1] = (uint32_t)b;
    job.faces[3 * i + 2] = (uint32_t)c;
}

/* The worst shapes, each a face list in place i of F and how many points it has. */
static size_t strip(size_t i, size_t F) {
    corners(i, i + i % 2, i + 1 - i % 2, i + 2);
    return F + 2;
}

static size_t fan(size_t i, size_t F) {
    corners(i, 0, i + 1, i + 2);
    return F + 2;
}

static size_t one_edge(size_t i, size_t F) {
    corners(i, i % 2, 1 - i % 2, i + 2);
    return F + 2;
}

static size_t apart_at_a_point(size_t i, size_t F) {
    corners(i, 0, 2 * i + 1, 2 * i + 2);
    return 2 * F + 1;
}

static size_t corners_equal(size_t i, size_t F) {
    (void)F;
    corners(i, 0, 0, 0);
    return 1;
}

static size_t all_the_same(size_t i, size_t F) {
    (void)F;
    corners(i, 0, 1, 2);
    return 3;
}

static size_t scattered(size_t i, size_t F) {
    uint32_t P = (uint32_t)F / 2 + 3;
    corners(i, below(P), below(P), below(P));
    return P;
}

static size_t grid(size_t i, size_t F) {
    size_t side = 1;
    while (2 * side * side < F)
        side++;
    size_t v = i / 2 / side * (side + 1) + i / 2 % side;
    if (i % 2 == 0)
        corners(i, v, v + 1, v + side + 1);
    else
        corners(i, v + 1, v + side + 2, v + side + 1);
    return (side + 1) * (side + 1);
}

/* A strip among points that no face uses: as many as are few, and more. */
static size_t strip_in_few(size_t i, size_t F) {
    strip(i, F);
    return F + 2 < SHELL_FEW_POINTS ? SHELL_FEW_POINTS : F + 2;
}

static size_t strip_in_many(size_t i, size_t F) {
    strip(i, F);
    return F + 100000;
}

/* The grid with its points and its faces numbered anyhow. */
static size_t shuffled_grid(size_t i, size_t F) {
    size_t P = grid(i, F);
    if (i + 1 < F)
        return P;
    uint32_t *new = malloc(4 * P);
    if (new == NULL)
        exit(2);
    for (uint32_t v = 0; v < P; v++) {
        uint32_t u = below(v + 1);
        new[v] = new[u];
        new[u] = v;
    }
    for (size_t k = 0; k < 3 * F; k++)
        job.faces[k] = new[job.faces[k]];
    for (size_t k = F; k-- > 1;) {
        uint32_t u = below((uint32_t)k + 1), held[3];
        memcpy(held, job.faces + 3 * k, 12);
        memcpy(job.faces + 3 * k, job.faces + 3 * u, 12);
        memcpy(job.faces + 3 * u, held, 12);
    }
    free(new);
    return P;
}

typedef struct {
    const char *name;
    size_t (*face)(size_t, size_t);
} Shape;
static const Shape shapes[] = {{"apart at one point", apart_at_a_point},
                               {"grid, numbered anyhow", shuffled_grid},
                               {"grid", grid},
                               {"strip", strip},
                               {"fan", fan},
                               {"all on one edge", one_edge},
                               {"all corners equal", corners_equal},
                               {"all faces the same", all_the_same},
                               {"corners anywhere", scattered},
                               {"strip among few points", strip_in_few},
                               {"strip among many points", strip_in_many}};

/* The number of the call on a pack. */
static uint32_t run_pack(void) {
    const uint32_t point_counts[MESHES] = {(uint32_t)job.P, 1, 1}, face_counts[MESHES] = {(uint32_t)job.F, 1, 1};
    size_t P = job.P + BEHIND, F = job.F + BEHIND;
    return shell_repair_panel(job.points, 3 * P, job.faces, 3 * F, point_counts, MESHES, face_counts, MESHES, 1e-12, job.options, job.mended,
                              SHELL_POINTS_ROOM(P, F), job.row[0], SHELL_FACES_ROOM(F), job.reports, SHELL_REPORTS_ROOM(MESHES), job.origins,
                              SHELL_ORIGINS_ROOM(F), job.meshes, SHELL_MESHES_ROOM(MESHES), job.work,
                              shell_panel_work_room(point_counts, face_counts, MESHES))
        .number;
}

static void run(void) {
    size_t P = job.P, F = job.F, work = SHELL_WORK_ROOM(P, F), C = PATCH_COUNT;
    if (job.call == REPAIR)
        job.number = shell_repair(job.points, 3 * P, job.faces, 3 * F, 1e-12, job.options, job.mended, SHELL_POINTS_ROOM(P, F), job.row[0], SHELL_FACES_ROOM(F),
                                  job.report, SHELL_REPORT_ROOM, job.origins, SHELL_ORIGINS_ROOM(F), job.work, work)
                         .number;
    if (job.call == PANEL)
        job.number = run_pack();
    if (job.call == LIST || job.call == LIST_LENGTH)
        job.number = shell_list(job.points, 3 * P, job.faces, 3 * F, 1e-12, job.options, job.text, job.call == LIST ? SHELL_LIST_ROOM(P, F) : 0, job.work, work)
                         .number;
    if (job.call == EDGES)
        job.number = shell_edges(job.points, 3 * P, job.faces, 3 * F, job.row[1], SHELL_EDGES_ROOM(F), job.lengths, SHELL_LENGTHS_ROOM(F), job.row[2],
                                 SHELL_FACE_EDGES_ROOM(F), job.work, work)
                         .number;
    if (job.call == LOOPS)
        job.number = shell_loops(job.points, 3 * P, job.faces, 3 * F, job.row[1], SHELL_LOOP_VERTICES_ROOM(F), job.row[2], SHELL_LOOP_ENDS_ROOM(F), job.work,
                                 work)
                         .number;
    if (job.call == CHECK)
        job.number = shell_check(P, job.faces, 3 * F, job.work, work).number;
    if (job.call == PATCHES)
        job.number = shell_patches(job.points, 3 * P, job.faces, 3 * F, job.labels, F, C, 31, 2, 0, 0, 0.01, C / 2, job.row[0], C, job.lengths, 7 * C, job.row[1],
                                   C, job.work, 4 * C)
                         .number;
    if (job.call == WRITE_PLY) {
        ShellPlyFile written = shell_write_ply(job.points, 3 * P, job.faces, 3 * F, job.file, SHELL_PLY_FILE_ROOM(P, F), job.work, work);
        job.number = written.number;
        job.file_bytes = written.number == SHELL_ACCEPTED ? written.bytes : job.file_bytes;
    }
    if (job.call == READ_PLY)
        job.number = shell_read_ply(job.file, job.file_bytes, job.mended, SHELL_PLY_POINTS_ROOM(P), job.row[0], SHELL_PLY_FACES_ROOM(F), job.work, work).number;
    if (job.call == PLY_COUNTS)
        job.number = shell_ply_counts(job.file, job.file_bytes).number;
    if (job.call == APPLY)
        job.number = shell_apply(job.points, 3 * P, job.faces, 3 * F, job.list, job.list_bytes, job.mended, SHELL_POINTS_ROOM(P, F), job.row[0],
                                 SHELL_FACES_ROOM(F), job.work, work)
                         .number;
    if (job.call == LINE)
        job.number = shell_line(job.report, SHELL_REPORT_ROOM, job.line, SHELL_LINE_ROOM).number;
}

/* Runs the job on a painted stack, and returns how many bytes of it are no longer paint, down to the deepest. */
static size_t taken(void) {
    static uint64_t *stack;
    static size_t painted;
    static ucontext_t here, there;
    if (stack == NULL)
        stack = mmap(NULL, DEEP, PROT_READ | PROT_WRITE, MAP_PRIVATE | MAP_ANONYMOUS | MAP_STACK, -1, 0);
    if (stack == MAP_FAILED || getcontext(&there) != 0)
        exit(2);
    for (size_t i = painted; i < DEEP / 8; i++)
        stack[i] = PAINT;
    there.uc_stack.ss_sp = stack;
    there.uc_stack.ss_size = DEEP;
    there.uc_link = &here;
    makecontext(&there, run, 0);
    if (swapcontext(&here, &there) != 0)
        exit(2);
    size_t deepest = 0;
    while (deepest < DEEP / 8 && stack[deepest] == PAINT)
        deepest++;
    painted = deepest;
    return DEEP - 8 * deepest;
}

static size_t most[CALLS];
static unsigned long accepted, refused;
static int broken;

/* One call, with a work room of zeros and a dirty one. */
static void measure(const char *shape, int call, uint32_t options) {
    int few = job.F <= SHELL_FEW_FACES && (call != APPLY || job.P <= SHELL_FEW_POINTS), list = call == LIST || call == LIST_LENGTH;
    size_t promised = few ? SHELL_STACK_FEW_FACES : list ? SHELL_LIST_STACK : SHELL_STACK, room = 4 * SHELL_WORK_ROOM(job.P, job.F);
    job.call = call;
    job.options = options;
    for (int dirty = 0; dirty < 2; dirty++) {
        memset(job.work, dirty ? 0x5a : 0, room);
        job.work[1] = (uint32_t)dirty;
        size_t took = taken();
        if (took > most[call])
            most[call] = took;
        accepted += job.number == SHELL_ACCEPTED;
        refused += job.number != SHELL_ACCEPTED;
        if (took >= promised) {
            broken = 1;
            printf("stack: %s, %s of %zu faces, %s work room, number %u: %zu bytes, and %zu are promised\n", names[call], shape, job.F,
                   dirty ? "dirty" : "clean", job.number, took, promised);
        }
    }
}

static void *room(size_t n, size_t size) {
    void *out = malloc(n * size + 1);
    if (out == NULL)
        exit(2);
    return out;
}

/* Adds a line of a letter, a number and some fields more to the list. */
static void add_line(char letter, size_t number, const char *fields) {
    job.list_bytes += (size_t)sprintf((char *)job.list + job.list_bytes, "%c\t%zu%s\n", letter, number, fields);
}

/* A list with lines of every kind: all faces but the first two are dropped, the first is turned over and takes a copy of its first corner, and the points that
 * no face has then leave. */
static void make_list(void) {
    size_t P = job.P, left = job.F < 2 ? job.F : 2;
    uint32_t corners[6];
    char fields[32];
    job.list = room(SHELL_LIST_ROOM(P, job.F), 1);
    job.list_bytes = 0;
    for (size_t i = 2; i < job.F; i++)
        add_line('d', i, "\t1\tthin");
    for (size_t k = 0; k < 3 * left; k++)
        corners[k] = k < 3 && job.faces[k] == job.faces[0] ? (uint32_t)P : job.faces[k];
    if (left > 0) {
        snprintf(fields, sizeof fields, "\t%zu\t0", P);
        add_line('o', 0, "");
        add_line('s', job.faces[0], fields);
    }
    for (uint32_t v = 0; v < P; v++) {
        int used = 0;
        for (size_t k = 0; k < 3 * left; k++)
            used = used || corners[k] == v;
        if (!used)
            add_line('u', v, "");
    }
}

/* The calls on one shape: as it is, with a bad corner in its last face, which the PLY file gets too, and with that file and the list cut off. */
static void on_shape(const Shape *shape, size_t F) {
    job.F = F;
    for (size_t i = 0; i < F; i++)
        job.P = shape->face(i, F);
    job.P = F == 0 ? 0 : job.P;
    size_t P = job.P;
    corners(F, 0, 0, 0);
    corners(F + 1, 0, 0, 1);
    job.points = room(3 * (P + BEHIND), 8);
    job.mended = room(SHELL_POINTS_ROOM(P + BEHIND, F + BEHIND), 8);
    job.work = room(SHELL_WORK_ROOM(P, F) + SHELL_PATCHES_WORK_ROOM(PATCH_COUNT), 4);
    job.file = room(SHELL_PLY_FILE_ROOM(P, F), 1);
    job.file_bytes = 0;
    memset(job.points, 0, 24 * (P + BEHIND));
    for (size_t i = 0; i < 3 * P; i++)
        job.points[i] = i % 3 == 0 ? (double)(i / 3 % 1000) : i % 3 == 1 ? (double)(i / 3000) : (double)below(100) / 64;
    job.text = room(SHELL_LIST_ROOM(P, F), 1);
    make_list();
    static const uint32_t options[] = {0, 1, 2, 4, 8, 16, 32, SHELL_ALL_OPTIONS};
    for (size_t k = F > 10000 ? 7 : 0; k < 8; k++) {
        measure(shape->name, REPAIR, options[k]);
        measure(shape->name, PANEL, options[k]);
        measure(shape->name, LIST, options[k]);
        measure(shape->name, LIST_LENGTH, F > SEARCHED ? SHELL_DROP_DEGENERATE : options[k]);
    }
    measure(shape->name, PANEL, SHELL_ALL_OPTIONS + 1);
    for (int call = EDGES; call < CALLS; call++)
        measure(shape->name, call, 0);
    memset(job.report, 0xff, sizeof job.report);
    measure(shape->name, LINE, 0);
    if (F > 0) {
        uint32_t held = job.faces[3 * F - 1];
        job.faces[3 * F - 1] = (uint32_t)P;
        memset(job.file + job.file_bytes - 1, 0xff, 1);
        for (int call = REPAIR; call < LINE; call++)
            measure(shape->name, call, 0);
        job.faces[3 * F - 1] = held;
        job.file_bytes--;
        measure(shape->name, READ_PLY, 0);
        measure(shape->name, PLY_COUNTS, 0);
        job.list_bytes--;
        measure(shape->name, APPLY, 0);
    }
    free(job.points);
    free(job.mended);
    free(job.work);
    free(job.file);
    free(job.list);
    free(job.text);
}

/* The first of the shapes with F faces, and a line on what the calls took at most. */
static void of_size(size_t F, size_t first) {
    memset(most, 0, sizeof most);
    accepted = refused = 0;
    job.faces = room(3 * (F + BEHIND), 4);
    job.labels = room(F, 4);
    job.origins = room(SHELL_ORIGINS_ROOM(F + BEHIND), 4);
    job.lengths = room(SHELL_LENGTHS_ROOM(F) + SHELL_NUMBERS_ROOM(PATCH_COUNT), 8);
    for (int k = 0; k < 3; k++)
        job.row[k] = room(SHELL_EDGES_ROOM(F) + PATCH_COUNT, 4);
    for (size_t i = 0; i < F; i++)
        job.labels[i] = (uint32_t)(i % PATCH_COUNT);
    for (size_t k = 0; k < first; k++)
        on_shape(shapes + k, F);
    printf("stack: %zu faces, bytes at most:", F);
    for (int call = 0; call < CALLS; call++)
        printf(" %s %zu,", names[call], most[call]);
    printf(" in %lu accepted and %lu refused calls\n", accepted, refused);
    free(job.faces);
    free(job.labels);
    free(job.origins);
    free(job.lengths);
    for (int k = 0; k < 3; k++)
        free(job.row[k]);
}

int main(int count, char **words) {
    size_t first = sizeof shapes / sizeof *shapes;
    int at = 1;
    if (count > 2 && strcmp(words[1], "--shapes") == 0) {
        size_t few = strtoul(words[2], NULL, 10);
        first = few < first ? few : first;
        at = 3;
    }
    for (; at < count; at++)
        of_size(strtoul(words[at], NULL, 10), first);
    return broken;
}
