/* Times the calls for mending lists, and prints processor seconds: `lists FACES...`, built by bench/lists.sh.
 *
 * Of a scan with some defects, in the order of a scanner and numbered anyhow, of so many faces: the repair, for comparison; its list written into the room that
 * is enough for any list, and into one as long as the list with a work room of zeros, both in linear time; into one as long as the list with a work room of
 * several numbers, so that its length is found by a search; refused for one byte less with the same work room; and the list applied. What is written must be
 * the same each time. */
#define _POSIX_C_SOURCE 199309L
#include "shell.h"
#include <stdio.h>
#include <stdlib.h>
#include <string.h>
#include <time.h>

static uint64_t state = 20261116;

/* A number below n, by xorshift. */
static uint32_t below(uint32_t n) {
    state ^= state << 13;
    state ^= state >> 7;
    state ^= state << 17;
    return (uint32_t)((state >> 32) % n);
}

/* A room of so many entries, all zero. */
static void *room(size_t n, size_t size) {
    void *made = calloc(n + 1, size);
    if (made == NULL)
        exit(2);
    return made;
}

/* Processor time, so that other work on the machine counts little. */
static double now(void) {
    struct timespec t;
    clock_gettime(CLOCK_PROCESS_CPUTIME_ID, &t);
    return (double)t.tv_sec + (double)t.tv_nsec * 1e-9;
}

typedef struct {
    double *points;
    uint32_t *faces;
    size_t P, F;
} Mesh;

/* A grid of about so many faces, of which one in a hundred has a defect, not the first: it is turned over, or has the corners of the one before it, or two
 * equal corners, or a corner of another face. */
static Mesh scan(size_t about) {
    uint32_t side = 1;
    while (2 * (size_t)(side + 1) * (side + 1) <= about)
        side++;
    size_t row = side + 1, P = row * row, F = 2 * (size_t)side * side;
    Mesh m = {room(3 * P, 8), room(3 * F, 4), P, F};
    for (size_t v = 0; v < P; v++) {
        m.points[3 * v] = (double)(v % row);
        m.points[3 * v + 1] = (double)(v / row);
        m.points[3 * v + 2] = (double)below(1000) / 4000;
    }
    for (size_t i = 0; i < F; i++) {
        uint32_t v = (uint32_t)(i / 2 / side * row + i / 2 % side), low = v + (uint32_t)row, *face = m.faces + 3 * i, how = i == 0 ? 400 : below(400);
        face[0] = i % 2 == 0 ? v : v + 1;
        face[1] = i % 2 == 0 || how == 0 ? v + 1 : low + 1;
        face[2] = low;
        if (how == 1)
            memcpy(face, face - 3, 12);
        if (how == 2)
            face[below(3)] = below((uint32_t)P);
        if (how == 3) {
            face[2] = face[1];
            face[1] = low;
        }
    }
    return m;
}

/* Numbers points and faces anyhow. */
static void shuffle(Mesh *m) {
    uint32_t *new = room(m->P, 4);
    double *points = room(3 * m->P, 8);
    for (uint32_t v = 0; v < m->P; v++) {
        uint32_t u = below(v + 1);
        new[v] = new[u];
        new[u] = v;
    }
    for (size_t v = 0; v < m->P; v++)
        memcpy(points + 3 * (size_t)new[v], m->points + 3 * v, 24);
    for (size_t k = 0; k < 3 * m->F; k++)
        m->faces[k] = new[m->faces[k]];
    for (size_t i = m->F; i-- > 1;) {
        uint32_t *one = m->faces + 3 * i, *other = m->faces + 3 * (size_t)below((uint32_t)i + 1), held[3];
        memcpy(held, one, 12);
        memmove(one, other, 12);
        memcpy(other, held, 12);
    }
    free(m->points), free(new);
    m->points = points;
}

/* Tells what a call took, and ends the program where its answer is another than it must be. */
static void tell(const char *what, double since, int good) {
    printf("  %.4f s %s\n", now() - since, what);
    fflush(stdout);
    if (!good) {
        printf("lists: another answer\n");
        exit(1);
    }
}

/* Fills a work room with several numbers. */
static void soil(uint32_t *work, size_t n) {
    for (size_t i = 0; i < n; i++)
        work[i] = (uint32_t)i;
}

/* The repair and its list applied. */
static void time_meshes(const Mesh *m, const uint8_t *list, size_t length) {
    size_t P = m->P, F = m->F, w = SHELL_WORK_ROOM(P, F);
    double *points = room(SHELL_POINTS_ROOM(P, F), 8);
    uint32_t *faces = room(SHELL_FACES_ROOM(F), 4), *origins = room(SHELL_ORIGINS_ROOM(F), 4), *work = room(w, 4), report[SHELL_REPORT_ROOM];
    for (int used = 0; used < 2; used++) {
        double since = now();
        ShellRepaired r = shell_repair(m->points, 3 * P, m->faces, 3 * F, 1e-12, SHELL_ALL_OPTIONS, points, SHELL_POINTS_ROOM(P, F), faces, SHELL_FACES_ROOM(F),
                                       report, SHELL_REPORT_ROOM, origins, SHELL_ORIGINS_ROOM(F), work, w);
        if (used)
            tell("the repair, rooms used before", since, r.number == 0);
        since = now();
        ShellApplied a = shell_apply(m->points, 3 * P, m->faces, 3 * F, list, length, points, SHELL_POINTS_ROOM(P, F), faces, SHELL_FACES_ROOM(F), work, w);
        if (used)
            tell("the list applied, rooms used before", since, a.number == 0 && a.points == r.points && a.faces == r.faces);
    }
    free(points), free(faces), free(origins), free(work);
}

/* The list in rooms of each kind. */
static void time_lists(const char *what, const Mesh *m) {
    size_t P = m->P, F = m->F, w = SHELL_WORK_ROOM(P, F), most = SHELL_LIST_ROOM(P, F);
    uint8_t *any = room(most, 1);
    uint32_t *work = room(w, 4);
    ShellList first = shell_list(m->points, 3 * P, m->faces, 3 * F, 1e-12, SHELL_ALL_OPTIONS, any, most, work, w);
    size_t bytes = (size_t)first.bytes;
    uint8_t *exact = room(bytes, 1);
    printf("%s, %zu faces, a list of %zu bytes, %.2f a face\n", what, F, bytes, (double)bytes / (double)F);
    double since = now();
    ShellList again = shell_list(m->points, 3 * P, m->faces, 3 * F, 1e-12, SHELL_ALL_OPTIONS, any, most, work, w);
    tell("room for any list, work room of zeros", since, first.number == 0 && again.bytes == bytes);
    since = now();
    ShellList there = shell_list(m->points, 3 * P, m->faces, 3 * F, 1e-12, SHELL_ALL_OPTIONS, exact, bytes, work, w);
    tell("room for this list, work room of zeros", since, there.number == 0 && there.bytes == bytes && memcmp(any, exact, bytes) == 0);
    time_meshes(m, any, bytes);
    soil(work, w);
    since = now();
    ShellList dirty = shell_list(m->points, 3 * P, m->faces, 3 * F, 1e-12, SHELL_ALL_OPTIONS, any, most, work, w);
    tell("room for any list, dirty work room", since, dirty.number == 0 && dirty.bytes == bytes && memcmp(any, exact, bytes) == 0);
    soil(work, w);
    since = now();
    ShellList refused = shell_list(m->points, 3 * P, m->faces, 3 * F, 1e-12, SHELL_ALL_OPTIONS, exact, bytes == 0 ? 0 : bytes - 1, work, w);
    tell("one byte less than this list, dirty work room: refused after a search", since, bytes == 0 || refused.number == SHELL_SHORT_ROOM);
    soil(work, w);
    since = now();
    ShellList searched = shell_list(m->points, 3 * P, m->faces, 3 * F, 1e-12, SHELL_ALL_OPTIONS, exact, bytes, work, w);
    tell("room for this list, dirty work room: after a search", since, searched.number == 0 && memcmp(any, exact, bytes) == 0);
    free(any), free(exact), free(work);
}

int main(int count, char **words) {
    for (int k = 1; k < count; k++) {
        Mesh m = scan(strtoul(words[k], NULL, 10));
        time_lists("scan with defects", &m);
        shuffle(&m);
        time_lists("scan, numbered anyhow", &m);
        free(m.points), free(m.faces);
    }
    return 0;
}
