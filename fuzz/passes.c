/* Document 01's six passes in plain C, one sentence after the other: slow where that is plainer. */
#include "document.h"
#include "uses.h"
#include <math.h>
#include <stdlib.h>
#include <string.h>

/* A face is three corners in `faces` and a fourth number, the place that it has in the input. */
typedef struct {
    double *points, s;
    uint32_t *faces, *origins, *report;
    size_t P, F;
} Mesh;

static void difference(const Mesh *m, uint32_t to, uint32_t from, double out[3]) {
    for (int k = 0; k < 3; k++)
        out[k] = m->points[3 * to + k] - m->points[3 * from + k];
}

static double cross_norm(const double a[3], const double b[3]) {
    return norm(a[1] * b[2] - a[2] * b[1], a[2] * b[0] - a[0] * b[2], a[0] * b[1] - a[1] * b[0]);
}

static double norm_of(const double e[3]) { return norm(e[0], e[1], e[2]); }

static double squared(const double e[3]) { return (e[0] * e[0] + e[1] * e[1]) + e[2] * e[2]; }

typedef enum { GOOD, REPEATED, THIN } Kind;

/* What a face is by the degeneracy test: a repeated corner wins over thin. */
static Kind kind(const Mesh *m, const uint32_t *f) {
    double e1[3], e2[3];
    if (f[0] == f[1] || f[1] == f[2] || f[2] == f[0])
        return REPEATED;
    difference(m, f[1], f[0], e1);
    difference(m, f[2], f[0], e2);
    return cross_norm(e1, e2) <= (m->s * norm_of(e1)) * norm_of(e2) ? THIN : GOOD;
}

static double quality(const Mesh *m, uint32_t face) {
    const uint32_t *f = m->faces + 3 * face;
    double e0[3], e1[3], e2[3];
    difference(m, f[1], f[0], e0);
    difference(m, f[2], f[1], e1);
    difference(m, f[0], f[2], e2);
    double sum = (squared(e0) + squared(e1)) + squared(e2);
    return sum <= 0 ? 0 : ((4 * sqrt(3)) * (cross_norm(e0, e1) * 0.5)) / sum;
}

/* Whether face x ranks before face y. */
static int ranks_first(const Mesh *m, uint32_t x, uint32_t y) {
    double one = quality(m, x), other = quality(m, y);
    return one > other || (one == other && x < y);
}

/* Marked faces leave; returns how many. */
static uint32_t leave(Mesh *m, const uint8_t *marks) {
    size_t kept = 0, before = m->F;
    for (size_t i = 0; i < before; i++)
        if (!marks[i]) {
            memmove(m->faces + 3 * kept, m->faces + 3 * i, 12);
            m->origins[kept++] = m->origins[i];
        }
    m->F = kept;
    return (uint32_t)(before - kept);
}

static void pass1(Mesh *m) {
    uint8_t *marks = row(m->F, 1);
    for (size_t i = 0; i < m->F; i++) {
        Kind is = kind(m, m->faces + 3 * i);
        m->report[0] += is == REPEATED;
        m->report[1] += is == THIN;
        marks[i] = is != GOOD;
    }
    leave(m, marks);
    free(marks);
}

typedef struct {
    uint32_t corner[3], face;
} Sorted;

static int by_corners(const void *one, const void *other) {
    const Sorted *x = one, *y = other;
    for (int k = 0; k < 3; k++)
        if (x->corner[k] != y->corner[k])
            return x->corner[k] < y->corner[k] ? -1 : 1;
    return (x->face > y->face) - (x->face < y->face);
}

static void pass2(Mesh *m) {
    uint8_t *marks = row(m->F, 1);
    Sorted *all = row(m->F, sizeof *all);
    for (uint32_t i = 0; i < m->F; i++) {
        const uint32_t *f = m->faces + 3 * i;
        uint32_t low = f[0] < f[1] ? f[0] : f[1], high = f[0] < f[1] ? f[1] : f[0];
        Sorted s = {{low < f[2] ? low : f[2], low < f[2] ? (high < f[2] ? high : f[2]) : low, high < f[2] ? f[2] : high}, i};
        all[i] = s;
    }
    qsort(all, m->F, sizeof *all, by_corners);
    for (size_t i = 1; i < m->F; i++)
        marks[all[i].face] = memcmp(all[i - 1].corner, all[i].corner, 12) == 0;
    m->report[2] += leave(m, marks);
    free(all);
    free(marks);
}

/* Whether the face anywhere steps from a to b. */
static int steps(const Mesh *m, uint32_t face, uint32_t a, uint32_t b) {
    const uint32_t *f = m->faces + 3 * face;
    return (f[0] == a && f[1] == b) || (f[1] == a && f[2] == b) || (f[2] == a && f[0] == b);
}

/* Of the n entries of one edge the place of the best, but for the entry `without`; with `walk` 0 or 1 only of those that walk so. Returns n for none. */
static size_t best(const Mesh *m, const Use *run, size_t n, size_t without, int walk) {
    size_t found = n;
    for (size_t i = 0; i < n; i++)
        if (i != without && (walk < 0 || steps(m, run[i].entry / 3, run[i].low, run[i].high) == walk))
            if (found == n || ranks_first(m, run[i].entry / 3, run[found].entry / 3))
                found = i;
    return found;
}

static void pass3(Mesh *m) {
    uint8_t *marks = row(m->F, 1);
    Use *all = uses(m->faces, 3 * m->F, 0);
    for (size_t i = 0, j; i < 3 * m->F; i = j) {
        for (j = i; j < 3 * m->F && same_edge(all[i], all[j]); j++)
            ;
        if (j - i <= 2)
            continue;
        m->report[3]++;
        const Use *run = all + i;
        size_t n = j - i, first = best(m, run, n, n, -1);
        size_t second = best(m, run, n, n, !steps(m, run[first].entry / 3, run[first].low, run[first].high));
        if (second == n)
            second = best(m, run, n, first, -1);
        for (size_t k = 0; k < n; k++)
            if (run[k].entry / 3 != run[first].entry / 3 && run[k].entry / 3 != run[second].entry / 3)
                marks[run[k].entry / 3] = 1;
    }
    m->report[4] += leave(m, marks);
    free(all);
    free(marks);
}

/* From each entry to the first use of its edge, and one behind the last. */
static void runs(const Use *all, size_t n, uint32_t *from, uint32_t *to) {
    for (size_t i = 0, j; i < n; i = j) {
        for (j = i; j < n && same_edge(all[i], all[j]); j++)
            ;
        for (size_t k = i; k < j; k++) {
            from[all[k].entry] = (uint32_t)i;
            to[all[k].entry] = (uint32_t)j;
        }
    }
}

typedef struct {
    uint32_t *stack, *from, *to;
    uint8_t *visited, *exchanged;
    const Use *all;
    size_t height;
    int marked;
} Walk;

/* The popped face: its steps (0,1), (1,2), (2,0); for each the users of that edge in order, itself skipped. */
static void pop(Mesh *m, Walk *w, uint32_t face) {
    for (int k = 0; k < 3; k++) {
        /* The entry of step k in the list before the pass, the face not exchanged or exchanged since. */
        static const uint32_t entries[2][3] = {{2, 0, 1}, {1, 0, 2}};
        uint32_t a = m->faces[3 * face + k], b = m->faces[3 * face + (k + 1) % 3], entry = 3 * face + entries[w->exchanged[face]][k];
        for (uint32_t i = w->from[entry]; i < w->to[entry]; i++) {
            uint32_t other = w->all[i].entry / 3, *f = m->faces + 3 * other;
            if (other == face)
                continue;
            int agrees = steps(m, other, b, a);
            if (w->visited[other]) {
                w->marked = w->marked || !agrees;
                continue;
            }
            w->visited[other] = 1;
            if (!agrees) {
                uint32_t held = f[1];
                f[1] = f[2];
                f[2] = held;
                w->exchanged[other] = 1;
                m->report[8]++;
            }
            w->stack[w->height++] = other;
        }
    }
}

static void orient(Mesh *m) {
    size_t n = 3 * m->F;
    Use *all = uses(m->faces, n, 0);
    Walk w = {row(m->F, 4), row(n, 4), row(n, 4), row(m->F, 1), row(m->F, 1), all, 0, 0};
    runs(all, n, w.from, w.to);
    for (uint32_t start = 0; start < m->F; start++) {
        if (w.visited[start])
            continue;
        w.visited[start] = 1;
        w.stack[w.height++] = start;
        w.marked = 0;
        while (w.height > 0)
            pop(m, &w, w.stack[--w.height]);
        m->report[9] += (uint32_t)w.marked;
    }
    free(all);
    free(w.stack);
    free(w.from);
    free(w.to);
    free(w.visited);
    free(w.exchanged);
}

/* For every directed edge each entry after the first marks its face. */
static void collisions(Mesh *m) {
    uint8_t *marks = row(m->F, 1);
    Use *all = uses(m->faces, 3 * m->F, 1);
    for (size_t i = 0, j; i < 3 * m->F; i = j) {
        for (j = i; j < 3 * m->F && same_edge(all[i], all[j]); j++)
            ;
        size_t first = j - i < 2 ? 0 : best(m, all + i, j - i, j - i, -1);
        for (size_t k = 0; k < j - i; k++)
            if (k != first)
                marks[all[i + k].entry / 3] = 1;
    }
    m->report[5] += leave(m, marks);
    free(all);
    free(marks);
}

static int share(const uint32_t *one, const uint32_t *other, uint32_t v) {
    for (int i = 0; i < 3; i++)
        for (int j = 0; j < 3; j++)
            if (one[i] != v && one[i] == other[j])
                return 1;
    return 0;
}

/* The entries of v, n faces: those of each group after the first take a copy of v's point. */
static void split(Mesh *m, uint32_t v, const uint32_t *entries, size_t n) {
    uint32_t *group = row(n, 4), *queue = row(n, 4), groups = 0;
    for (size_t start = 0; start < n; start++) {
        if (group[start] != 0)
            continue;
        size_t last = 0;
        group[start] = ++groups;
        queue[last++] = (uint32_t)start;
        for (size_t i = 0; i < last; i++)
            for (size_t k = 0; k < n; k++)
                if (group[k] == 0 && share(m->faces + 3 * entries[queue[i]], m->faces + 3 * entries[k], v)) {
                    group[k] = groups;
                    queue[last++] = (uint32_t)k;
                }
    }
    m->report[6] += groups > 1;
    for (uint32_t g = 2; g <= groups; g++) {
        memcpy(m->points + 3 * m->P, m->points + 3 * v, 24);
        for (size_t k = 0; k < n; k++)
            for (int c = 0; group[k] == g && c < 3; c++)
                if (m->faces[3 * entries[k] + c] == v)
                    m->faces[3 * entries[k] + c] = (uint32_t)m->P;
        m->P++;
        m->report[7]++;
    }
    free(group);
    free(queue);
}

static void pass5(Mesh *m) {
    size_t P = m->P, n = 3 * m->F;
    uint32_t *first = row(P + 1, 4), *at = row(P + 1, 4), *entries = row(n, 4);
    for (size_t i = 0; i < n; i++)
        first[m->faces[i] + 1]++;
    for (size_t v = 0; v < P; v++)
        first[v + 1] += first[v];
    memcpy(at, first, 4 * (P + 1));
    for (size_t i = 0; i < n; i++)
        entries[at[m->faces[i]]++] = (uint32_t)(i / 3);
    for (uint32_t v = 0; v < P; v++)
        split(m, v, entries + first[v], first[v + 1] - first[v]);
    free(first);
    free(at);
    free(entries);
}

static void pass6(Mesh *m) {
    uint32_t *new = row(m->P, 4), kept = 0;
    for (size_t i = 0; i < 3 * m->F; i++)
        new[m->faces[i]] = 1;
    for (size_t v = 0; v < m->P; v++)
        if (new[v]) {
            memmove(m->points + 3 * kept, m->points + 3 * v, 24);
            new[v] = kept++;
        }
    for (size_t i = 0; i < 3 * m->F; i++)
        m->faces[i] = new[m->faces[i]];
    m->report[10] += (uint32_t)(m->P - kept);
    m->P = kept;
    free(new);
}

/* A mesh of its own, each face with its place. */
static Mesh begun(const double *points, size_t P, const uint32_t *faces, size_t F, double s) {
    Mesh m = {row(3 * (P + 3 * F), 8), s, row(3 * F, 4), row(F, 4), row(11, 4), P, F};
    if (P > 0)
        memcpy(m.points, points, 24 * P);
    if (F > 0)
        memcpy(m.faces, faces, 12 * F);
    for (uint32_t i = 0; i < F; i++)
        m.origins[i] = i;
    return m;
}

/* Passes 1 to 4, those that may drop a face. */
static void drop_faces(Mesh *m, uint32_t options) {
    if (options & 1)
        pass1(m);
    if (options & 2)
        pass2(m);
    if (options & 4)
        pass3(m);
    if (options & 16) {
        orient(m);
        collisions(m);
    }
}

void document_repair(const Asked *a, Wanted *w) {
    Mesh m = begun(a->points, a->P, a->faces, a->faces_len / 3, a->s);
    drop_faces(&m, a->options);
    if (a->options & 8)
        pass5(&m);
    if (a->options & 32)
        pass6(&m);
    w->row[0] = m.points;
    w->row[1] = m.faces;
    w->row[2] = m.report;
    w->row[3] = m.origins;
    w->entries[0] = 3 * m.P;
    w->entries[1] = 3 * m.F;
    w->entries[2] = 11;
    w->entries[3] = m.F;
}

size_t document_origins(const double *points, size_t P, const uint32_t *faces, size_t F, double s, uint32_t options, uint32_t *origins) {
    Mesh m = begun(points, P, faces, F, s);
    drop_faces(&m, options);
    memcpy(origins, m.origins, 4 * m.F);
    free(m.points);
    free(m.faces);
    free(m.origins);
    free(m.report);
    return m.F;
}
