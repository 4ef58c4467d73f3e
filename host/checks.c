/* The edge check on every mesh of two faces on five points and of three on three, on meshes that tell wrong checks apart, and on random ones from a fixed seed:
 * `checks MESHES`. What the check answers, and what faults.c finds wrong, must be what the rule says, which is written here in the plainest way: each corner is
 * compared with each. A mesh with unused points behind the others gets the same answer. Where the check says yes the edge call and the loop call must accept.
 * The first mesh that differs is printed. */
#include "faults.h"
#include "shell.h"
#include <stdio.h>
#include <stdlib.h>
#include <string.h>

enum { MOST_POINTS = 12, MOST_FACES = 14, UNUSED = 3 };

typedef struct {
    uint32_t faces[3 * MOST_FACES];
    size_t P, F;
} Mesh;

static uint64_t state = 20261116;

/* A number below n, by xorshift. */
static uint32_t below(uint32_t n) {
    state ^= state << 13;
    state ^= state >> 7;
    state ^= state << 17;
    return (uint32_t)((state >> 32) % n);
}

/* Whether two corners of the same point have another point beside them in common. */
static int joined(const Mesh *m, size_t c, size_t d) {
    for (size_t i = c - c % 3; i < c - c % 3 + 3; i++)
        for (size_t j = d - d % 3; j < d - d % 3 + 3; j++)
            if (m->faces[i] == m->faces[j] && m->faces[i] != m->faces[c])
                return 1;
    return 0;
}

/* How many groups the corners of v form: each takes the lowest label of those that it is joined with, until no label changes. */
static size_t groups(const Mesh *m, uint32_t v) {
    size_t label[3 * MOST_FACES], count = 0, n = 3 * m->F;
    for (size_t c = 0; c < n; c++)
        label[c] = c;
    for (int changed = 1; changed;) {
        changed = 0;
        for (size_t c = 0; c < n; c++)
            for (size_t d = 0; d < n; d++)
                if (m->faces[c] == v && m->faces[d] == v && label[d] < label[c] && joined(m, c, d)) {
                    label[c] = label[d];
                    changed = 1;
                }
    }
    for (size_t c = 0; c < n; c++)
        count += m->faces[c] == v && label[c] == c;
    return count;
}

/* Where the step that begins at a corner ends. */
static uint32_t to(const Mesh *m, size_t c) { return m->faces[c - c % 3 + (c + 1) % 3]; }

/* The directed edge from a to b: whether it is walked more than once, and the first two faces that do. */
static int walked(const Mesh *m, uint32_t a, uint32_t b, size_t by[2]) {
    size_t times = 0;
    for (size_t c = 0; c < 3 * m->F; c++)
        if (m->faces[c] == a && to(m, c) == b && times++ < 2)
            by[times - 1] = c / 3;
    return times > 1;
}

/* What the rule says is wrong. */
static Faults by_rule(const Mesh *m) {
    Faults found = {0, 0, 0, 0, 0, {0, 0}, 0, 0, 0};
    size_t by[2] = {0, 0};
    for (size_t i = 0; i < m->F; i++) {
        const uint32_t *face = m->faces + 3 * i;
        if ((face[0] == face[1] || face[0] == face[2] || face[1] == face[2]) && found.repeating++ == 0)
            found.face = i;
    }
    for (uint32_t a = 0; a < m->P; a++)
        for (uint32_t b = 0; b < m->P; b++)
            if (walked(m, a, b, by) && found.walked++ == 0) {
                found.from = a, found.to = b;
                found.by[0] = by[0], found.by[1] = by[1];
            }
    for (uint32_t v = 0; v < m->P; v++) {
        size_t count = groups(m, v);
        if (count > 1 && found.tied++ == 0)
            found.point = v, found.groups = count;
    }
    return found;
}

static int same(const Faults *x, const Faults *y) {
    return x->repeating == y->repeating && x->face == y->face && x->walked == y->walked && x->from == y->from && x->to == y->to && x->by[0] == y->by[0] &&
           x->by[1] == y->by[1] && x->tied == y->tied && x->point == y->point && x->groups == y->groups;
}

/* Whether a call leaves a work room zero up to what is stated and as it was behind. */
static int cleared(const uint32_t *work, size_t stated, size_t length) {
    for (size_t i = 0; i < length; i++)
        if (work[i] != (i < stated ? 0 : 0x5a5a5a5a))
            return 0;
    return 1;
}

/* Whether the check answers so for P points, in a dirty work room that is longer than stated. */
static int answers(const Mesh *m, size_t P, uint64_t yes) {
    uint32_t work[SHELL_WORK_ROOM(MOST_POINTS + UNUSED, MOST_FACES) + 2];
    size_t stated = SHELL_WORK_ROOM(P, m->F);
    memset(work, 0x5a, sizeof work);
    ShellCheck check = shell_check(P, m->faces, 3 * m->F, work, stated + 2);
    return check.number == SHELL_ACCEPTED && check.place == 0 && check.yes == yes && cleared(work, stated, stated + 2);
}

/* The rooms of the edge call and of the loop call. */
typedef struct {
    double lengths[SHELL_LENGTHS_ROOM(MOST_FACES)];
    uint32_t edges[SHELL_EDGES_ROOM(MOST_FACES)], rows[SHELL_FACE_EDGES_ROOM(MOST_FACES)], ends[SHELL_LOOP_ENDS_ROOM(MOST_FACES)];
    uint32_t work[SHELL_WORK_ROOM(MOST_POINTS, MOST_FACES)];
} Rooms;

/* Whether the edge call accepts the faces, on points that all lie in one place, in rooms that hold such bytes. */
static int edges_accept(const Mesh *m, int dirt) {
    static const double points[3 * MOST_POINTS];
    Rooms r;
    memset(&r, dirt, sizeof r);
    ShellEdges found = shell_edges(points, 3 * m->P, m->faces, 3 * m->F, r.edges, SHELL_EDGES_ROOM(m->F), r.lengths, SHELL_LENGTHS_ROOM(m->F), r.rows,
                                   SHELL_FACE_EDGES_ROOM(m->F), r.work, SHELL_WORK_ROOM(m->P, m->F));
    return found.number == SHELL_ACCEPTED;
}

/* Whether the loop call does. */
static int loops_accept(const Mesh *m, int dirt) {
    static const double points[3 * MOST_POINTS];
    Rooms r;
    memset(&r, dirt, sizeof r);
    ShellLoops found = shell_loops(points, 3 * m->P, m->faces, 3 * m->F, r.rows, SHELL_LOOP_VERTICES_ROOM(m->F), r.ends, SHELL_LOOP_ENDS_ROOM(m->F), r.work,
                                   SHELL_WORK_ROOM(m->P, m->F));
    return found.number == SHELL_ACCEPTED;
}

/* Whether both accept, in rooms of zeros and in dirty ones. */
static int listed(const Mesh *m) { return edges_accept(m, 0) && edges_accept(m, 0x5a) && loops_accept(m, 0) && loops_accept(m, 0x5a); }

/* How many meshes were asked, how many are sound, and how many are not for their groups alone. */
static unsigned long meshes, sound, tied;

/* Asks one mesh, and says what differs, or NULL. */
static const char *ask(const Mesh *m) {
    Faults rule = by_rule(m), found;
    int once = rule.repeating == 0 && rule.walked == 0, yes = once && rule.tied == 0;
    meshes++;
    sound += yes;
    tied += once && !yes;
    if (!find_faults(m->faces, m->F, m->P, &found) || !same(&found, &rule))
        return "other faults are found than the rule's";
    if (!answers(m, m->P, yes))
        return "the check does not answer as the rule";
    if (!answers(m, m->P + UNUSED, yes))
        return "unused points change the answer";
    return yes && !listed(m) ? "the edge call or the loop call refuses what the check says yes to" : NULL;
}

/* Asks one mesh, and ends the program if something differs. */
static void try(const Mesh *m) {
    const char *what = ask(m);
    if (what == NULL)
        return;
    printf("checks: %s, P = %zu\n", what, m->P);
    for (size_t i = 0; i < m->F; i++)
        printf("face %u %u %u\n", m->faces[3 * i], m->faces[3 * i + 1], m->faces[3 * i + 2]);
    exit(1);
}

/* Every mesh of so many faces on so many points. */
static void try_all(size_t P, size_t F) {
    Mesh m = {{0}, P, F};
    for (size_t k = 0; k < 3 * F;) {
        try(&m);
        for (k = 0; k < 3 * F && ++m.faces[k] == P; k++)
            m.faces[k] = 0;
    }
}

/* Two faces at a point, two closed bodies with a common tip, one patch that has two groups at point 2, both sides of a face, no faces, a body. */
static void try_known(void) {
    static const Mesh known[] = {{{0, 1, 2, 0, 3, 4}, 5, 2},
                                 {{0, 2, 1, 0, 1, 3, 1, 2, 3, 2, 0, 3, 0, 5, 4, 0, 4, 6, 4, 5, 6, 5, 0, 6}, 7, 8},
                                 {{0, 1, 2, 3, 4, 2, 3, 0, 4, 1, 0, 3}, 5, 4},
                                 {{0, 1, 2, 0, 2, 1}, 3, 2},
                                 {{0}, 0, 0},
                                 {{0, 2, 1, 0, 1, 3, 1, 2, 3, 2, 0, 3}, 4, 4}};
    static const int yes[] = {0, 0, 0, 1, 1, 1};
    for (size_t k = 0; k < sizeof known / sizeof *known; k++) {
        unsigned long before = sound;
        try(known + k);
        if (sound - before != (unsigned long)yes[k]) {
            printf("checks: known mesh %zu is judged otherwise by the rule\n", k);
            exit(1);
        }
    }
}

/* Fans around a point, open and closed, and then a few corners that are others. */
static Mesh fans(void) {
    Mesh m = {{0}, 1, 0};
    for (uint32_t n = 1 + below(3); n > 0; n--) {
        uint32_t first = (uint32_t)m.P, faces = 1 + below(3);
        for (uint32_t i = 0; i <= faces; i++) {
            uint32_t *face = m.faces + 3 * m.F;
            face[1] = first + i, face[2] = i < faces ? first + i + 1 : first;
            m.F += i < faces || below(2);
        }
        m.P += faces + 1;
        if (m.P + 4 > MOST_POINTS)
            break;
    }
    for (uint32_t n = below(3); n > 0; n--)
        m.faces[below((uint32_t)(3 * m.F))] = below((uint32_t)m.P);
    return m;
}

/* Corners anywhere. */
static Mesh anywhere(void) {
    Mesh m = {{0}, 3 + below(MOST_POINTS - 2), below(7)};
    for (size_t i = 0; i < 3 * m.F; i++)
        m.faces[i] = below((uint32_t)m.P);
    return m;
}

int main(int count, char **names) {
    if (count != 2) {
        fprintf(stderr, "usage: checks MESHES\n");
        return 2;
    }
    try_known();
    try_all(5, 2);
    try_all(3, 3);
    for (unsigned long k = strtoul(names[1], NULL, 10); k > 0; k--) {
        Mesh m = k % 3 == 0 ? anywhere() : fans();
        try(&m);
    }
    printf("checks: %lu meshes, %lu sound, %lu not sound for their groups alone\n", meshes, sound, tied);
    return 0;
}
