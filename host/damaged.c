#include "damaged.h"

static uint64_t state = 20261115;

uint32_t below(uint32_t n) {
    state ^= state << 13;
    state ^= state >> 7;
    state ^= state << 17;
    return (uint32_t)((state >> 32) % n);
}

/* Adds a face, where there is room for one. */
static void add(Mesh *m, uint32_t a, uint32_t b, uint32_t c) {
    if (m->F == MOST_FACES)
        return;
    uint32_t *face = m->faces + 3 * m->F++;
    face[0] = a;
    face[1] = b;
    face[2] = c;
}

/* Faces over few points, with any corners. */
static void any_faces(Mesh *m) {
    m->P = 1 + below(9);
    for (uint32_t n = below(25); n > 0; n--) {
        uint32_t a = below(m->P), b = below(m->P), c = below(m->P);
        add(m, a, b, c);
    }
}

/* A strip, open or closed to a ring or a Moebius strip. */
static void strip(Mesh *m) {
    uint32_t n = 3 + below(20), closed = below(2);
    m->P = closed ? n : n + 2;
    for (uint32_t i = 0; i < n; i++)
        add(m, (i + i % 2) % m->P, (i + 1 - i % 2) % m->P, (i + 2) % m->P);
}

/* A grid of squares, each of two faces. */
static void grid(Mesh *m) {
    uint32_t across = 1 + below(7), down = 1 + below(7), row = across + 1;
    m->P = row * (down + 1);
    for (uint32_t i = 0; i < across * down; i++) {
        uint32_t v = i / across * row + i % across;
        add(m, v, v + 1, v + row);
        add(m, v + 1, v + row + 1, v + row);
    }
}

/* Fans around one point, each of a few faces, and some of them closed. */
static void fans(Mesh *m) {
    m->P = 1;
    for (uint32_t n = 1 + below(5); n > 0; n--) {
        uint32_t first = m->P, faces = 1 + below(5);
        for (uint32_t i = 0; i < faces; i++)
            add(m, 0, first + i, first + i + 1);
        m->P += faces + 1;
        if (below(2))
            add(m, 0, first + faces, first);
    }
}

/* Tetrahedra on random points, so that they meet in points, in edges and in faces. */
static void bodies(Mesh *m) {
    m->P = 4 + below(12);
    for (uint32_t n = 1 + below(6); n > 0; n--) {
        uint32_t a = below(m->P), b = below(m->P), c = below(m->P), d = below(m->P);
        add(m, a, b, c);
        add(m, a, d, b);
        add(m, b, d, c);
        add(m, c, d, a);
    }
}

/* One point takes the place of another in every face. */
static void merge(Mesh *m, uint32_t from, uint32_t to) {
    for (size_t i = 0; i < 3 * m->F; i++)
        if (m->faces[i] == from)
            m->faces[i] = to;
}

/* One kind of damage: corners exchanged, a face twice, a face that repeats a corner, a wrong corner, two points as one, one more face on an edge. */
static void damage(Mesh *m) {
    uint32_t *face = m->faces + 3 * below(m->F), kind = below(6), v = below(m->P), u = below(m->P), k = below(3), held = face[1];
    switch (kind) {
    case 0:
        face[1] = face[2];
        face[2] = held;
        break;
    case 1:
        add(m, face[k], face[(k + 1) % 3], face[(k + 2) % 3]);
        add(m, face[2], face[1], face[0]);
        break;
    case 2:
        face[k] = face[(k + 1) % 3];
        break;
    case 3:
        face[k] = v;
        break;
    case 4:
        merge(m, v, u);
        break;
    default:
        add(m, face[0], face[1], v);
    }
}

Mesh damaged(void) {
    static void (*const kinds[])(Mesh *) = {any_faces, strip, grid, fans, bodies};
    static const double thresholds[THRESHOLDS] = {0, 1e-12, 1.0 / 1024, 0.25};
    Mesh m = {{0}, thresholds[below(THRESHOLDS)], {0}, 0, 0};
    kinds[below(5)](&m);
    for (uint32_t n = below(8); n > 0 && m.F > 0; n--)
        damage(&m);
    uint32_t wide = below(2) ? 7 : 1000;
    for (size_t i = 0; i < 3 * m.P; i++)
        m.points[i] = ((double)below(wide) - wide / 2) / (wide == 7 ? 1 : 64);
    for (size_t i = 1; i < 3 * m.P; i += 2)
        m.points[i] = m.points[i] == 0 ? -0.0 : m.points[i];
    return m;
}
