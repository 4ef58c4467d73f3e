#include "mending.h"
#include "lend.h"
#include "shell.h"
#include "uses.h"
#include <math.h>
#include <stdarg.h>
#include <stdio.h>
#include <stdlib.h>
#include <string.h>

void add_bytes(Text *text, const void *bytes, size_t length) {
    if (text->held < text->length + length + 1) {
        text->held = 2 * (text->length + length + 1);
        text->bytes = realloc(text->bytes, text->held);
        if (text->bytes == NULL)
            abort();
    }
    if (length > 0)
        memcpy(text->bytes + text->length, bytes, length);
    text->length += length;
}

/* Adds to a text what printf would print. */
static void say(Text *text, const char *form, ...) {
    char some[64];
    va_list values;
    va_start(values, form);
    int length = vsnprintf(some, sizeof some, form, values);
    va_end(values);
    add_bytes(text, some, (size_t)length);
}

/* ---- the list of a repair */

/* A mesh on its way through the passes: each face has three corners and the number that it had in the input. */
typedef struct {
    double *points, s;
    uint32_t *faces, *origins;
    size_t P, F;
    uint8_t *marks;
    Text list;
} Bench;

/* The three corners of a face. */
static uint32_t *corners(const Bench *b, size_t i) { return b->faces + 3 * i; }

/* Whether a face has the corner v. */
static int has(const uint32_t *face, uint32_t v) { return face[0] == v || face[1] == v || face[2] == v; }

/* The step from one corner of a face to another, as three differences. */
static void between(const Bench *b, size_t i, int from, int to, double out[3]) {
    const double *p = b->points + 3 * (size_t)corners(b, i)[from], *q = b->points + 3 * (size_t)corners(b, i)[to];
    for (int k = 0; k < 3; k++)
        out[k] = q[k] - p[k];
}

/* The squared norm of a step, and the norm of the cross of two. */
static double square(const double e[3]) { return (e[0] * e[0] + e[1] * e[1]) + e[2] * e[2]; }
static double crossed(const double a[3], const double b[3]) {
    double c[3] = {a[1] * b[2] - a[2] * b[1], a[2] * b[0] - a[0] * b[2], a[0] * b[1] - a[1] * b[0]};
    return sqrt(square(c));
}

/* The quality of a face. */
static double quality(const Bench *b, size_t i) {
    double e0[3], e1[3], e2[3];
    between(b, i, 0, 1, e0);
    between(b, i, 1, 2, e1);
    between(b, i, 2, 0, e2);
    double sum = (square(e0) + square(e1)) + square(e2);
    return sum <= 0 ? 0 : ((4 * sqrt(3)) * (crossed(e0, e1) * 0.5)) / sum;
}

/* Why a face is degenerate, or NULL. */
static const char *degenerate(const Bench *b, size_t i) {
    const uint32_t *c = corners(b, i);
    double e1[3], e2[3];
    if (c[0] == c[1] || c[0] == c[2] || c[1] == c[2])
        return "repeated";
    between(b, i, 0, 1, e1);
    between(b, i, 0, 2, e2);
    return crossed(e1, e2) <= (b->s * sqrt(square(e1))) * sqrt(square(e2)) ? "thin" : NULL;
}

/* Drops the marked faces, with a line for each of them, and takes the marks away. */
static void drop_marked(Bench *b, int pass, const char *reason) {
    size_t kept = 0;
    for (size_t i = 0; i < b->F; i++)
        if (b->marks[i]) {
            say(&b->list, "d\t%u\t%d\t%s\n", b->origins[i], pass, reason != NULL ? reason : degenerate(b, i));
        } else {
            memmove(corners(b, kept), corners(b, i), 12);
            b->origins[kept++] = b->origins[i];
        }
    memset(b->marks, 0, b->F);
    b->F = kept;
}

/* Whether two faces have the same corners, in any order and each as often. */
static int alike(const uint32_t *one, const uint32_t *other) {
    static const int orders[6][3] = {{0, 1, 2}, {0, 2, 1}, {1, 0, 2}, {1, 2, 0}, {2, 0, 1}, {2, 1, 0}};
    for (int k = 0; k < 6; k++)
        if (one[0] == other[orders[k][0]] && one[1] == other[orders[k][1]] && one[2] == other[orders[k][2]])
            return 1;
    return 0;
}

/* Pass 1: degenerate faces leave. */
static void list_degenerate(Bench *b) {
    for (size_t i = 0; i < b->F; i++)
        b->marks[i] = degenerate(b, i) != NULL;
    drop_marked(b, 1, NULL);
}

/* Pass 2: of faces with the same corners the first stays. */
static void list_duplicate(Bench *b) {
    for (size_t i = 0; i < b->F; i++)
        for (size_t j = 0; j < i && !b->marks[i]; j++)
            b->marks[i] = alike(corners(b, i), corners(b, j));
    drop_marked(b, 2, "duplicate");
}

/* Where a step of a face begins, and where it ends. */
static uint32_t from(const Bench *b, size_t step) { return b->faces[step]; }
static uint32_t to(const Bench *b, size_t step) { return b->faces[step % 3 == 2 ? step - 2 : step + 1]; }

/* Whether a step lies on the edge between two points: from the first to the second, or where directions do not matter either way. */
static int lies_on(const Bench *b, size_t step, uint32_t one, uint32_t other, int directed) {
    return (from(b, step) == one && to(b, step) == other) || (!directed && from(b, step) == other && to(b, step) == one);
}

/* The steps on an edge, in face order; how many. */
static size_t entries(const Bench *b, uint32_t one, uint32_t other, int directed, size_t *found) {
    size_t count = 0;
    for (size_t step = 0; step < 3 * b->F; step++)
        if (lies_on(b, step, one, other, directed))
            found[count++] = step;
    return count;
}

/* Whether a face anywhere steps from one point to another. */
static int walks(const Bench *b, size_t face, uint32_t one, uint32_t other) {
    for (size_t step = 3 * face; step < 3 * face + 3; step++)
        if (lies_on(b, step, one, other, 1))
            return 1;
    return 0;
}

/* Sorts entries by rank: the higher quality of their face first, equal ones by the lower face. */
static void rank(const Bench *b, size_t *found, size_t count) {
    for (size_t i = 1; i < count; i++)
        for (size_t k = i; k > 0; k--) {
            size_t before = found[k - 1], here = found[k];
            double one = quality(b, before / 3), other = quality(b, here / 3);
            if (one > other || (one == other && before / 3 <= here / 3))
                break;
            found[k - 1] = here;
            found[k] = before;
        }
}

/* Marks the faces that an edge with more than two entries, ranked, does not keep: the first stays, and the next whose walk differs, or the second. */
static void mark_crowded(Bench *b, const size_t *found, size_t count) {
    uint32_t one = from(b, found[0]), other = to(b, found[0]), low = one < other ? one : other, high = one < other ? other : one;
    size_t first = found[0] / 3, second = found[1] / 3;
    for (size_t k = count; k-- > 1;)
        if (walks(b, found[k] / 3, low, high) != walks(b, first, low, high))
            second = found[k] / 3;
    for (size_t k = 1; k < count; k++)
        if (found[k] / 3 != first && found[k] / 3 != second)
            b->marks[found[k] / 3] = 1;
}

/* Goes through the edges, or where directions matter the directed edges, each at its first entry, and marks the faces that leave. */
static void mark_edges(Bench *b, int directed) {
    size_t *found = row(3 * b->F, sizeof *found);
    for (size_t step = 0; step < 3 * b->F; step++) {
        size_t count = entries(b, from(b, step), to(b, step), directed, found);
        if (found[0] != step || count <= (directed ? 1 : 2))
            continue;
        rank(b, found, count);
        if (!directed)
            mark_crowded(b, found, count);
        for (size_t k = 1; k < count && directed; k++)
            b->marks[found[k] / 3] = 1;
    }
    free(found);
}

/* Pass 3: of three and more faces on an edge two stay. */
static void list_crowded(Bench *b) {
    mark_edges(b, 0);
    drop_marked(b, 3, "edge");
}

/* The walk of pass 4: which faces were visited, which had their corners exchanged, and the stack. */
typedef struct {
    uint8_t *visited, *turned;
    size_t *stack, height, *found;
} Walk;

/* Goes across one step of the popped face, to the users of its edge in order, itself skipped. */
static void cross(Bench *b, Walk *w, size_t step) {
    uint32_t one = from(b, step), other = to(b, step);
    size_t count = entries(b, one, other, 0, w->found);
    for (size_t k = 0; k < count; k++) {
        size_t face = w->found[k] / 3;
        if (face == step / 3 || w->visited[face])
            continue;
        w->visited[face] = 1;
        w->stack[w->height++] = face;
        if (!walks(b, face, other, one)) {
            uint32_t *c = corners(b, face), held = c[1];
            c[1] = c[2];
            c[2] = held;
            w->turned[face] = 1;
        }
    }
}

/* The first half of pass 4, with a line for each exchange. */
static void list_exchanges(Bench *b) {
    Walk w = {row(b->F, 1), row(b->F, 1), row(b->F, sizeof(size_t)), 0, row(3 * b->F, sizeof(size_t))};
    for (size_t start = 0; start < b->F; start++) {
        if (w.visited[start])
            continue;
        w.visited[start] = 1;
        w.stack[w.height++] = start;
        while (w.height > 0) {
            size_t face = w.stack[--w.height];
            for (size_t step = 3 * face; step < 3 * face + 3; step++)
                cross(b, &w, step);
        }
    }
    for (size_t i = 0; i < b->F; i++)
        if (w.turned[i])
            say(&b->list, "o\t%u\n", b->origins[i]);
    free(w.visited), free(w.turned), free(w.stack), free(w.found);
}

/* Pass 4: exchanges, and then of the faces that walk an edge in one direction the first stays. */
static void list_orientation(Bench *b) {
    list_exchanges(b);
    mark_edges(b, 1);
    drop_marked(b, 4, "direction");
}

/* Whether two faces at the point v share another corner. */
static int share(const uint32_t *one, const uint32_t *other, uint32_t v) {
    for (int k = 0; k < 3; k++)
        if (one[k] != v && has(other, one[k]))
            return 1;
    return 0;
}

/* The group of each entry at v, which is a corner equal to it: the first entry that it is joined with, over any others. */
static void find_groups(const Bench *b, uint32_t v, size_t *group) {
    for (size_t c = 0; c < 3 * b->F; c++)
        group[c] = c;
    for (int changed = 1; changed;) {
        changed = 0;
        for (size_t c = 0; c < 3 * b->F; c++)
            for (size_t d = 0; d < 3 * b->F && b->faces[c] == v; d++)
                if (b->faces[d] == v && group[d] < group[c] && share(corners(b, c / 3), corners(b, d / 3), v)) {
                    group[c] = group[d];
                    changed = 1;
                }
    }
}

/* Copies the point v, and gives the copy to the faces of one group that still have v, with a line that names them. */
static void split_off(Bench *b, uint32_t v, const uint8_t *in_group) {
    uint32_t new = (uint32_t)b->P++;
    memcpy(b->points + 3 * (size_t)new, b->points + 3 * (size_t)v, 24);
    say(&b->list, "s\t%u\t%u", v, new);
    for (size_t i = 0; i < b->F; i++)
        if (in_group[i] && has(corners(b, i), v)) {
            say(&b->list, "\t%u", b->origins[i]);
            for (int k = 0; k < 3; k++)
                if (corners(b, i)[k] == v)
                    corners(b, i)[k] = new;
        }
    say(&b->list, "\n");
}

/* Pass 5: points whose entries form several groups. A group is told by its first entry, and the group of the very first entry keeps the point. */
static void list_splits(Bench *b) {
    size_t P = b->P, n = 3 * b->F, *group = row(n, sizeof *group), *found = row(n, sizeof *found);
    uint8_t *in_group = row(b->F, 1);
    for (uint32_t v = 0; v < P; v++) {
        size_t count = 0;
        for (size_t c = 0; c < n; c++)
            if (b->faces[c] == v)
                found[count++] = c;
        if (count > 1)
            find_groups(b, v, group);
        for (size_t k = 1; k < count; k++) {
            if (group[found[k]] != found[k])
                continue;
            memset(in_group, 0, b->F);
            for (size_t j = 0; j < count; j++)
                in_group[found[j] / 3] |= group[found[j]] == found[k];
            split_off(b, v, in_group);
        }
    }
    free(group), free(found), free(in_group);
}

/* Pass 6: unused points, by the numbers that they have as it begins. */
static void list_isolated(Bench *b) {
    for (uint32_t v = 0; v < b->P; v++) {
        int used = 0;
        for (size_t i = 0; i < b->F && !used; i++)
            used = has(corners(b, i), v);
        if (!used)
            say(&b->list, "u\t%u\n", v);
    }
}

/* The input as a mesh of its own, with room for what may be added. */
static Bench bench(const double *points, size_t P, const uint32_t *faces, size_t F) {
    Bench b = {.points = row(3 * (P + 3 * F), 8), .faces = row(3 * F, 4), .origins = row(F, 4), .P = P, .F = F, .marks = row(F, 1)};
    if (P > 0)
        memcpy(b.points, points, 24 * P);
    if (F > 0)
        memcpy(b.faces, faces, 12 * F);
    for (uint32_t i = 0; i < F; i++)
        b.origins[i] = i;
    return b;
}

Text mending_list(const double *points, size_t P, const uint32_t *faces, size_t F, double s, uint32_t options) {
    static void (*const passes[6])(Bench *) = {list_degenerate, list_duplicate, list_crowded, list_orientation, list_splits, list_isolated};
    static const uint32_t bits[6] = {1, 2, 4, 16, 8, 32};
    Bench b = bench(points, P, faces, F);
    b.s = s;
    add_bytes(&b.list, "", 0);
    for (int k = 0; k < 6; k++)
        if (options & bits[k])
            passes[k](&b);
    free(b.points), free(b.faces), free(b.origins), free(b.marks);
    return b.list;
}

/* ---- a list applied */

/* A field of a line. */
typedef struct {
    const uint8_t *at;
    size_t length;
} Field;

/* A line that has the form: its letter, the section and the two numbers that order it, and all its numbers. */
typedef struct {
    char letter;
    uint32_t order[3], *numbers;
    size_t count;
} Line;

/* Whether a field is these letters. */
static int is(Field f, const char *word) { return f.length == strlen(word) && memcmp(f.at, word, f.length) == 0; }

/* Whether a field is a decimal number of 32 bits without leading zeros, and that number. */
static int whole(Field f, uint32_t *number) {
    uint64_t n = 0;
    if (f.length == 0 || f.length > 10 || (f.length > 1 && f.at[0] == '0'))
        return 0;
    for (size_t i = 0; i < f.length; i++) {
        if (f.at[i] < '0' || f.at[i] > '9')
            return 0;
        n = 10 * n + (f.at[i] - (uint64_t)'0');
    }
    *number = (uint32_t)n;
    return n <= UINT32_MAX;
}

/* The section of a drop by its pass and its reason; 0 where they do not belong together. */
static uint32_t drop_section(Field pass, Field reason) {
    static const struct {
        const char *pass, *reason;
        uint32_t section;
    } all[5] = {{"1", "repeated", 1}, {"1", "thin", 1}, {"2", "duplicate", 2}, {"3", "edge", 3}, {"4", "direction", 5}};
    for (int k = 0; k < 5; k++)
        if (is(pass, all[k].pass) && is(reason, all[k].reason))
            return all[k].section;
    return 0;
}

/* Whether the fields of a line have the form, and the line that they are. */
static int read_fields(const Field *fields, size_t count, Line *line) {
    int drop = is(fields[0], "d"), exchange = is(fields[0], "o"), split = is(fields[0], "s"), isolated = is(fields[0], "u");
    if (!(drop || exchange || split || isolated))
        return 0;
    line->letter = (char)fields[0].at[0];
    line->order[0] = drop && count == 4 ? drop_section(fields[2], fields[3]) : drop ? 0 : exchange ? 4 : split ? 6 : 7;
    if (line->order[0] == 0 || (split ? count < 3 : !drop && count != 2))
        return 0;
    line->count = drop ? 1 : count - 1;
    for (size_t k = 0; k < line->count; k++)
        if (!whole(fields[k + 1], line->numbers + k))
            return 0;
    for (size_t k = 3; k < line->count; k++)
        if (line->numbers[k - 1] >= line->numbers[k])
            return 0;
    line->order[1] = line->numbers[0];
    line->order[2] = split ? line->numbers[1] : 0;
    return 1;
}

/* Whether the bytes of a line, without its newline, have the form, and the line that they are. Its numbers are to be freed in any case. */
static int read_line(const uint8_t *at, size_t length, Line *line) {
    Field *fields = row(length + 1, sizeof *fields);
    size_t count = 0;
    fields[0].at = at;
    for (size_t i = 0; i < length; i++)
        if (at[i] == '\t')
            fields[++count].at = at + i + 1;
        else
            fields[count].length++;
    line->numbers = row(count + 1, sizeof *line->numbers);
    int good = read_fields(fields, count + 1, line);
    free(fields);
    return good;
}

/* What stands after some lines: the mesh, where each face has the place that it has in the input; which faces are gone and which points are named unused; how
 * many points were split off, and what orders the last line. */
typedef struct {
    double *points;
    uint32_t *faces, last[3];
    uint8_t *gone, *unused;
    size_t P, F, splits;
} State;

/* Whether the line stands behind the last one: the first number that differs is higher. */
static int in_order(const State *s, const Line *line) {
    int k = 0;
    while (k < 2 && line->order[k] == s->last[k])
        k++;
    return line->order[k] > s->last[k];
}

/* Whether a point is a corner of a face that is there. */
static int used(const State *s, uint32_t v) {
    for (size_t i = 0; i < s->F; i++)
        if (!s->gone[i] && has(s->faces + 3 * i, v))
            return 1;
    return 0;
}

/* Whether a line applies to what stands. */
static int applies(const State *s, const Line *line) {
    const uint32_t *n = line->numbers;
    if (line->letter == 'd' || line->letter == 'o')
        return n[0] < s->F && !s->gone[n[0]];
    if (line->letter == 'u')
        return n[0] < s->P + s->splits && !used(s, n[0]);
    if (s->splits >= 3 * s->F || n[0] >= s->P || n[1] != s->P + s->splits)
        return 0;
    for (size_t k = 2; k < line->count; k++)
        if (n[k] >= s->F || s->gone[n[k]] || !has(s->faces + 3 * (size_t)n[k], n[0]))
            return 0;
    return 1;
}

/* Changes what stands by a line that applies. */
static void change(State *s, const Line *line) {
    const uint32_t *n = line->numbers;
    memcpy(s->last, line->order, sizeof s->last);
    if (line->letter == 'd')
        s->gone[n[0]] = 1;
    if (line->letter == 'u')
        s->unused[n[0]] = 1;
    if (line->letter == 'o') {
        uint32_t *face = s->faces + 3 * (size_t)n[0], held = face[1];
        face[1] = face[2];
        face[2] = held;
    }
    if (line->letter != 's')
        return;
    memcpy(s->points + 3 * (size_t)n[1], s->points + 3 * (size_t)n[0], 24);
    s->splits++;
    for (size_t k = 2; k < line->count; k++)
        for (size_t c = 3 * (size_t)n[k]; c < 3 * (size_t)n[k] + 3; c++)
            if (s->faces[c] == n[0])
                s->faces[c] = n[1];
}

/* Applies line after line, and returns the number of the first bad one; or how many there are, if none is. */
static size_t apply_lines(State *s, const uint8_t *text, size_t length, int *bad) {
    size_t number = 0;
    *bad = 0;
    for (size_t at = 0; at < length && !*bad;) {
        const uint8_t *end = memchr(text + at, '\n', length - at);
        Line line = {0, {0, 0, 0}, NULL, 0};
        *bad = end == NULL || !read_line(text + at, (size_t)(end - text) - at, &line) || !in_order(s, &line) || !applies(s, &line);
        if (!*bad) {
            change(s, &line);
            at = (size_t)(end - text) + 1;
            number++;
        }
        free(line.numbers);
    }
    return number;
}

/* The mesh that is left: faces that are gone are not in it, the points named unused leave together, and the corners are renumbered. */
static void finish(const State *s, Mended *m) {
    uint32_t *numbers = row(s->P + s->splits, sizeof *numbers);
    m->points = row(3 * (s->P + s->splits), 8);
    m->faces = row(3 * s->F, 4);
    for (size_t v = 0; v < s->P + s->splits; v++)
        if (!s->unused[v]) {
            numbers[v] = (uint32_t)m->P;
            memcpy(m->points + 3 * m->P++, s->points + 3 * v, 24);
        }
    for (size_t i = 0; i < s->F; i++) {
        for (int k = 0; k < 3 && !s->gone[i]; k++)
            m->faces[3 * m->F + (size_t)k] = numbers[s->faces[3 * i + (size_t)k]];
        m->F += !s->gone[i];
    }
    free(numbers);
}

/* Notes a refusal; not if there is one already. */
static void refuse(Mended *m, int bad, uint32_t number, size_t place) {
    if (bad && m->number == 0) {
        m->number = number;
        m->place = place;
    }
}

void mending_rooms(const Applying *a, size_t stated[3]) {
    size_t P = a->points_len / 3, F = a->faces_len / 3;
    stated[0] = 3 * (P + 3 * F);
    stated[1] = 3 * F;
    stated[2] = 16 * P + 64 * F + 64;
}

/* Refusals 1 and 2. */
static void refuse_sizes(size_t points_len, size_t faces_len, Mended *m) {
    refuse(m, points_len % 3 != 0, 1, 0);
    refuse(m, faces_len % 3 != 0, 1, 1);
    refuse(m, points_len / 3 > 4194304, 2, 0);
    refuse(m, faces_len / 3 > 1048576, 2, 1);
}

/* Refusals 4 and 5. */
static void refuse_entries(const double *points, size_t P, const uint32_t *faces, size_t F, Mended *m) {
    for (size_t i = 0; i < 3 * P && m->number == 0; i++)
        refuse(m, !(fabs(points[i]) <= 0x1p100), 4, i / 3);
    for (size_t i = 0; i < 3 * F && m->number == 0; i++)
        refuse(m, faces[i] >= P, 5, i / 3);
}

Mended mending_applied(const Applying *a) {
    Mended m = {0, 0, 0, 0, NULL, NULL};
    size_t stated[3], P = a->points_len / 3, F = a->faces_len / 3;
    refuse_sizes(a->points_len, a->faces_len, &m);
    refuse_entries(a->points, P, a->faces, F, &m);
    if (m.number != 0)
        return m;
    Bench b = bench(a->points, P, a->faces, F);
    State s = {b.points, b.faces, {0, 0, 0}, row(F, 1), row(P + 3 * F, 1), P, F, 0};
    int bad;
    size_t number = apply_lines(&s, a->text, a->text_len, &bad);
    refuse(&m, bad, 15, number);
    mending_rooms(a, stated);
    for (uint32_t k = 0; k < 3; k++)
        refuse(&m, a->room[k] < stated[k], 6, k);
    if (m.number == 0)
        finish(&s, &m);
    free(b.points), free(b.faces), free(b.origins), free(b.marks), free(s.gone), free(s.unused);
    return m;
}

void mending_free(Mended *m) {
    free(m->points);
    free(m->faces);
}

const char *mending_differs(const Applying *a, const Lending *how, const Mended *wanted) {
    static const size_t sizes[3] = {8, 4, 4};
    size_t stated[3];
    void *room[3];
    mending_rooms(a, stated);
    for (int k = 0; k < 3; k++) {
        room[k] = lend(k, a->room[k], sizes[k], how->front);
        soil(k, how->dirt, how->seed + (unsigned)k);
        keep(k);
        if (a->room[k] == 0 && how->null)
            room[k] = NULL;
    }
    ShellApplied found = shell_apply(a->points, a->points_len, a->faces, a->faces_len, a->text, a->text_len, room[0], a->room[0], room[1], a->room[1], room[2],
                                     a->room[2]);
    if (found.number != wanted->number || found.place != wanted->place)
        return "another number or place";
    if (found.points != 3 * wanted->P || found.faces != 3 * wanted->F)
        return "other counts";
    int refused = wanted->number != 0;
    if (!holds(0, wanted->points, 3 * wanted->P, refused ? 0 : stated[0]))
        return refused ? "the points room is changed" : "the points room does not hold what it must";
    if (!holds(1, wanted->faces, 3 * wanted->F, refused ? 0 : stated[1]))
        return refused ? "the faces room is changed" : "the faces room does not hold what it must";
    if (!holds(2, NULL, 0, refused ? 0 : stated[2]))
        return refused ? "the work room is changed" : "the work room does not hold what it must";
    return NULL;
}

/* ---- a list written */

void judge_rooms(const Listing *l, Listed *wanted) {
    int text = l->room[0] < wanted->list.length, work = l->room[1] < 16 * (l->points_len / 3) + 64 * (l->faces_len / 3) + 64;
    if (wanted->number == 0 || wanted->number == 6) {
        wanted->number = text || work ? 6 : 0;
        wanted->place = !text && work;
    }
}

Listed mending_listed(const Listing *l) {
    Mended m = {0, 0, 0, 0, NULL, NULL};
    size_t P = l->points_len / 3, F = l->faces_len / 3;
    refuse_sizes(l->points_len, l->faces_len, &m);
    refuse(&m, !(0 <= l->s && l->s <= 1), 3, 0);
    refuse(&m, l->options > 63, 3, 1);
    refuse_entries(l->points, P, l->faces, F, &m);
    Listed wanted = {m.number, m.place, {NULL, 0, 0}};
    if (m.number == 0)
        wanted.list = mending_list(l->points, P, l->faces, F, l->s, l->options);
    judge_rooms(l, &wanted);
    return wanted;
}

const char *listing_differs(const Listing *l, const Lending *how, const Listed *wanted) {
    static const size_t sizes[2] = {1, 4};
    size_t P = l->points_len / 3, F = l->faces_len / 3;
    void *room[2];
    for (int k = 0; k < 2; k++) {
        room[k] = lend(k, l->room[k], sizes[k], k == 0 ? how->front : !how->front);
        soil(k, how->dirt, how->seed + (unsigned)k);
        keep(k);
        if (l->room[k] == 0 && how->null)
            room[k] = NULL;
    }
    ShellList found = shell_list(l->points, l->points_len, l->faces, l->faces_len, l->s, l->options, room[0], l->room[0], room[1], l->room[1]);
    int refused = wanted->number != 0;
    if (found.number != wanted->number || found.place != wanted->place)
        return "the list: another number or place";
    if (found.bytes != (refused ? 0 : wanted->list.length))
        return "the list: another length";
    if (!holds(0, wanted->list.bytes, (size_t)found.bytes, (size_t)found.bytes))
        return refused ? "the list: the text room is changed" : "the list: the text room does not hold what it must";
    if (!holds(1, NULL, 0, refused ? 0 : 16 * P + 64 * F + 64))
        return refused ? "the list: the work room is changed" : "the list: the work room does not hold what it must";
    return NULL;
}
