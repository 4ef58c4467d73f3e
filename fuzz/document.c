#include "document.h"
#include "uses.h"
#include <math.h>
#include <stdio.h>
#include <stdlib.h>
#include <string.h>

int document_rooms(const Asked *a, size_t size[6], uint64_t stated[6]) {
    uint64_t P = a->P, F = a->faces_len / 3, C = a->patches;
    if (a->call == READ_PLY && document_form(a->file, a->file_len, &P, &F) == 0)
        P = F = 0;
    uint64_t work = 16 * P + 64 * F + 64, file = 170 + 24 * P + 13 * F + (uint64_t)snprintf(NULL, 0, "%lu%lu", (unsigned long)P, (unsigned long)F);
    static const size_t sizes[CALLS][6] = {{8, 4, 4, 4, 4}, {4, 8, 4, 4}, {4}, {4, 8, 4, 4}, {1}, {4, 4, 4}, {1, 4}, {8, 4, 4}};
    static const int rooms[CALLS] = {5, 4, 1, 4, 1, 3, 2, 3};
    const uint64_t all[CALLS][6] = {{3 * (P + 3 * F), 3 * F, 11, F, work}, {6 * F, 3 * F, 3 * F, work}, {work}, {C, 7 * C, C, 4 * C}, {512},
                                    {3 * F, 3 * F, work}, {file, work}, {3 * P, 3 * F, work}};
    memcpy(size, sizes[a->call], sizeof sizes[0]);
    memcpy(stated, all[a->call], sizeof all[0]);
    return rooms[a->call];
}

static int refused(Wanted *w, uint32_t number, uint64_t place) {
    w->number = number;
    w->place = place;
    return 1;
}

/* Refusals 1 and 2; then 3, 4, 5, 9 and 10; then 6: document 01's order. Of a PLY file that is read all but 6 come first. */
static int sizes_refused(const Asked *a, Wanted *w) {
    int has_points = a->call == REPAIR || a->call == EDGES || a->call == LOOPS || a->call == PATCHES || a->call == WRITE_PLY;
    if (a->call == LINE)
        return a->counts_len != 11 && refused(w, 1, 2);
    if (a->call == READ_PLY)
        return document_read_refused(a, w);
    if (has_points && a->points_len % 3 != 0)
        return refused(w, 1, 0);
    if (a->faces_len % 3 != 0)
        return refused(w, 1, 1);
    if (a->P > 4194304)
        return refused(w, 2, 0);
    if (a->faces_len / 3 > 1048576)
        return refused(w, 2, 1);
    return a->call == PATCHES && a->patches > 1048576 && refused(w, 2, 2);
}

static int content_refused(const Asked *a, Wanted *w) {
    if (a->call == REPAIR && !(0 <= a->s && a->s <= 1))
        return refused(w, 3, 0);
    if (a->call == REPAIR && a->options > 63)
        return refused(w, 3, 1);
    for (size_t i = 0; i < a->points_len; i++)
        if (!(fabs(a->points[i]) <= 0x1p100))
            return refused(w, 4, i / 3);
    for (size_t i = 0; i < a->faces_len; i++)
        if (a->faces[i] >= a->P)
            return refused(w, 5, i / 3);
    for (size_t i = 0; i < a->labels_len; i++)
        if (a->labels[i] != 4294967295u && a->labels[i] >= a->patches)
            return refused(w, 9, i);
    return a->call == PATCHES && a->labels_len != a->faces_len / 3 && refused(w, 10, 0);
}

static int rooms_refused(const Asked *a, Wanted *w) {
    size_t size[6];
    uint64_t stated[6];
    int rooms = document_rooms(a, size, stated);
    for (int k = 0; k < rooms; k++)
        if (a->room[k] < stated[k])
            return refused(w, 6, k);
    return 0;
}

static double distance(const double *to, const double *from) { return norm(to[0] - from[0], to[1] - from[1], to[2] - from[2]); }

/* Where the uses of the edge end that begin at i. */
static size_t run_end(const Use *all, size_t n, size_t i) {
    size_t j = i;
    while (j < n && same_edge(all[i], all[j]))
        j++;
    return j;
}

/* Refusal 7: the position among the edges of the first that occurs more than twice. */
static int crowded(const Use *all, size_t n, Wanted *w) {
    size_t count = 0;
    for (size_t i = 0, j; i < n; i = j, count++) {
        j = run_end(all, n, i);
        if (j - i > 2)
            return refused(w, 7, count);
    }
    return 0;
}

/* Refusal 7, and else the edge call's three rows. */
static void answer_edges(const Asked *a, Wanted *w) {
    size_t n = a->faces_len, count = 0;
    uint32_t *edges = w->row[0] = row(2 * n, 4), *face_edges = w->row[2] = row(n, 4);
    double *lengths = w->row[1] = row(n, 8);
    Use *all = uses(a->faces, n, 0);
    for (size_t i = 0, j; i < n; i = j, count++) {
        j = run_end(all, n, i);
        for (size_t k = i; k < j; k++)
            face_edges[all[k].entry] = count;
        edges[2 * count] = all[i].low;
        edges[2 * count + 1] = all[i].high;
        lengths[count] = distance(a->points + 3 * all[i].high, a->points + 3 * all[i].low);
    }
    if (!crowded(all, n, w)) {
        w->entries[0] = 2 * count;
        w->entries[1] = count;
        w->entries[2] = n;
    }
    free(all);
}

/* Each boundary loop from its lowest vertex, listed against its walk. `next` holds P where no boundary edge begins. */
static void loops(uint32_t *next, size_t P, Wanted *w) {
    uint32_t *vertices = w->row[0], *loop_ends = w->row[1];
    for (uint32_t v = 0; v < P; v++) {
        size_t first = w->entries[0];
        for (uint32_t at = v; next[at] != P;) {
            uint32_t to = next[at];
            vertices[w->entries[0]++] = at;
            next[at] = P;
            at = to;
        }
        size_t last = w->entries[0];
        if (last == first)
            continue;
        loop_ends[w->entries[1]++] = last;
        for (; first + 1 < last; first++) {
            uint32_t held = vertices[first];
            vertices[first] = vertices[--last];
            vertices[last] = held;
        }
    }
}

/* Refusals 7 and 8, and else the loop call's two rows. */
static void answer_loops(const Asked *a, Wanted *w) {
    size_t n = a->faces_len, P = a->P, fault = 0;
    uint32_t *next = row(P, 4), *begun = row(P, 4), *ended = row(P, 4);
    w->row[0] = row(n, 4);
    w->row[1] = row(n, 4);
    Use *all = uses(a->faces, n, 0);
    for (size_t v = 0; v < P; v++)
        next[v] = P;
    for (size_t i = 0, j; i < n; i = j) {
        j = run_end(all, n, i);
        if (j - i == 1) {
            begun[begins(a->faces, all[i].entry)]++;
            ended[ends(a->faces, all[i].entry)]++;
            next[begins(a->faces, all[i].entry)] = ends(a->faces, all[i].entry);
        }
    }
    while (fault < P && begun[fault] == ended[fault] && begun[fault] <= 1)
        fault++;
    if (!crowded(all, n, w) && !(fault < P && refused(w, 8, fault)))
        loops(next, P, w);
    free(all);
    free(next);
    free(begun);
    free(ended);
}

/* Whether no face repeats a corner and each directed edge is used at most once. */
static int each_once(const uint32_t *faces, size_t n) {
    Use *all = uses(faces, n, 1);
    int yes = 1;
    for (size_t i = 0; i < n; i++)
        yes = yes && all[i].low != all[i].high && (i == 0 || !same_edge(all[i - 1], all[i]));
    free(all);
    return yes;
}

static uint32_t first_of(uint32_t *parent, uint32_t i) {
    while (parent[i] != i)
        i = parent[i] = parent[parent[i]];
    return i;
}

/* The corner of its face at which a use has the vertex v. */
static uint32_t corner_at(const uint32_t *faces, Use use, uint32_t v) {
    uint32_t k = use.entry % 3, from = use.entry - k;
    return from + (faces[from + (k + 1) % 3] == v ? (k + 1) % 3 : (k + 2) % 3);
}

/* For each corner, where no face repeats one, a parent at the same point: at either end of an edge the corners of its users are joined. */
static uint32_t *groups(const uint32_t *faces, size_t n) {
    Use *all = uses(faces, n, 0);
    uint32_t *parent = row(n, 4);
    for (uint32_t i = 0; i < n; i++)
        parent[i] = i;
    for (size_t i = 1; i < n; i++)
        if (same_edge(all[i - 1], all[i])) {
            parent[first_of(parent, corner_at(faces, all[i], all[i].low))] = first_of(parent, corner_at(faces, all[i - 1], all[i].low));
            parent[first_of(parent, corner_at(faces, all[i], all[i].high))] = first_of(parent, corner_at(faces, all[i - 1], all[i].high));
        }
    free(all);
    return parent;
}

/* Whether the faces at each used point, where none repeats a corner, form one group; if asked, whether each point is used too. */
static int one_group(const uint32_t *faces, size_t n, size_t P, int all_used) {
    uint32_t *parent = groups(faces, n), *group = row(P, 4);
    int ok = 1;
    for (uint32_t i = 0; i < n; i++) {
        uint32_t first = 1 + first_of(parent, i);
        ok = ok && (group[faces[i]] == 0 || group[faces[i]] == first);
        group[faces[i]] = first;
    }
    for (size_t v = 0; v < P && all_used; v++)
        ok = ok && group[v] != 0;
    free(parent);
    free(group);
    return ok;
}

/* The edge check: whether no face repeats a corner, each directed edge is used at most once, and the faces at each used point form one group. */
static int sound(const uint32_t *faces, size_t n, size_t P) { return each_once(faces, n) && one_group(faces, n, P, 0); }

static double area(const double *a, const double *b, const double *c) {
    double x[3], y[3];
    for (int k = 0; k < 3; k++) {
        x[k] = b[k] - a[k];
        y[k] = c[k] - a[k];
    }
    return 0.5 * norm(x[1] * y[2] - x[2] * y[1], x[2] * y[0] - x[0] * y[2], x[0] * y[1] - x[1] * y[0]);
}

/* One face taken into its patch's area and box. */
static void take_in(const Asked *a, const uint32_t *face, double *seven) {
    const double *p[3] = {a->points + 3 * face[0], a->points + 3 * face[1], a->points + 3 * face[2]};
    seven[0] = seven[0] + area(p[0], p[1], p[2]);
    for (int k = 0; k < 9; k++) {
        double x = p[k / 3][k % 3];
        if (x < seven[1 + k % 3])
            seven[1 + k % 3] = x;
        if (x > seven[4 + k % 3])
            seven[4 + k % 3] = x;
    }
}

/* How many patches rank before patch i by area. */
static size_t before(const double *numbers, size_t C, size_t i) {
    size_t count = 0;
    for (size_t j = 0; j < C; j++)
        count += numbers[7 * j] > numbers[7 * i] || (numbers[7 * j] == numbers[7 * i] && j < i);
    return count;
}

static int kept(const Asked *a, const Wanted *w, size_t i, double largest) {
    const double *numbers = w->row[1], *seven = numbers + 7 * i;
    uint32_t faces = ((const uint32_t *)w->row[0])[i];
    double diagonal = faces == 0 ? 0 : norm(seven[4] - seven[1], seven[5] - seven[2], seven[6] - seven[3]);
    int drop = ((a->limits & 1) && faces < a->min_faces) || ((a->limits & 2) && seven[0] < a->least[0]) || ((a->limits & 4) && diagonal < a->least[1]) ||
               ((a->limits & 8) && seven[0] < largest * a->least[2]) || ((a->limits & 16) && before(numbers, a->patches, i) >= a->keep_largest_n);
    return !drop;
}

static void answer_patches(const Asked *a, Wanted *w) {
    size_t C = a->patches;
    uint32_t *counts = w->row[0] = row(C, 4), *flags = w->row[2] = row(C, 4);
    double *numbers = w->row[1] = row(7 * C, 8), largest = 0;
    for (size_t i = 0; i < 7 * C; i++)
        numbers[i] = i % 7 == 0 ? 0 : i % 7 < 4 ? INFINITY : -INFINITY;
    for (size_t i = 0; i < a->labels_len; i++)
        if (a->labels[i] != 4294967295u) {
            counts[a->labels[i]]++;
            take_in(a, a->faces + 3 * i, numbers + 7 * a->labels[i]);
        }
    for (size_t i = 0; i < C; i++)
        largest = numbers[7 * i] > largest ? numbers[7 * i] : largest;
    for (size_t i = 0; i < C; i++)
        flags[i] = kept(a, w, i, largest);
    w->entries[0] = w->entries[2] = C;
    w->entries[1] = 7 * C;
}

/* The line of ten numbers, of which the first is the sum of the first two counts. */
static void answer_line(const Asked *a, Wanted *w) {
    static const char *const labels[] = {"degenerate faces removed", "duplicate faces removed", "non-manifold edges", "faces dropped there",
                                         "faces dropped as unorientable", "bowtie vertices split", "points added", "faces reoriented",
                                         "non-orientable components", "isolated vertices removed"};
    char *line = w->row[0] = row(512, 1);
    int at = 0;
    for (int k = 0; k < 10; k++) {
        unsigned long long number = k == 0 ? (unsigned long long)a->counts[0] + a->counts[1] : a->counts[k + 1];
        if (number != 0)
            at += snprintf(line + at, 512 - at, "%s%llu %s", at == 0 ? "" : ", ", number, labels[k]);
    }
    if (at == 0)
        at = snprintf(line, 512, "mesh was already manifold, nothing changed");
    w->entries[0] = at;
}

Wanted document_answer(const Asked *a) {
    Wanted w = {0, 0, {0}, {NULL}};
    if (sizes_refused(a, &w) || content_refused(a, &w) || rooms_refused(a, &w))
        return w;
    if (a->call == REPAIR)
        document_repair(a, &w);
    if (a->call == EDGES)
        answer_edges(a, &w);
    if (a->call == LOOPS)
        answer_loops(a, &w);
    if (a->call == CHECK)
        w.entries[0] = sound(a->faces, a->faces_len, a->P);
    if (a->call == PATCHES)
        answer_patches(a, &w);
    if (a->call == LINE)
        answer_line(a, &w);
    if (a->call == WRITE_PLY)
        document_write(a, &w);
    if (a->call == READ_PLY)
        document_read(a, &w);
    return w;
}

void document_free(Wanted *w) {
    for (int k = 0; k < 6; k++)
        free(w->row[k]);
}

/* Whether a face stands where an input face does, corners 1 and 2 exchanged or not. */
static int stands(const double *was_points, const uint32_t *was, const double *points, const uint32_t *is) {
    int same = 1, exchanged = 1;
    for (int k = 0; k < 3; k++) {
        same = same && memcmp(was_points + 3 * was[k], points + 3 * is[k], 24) == 0;
        exchanged = exchanged && memcmp(was_points + 3 * was[k], points + 3 * is[(3 - k) % 3], 24) == 0;
    }
    return same || exchanged;
}

const char *document_traced(const Asked *a, const double *points, const uint32_t *faces, size_t F, const uint32_t *origins) {
    for (size_t k = 0; k < F; k++) {
        if (origins[k] >= a->faces_len / 3)
            return "an origin is no input face";
        if (k > 0 && origins[k - 1] >= origins[k])
            return "origins do not rise";
        if (!stands(a->points, a->faces + 3 * origins[k], points, faces + 3 * k))
            return "a face does not stand where its origin does";
    }
    return NULL;
}

const char *document_demand(const Asked *a, size_t P, const uint32_t *faces, size_t F, const uint32_t *report) {
    size_t was = a->faces_len / 3;
    if (was != F + report[0] + report[1] + report[2] + report[4] + report[5] || a->P + report[7] != P + report[10])
        return "the counts do not add up";
    for (size_t i = 0; i < 3 * F; i++)
        if (faces[i] >= P)
            return "a corner is no point";
    if (!each_once(faces, 3 * F))
        return "a directed edge is walked twice";
    return one_group(faces, 3 * F, P, 1) ? NULL : "a point has not one fan";
}
