#include "uses.h"
#include <math.h>
#include <stdlib.h>

void *row(size_t n, size_t size) {
    void *out = calloc(n + 1, size);
    if (out == NULL)
        abort();
    return out;
}

double norm(double x, double y, double z) { return sqrt((x * x + y * y) + z * z); }

uint32_t begins(const uint32_t *faces, uint32_t entry) { return faces[entry - entry % 3 + (entry % 3 + 1) % 3]; }
uint32_t ends(const uint32_t *faces, uint32_t entry) { return faces[entry - entry % 3 + (entry % 3 + 2) % 3]; }

static int by_ends(const void *one, const void *other) {
    const Use *x = one, *y = other;
    if (x->low != y->low)
        return x->low < y->low ? -1 : 1;
    if (x->high != y->high)
        return x->high < y->high ? -1 : 1;
    return (x->entry > y->entry) - (x->entry < y->entry);
}

Use *uses(const uint32_t *faces, size_t n, int directed) {
    Use *all = row(n, sizeof *all);
    for (uint32_t i = 0; i < n; i++) {
        uint32_t from = begins(faces, i), to = ends(faces, i);
        Use use = {from, to, i};
        if (!directed && to < from) {
            use.low = to;
            use.high = from;
        }
        all[i] = use;
    }
    qsort(all, n, sizeof *all, by_ends);
    return all;
}

int same_edge(Use x, Use y) { return x.low == y.low && x.high == y.high; }
