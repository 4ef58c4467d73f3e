/* What the plain C of document 01 shares: rows of zeros, norms, and the uses of edges. */
#ifndef JOGASMUN_USES_H
#define JOGASMUN_USES_H

#include <stddef.h>
#include <stdint.h>

/* So many entries of zero, at least one. */
void *row(size_t n, size_t size);

double norm(double x, double y, double z);

/* A use of an edge: its ends, and its entry, 3i for step (1,2) of face i, 3i + 1 for (2,0), 3i + 2 for (0,1). */
typedef struct {
    uint32_t low, high, entry;
} Use;

uint32_t begins(const uint32_t *faces, uint32_t entry);
uint32_t ends(const uint32_t *faces, uint32_t entry);

/* All uses, sorted by ends and then in face order; with `directed`, low is where the step begins. */
Use *uses(const uint32_t *faces, size_t n, int directed);

int same_edge(Use x, Use y);

#endif
