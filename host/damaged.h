/* Damaged meshes, from a fixed seed, for programs that try the calls on many. */
#ifndef JOGASMUN_DAMAGED_H
#define JOGASMUN_DAMAGED_H

#include <stddef.h>
#include <stdint.h>

/* The largest mesh, and how many thresholds there are. */
enum { MOST_POINTS = 64, MOST_FACES = 160, THRESHOLDS = 4 };

/* A mesh with its threshold. */
typedef struct {
    double points[3 * MOST_POINTS], s;
    uint32_t faces[3 * MOST_FACES];
    size_t P, F;
} Mesh;

/* A number below n, by xorshift. */
uint32_t below(uint32_t n);

/* A damaged mesh; its points are whole numbers or fractions, with zeros of both signs, and some of them are equal. */
Mesh damaged(void);

#endif
