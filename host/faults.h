/* What is wrong with a mesh that the edge check says no to. The library says yes or no; a program that tells a person why finds it out here, in plain C. */
#ifndef JOGASMUN_FAULTS_H
#define JOGASMUN_FAULTS_H

#include <stddef.h>
#include <stdint.h>

/* How many faults of each kind there are, and the first of each kind. Points and faces are counted from 0. */
typedef struct {
    size_t repeating;  /* faces that repeat a corner */
    size_t face;       /* the first of them */
    size_t walked;     /* directed edges that are walked more than once */
    uint32_t from, to; /* the lowest of them, by its beginning and then its end */
    size_t by[2];      /* the first two faces that walk it; one face, twice, only where it repeats a corner */
    size_t tied;       /* points whose faces form several groups */
    uint32_t point;    /* the lowest of them */
    size_t groups;     /* how many groups it has; a face that has the point as a corner more than once may be in several */
} Faults;

/* Finds the faults of `face_count` faces, whose corners must all be below `point_count`. 0 if there is no memory for it. The time it takes grows with
 * the mesh and hardly faster, also where all faces meet in one point. */
int find_faults(const uint32_t *faces, size_t face_count, size_t point_count, Faults *faults);

#endif
