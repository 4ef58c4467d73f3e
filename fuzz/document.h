/* What document 01, with items 2, 3, 5, 6 and 7 of document 02, says that a call must answer, in plain C and from the documents alone, so that it shares
 * nothing with the library. */
#ifndef JOGASMUN_DOCUMENT_H
#define JOGASMUN_DOCUMENT_H

#include "shell.h"

enum { REPAIR, EDGES, CHECK, PATCHES, LINE, LOOPS, WRITE_PLY, READ_PLY, CALLS };

/* The input of every call in one record, and the lengths of the rooms; a call reads its own part. */
typedef struct {
    int call;
    const double *points;
    const uint32_t *faces, *labels, *counts;
    const uint8_t *file;
    size_t points_len, faces_len, labels_len, counts_len, file_len;
    uint64_t P, patches, min_faces, keep_largest_n;
    double s, least[3];
    uint32_t options, limits;
    size_t room[6];
} Asked;

/* A call's rooms in checking order: how many, and for each the bytes of an entry and the stated number of entries. */
int document_rooms(const Asked *a, size_t size[6], uint64_t stated[6]);

/* What must come out: number and place, and for each answer room how many entries stand there, and which. */
typedef struct {
    uint32_t number;
    uint64_t place, entries[6];
    void *row[6];
} Wanted;

Wanted document_answer(const Asked *a);
void document_free(Wanted *w);

/* The rows of an accepted repair. */
void document_repair(const Asked *a, Wanted *w);

/* The origins alone of an accepted repair, into a row of F entries, and how many. Passes 5 and 6 leave each face in its place, so they are not run. */
size_t document_origins(const double *points, size_t P, const uint32_t *faces, size_t F, double s, uint32_t options, uint32_t *origins);

/* The header of a PLY file with these two texts for its counts; its length. */
enum { HEADER = 256 };
size_t document_header(const char *vertices, const char *faces, char out[HEADER]);

/* Where the body of a PLY file begins, and the points and faces that its header tells; 0 if the file is not of the form. */
size_t document_form(const uint8_t *file, size_t n, uint64_t *P, uint64_t *F);

/* The PLY file of any points and triples, and its length. */
uint8_t *document_file(const double *points, uint64_t P, const uint32_t *faces, uint64_t F, size_t *bytes);

/* Whether a PLY file is refused 13 or 2, and else the points and faces that it tells; whether it is refused so, or 14, 4 or 5. */
int document_counts_refused(const Asked *a, Wanted *w, uint64_t *P, uint64_t *F);
int document_read_refused(const Asked *a, Wanted *w);

/* The rows of a PLY file that is read, and of a mesh that is written to one. */
void document_read(const Asked *a, Wanted *w);
void document_write(const Asked *a, Wanted *w);

/* What differs from demand 3, but for its sentence on origins, in what a repair with all six options gives, or NULL. Its boundary is looked at by the loop
 * call's answer. */
const char *document_demand(const Asked *a, size_t P, const uint32_t *faces, size_t F, const uint32_t *report);

/* What differs from the sentence on origins in what a repair with any options gives, or NULL. */
const char *document_traced(const Asked *a, const double *points, const uint32_t *faces, size_t F, const uint32_t *origins);

#endif
