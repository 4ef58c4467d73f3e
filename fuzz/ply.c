/* What item 5 of document 02 says of PLY files, in plain C. */
#include "document.h"
#include "uses.h"
#include <math.h>
#include <stdio.h>
#include <stdlib.h>
#include <string.h>

enum { MOST_DIGITS = 19 };

/* The header, but for its two counts. */
static const char before_vertices[] = "ply\nformat binary_little_endian 1.0\nelement vertex ";
static const char before_faces[] = "\nproperty double x\nproperty double y\nproperty double z\nelement face ";
static const char behind[] = "\nproperty list uchar int vertex_indices\nend_header\n";

size_t document_header(const char *vertices, const char *faces, char out[HEADER]) {
    return (size_t)snprintf(out, HEADER, "%s%s%s%s%s", before_vertices, vertices, before_faces, faces, behind);
}

/* The digits that begin at a place of the file, and whether they are a number without leading zeros of which 64 bits can hold the bytes. */
static int digits(const uint8_t *file, size_t n, size_t at, char out[MOST_DIGITS + 1]) {
    int count = 0;
    for (; at < n && file[at] >= '0' && file[at] <= '9' && count < MOST_DIGITS; at++)
        out[count++] = (char)file[at];
    out[count] = 0;
    return count > 0 && !(count > 1 && out[0] == '0') && !(at < n && file[at] >= '0' && file[at] <= '9');
}

size_t document_form(const uint8_t *file, size_t n, uint64_t *P, uint64_t *F) {
    char vertices[MOST_DIGITS + 1], faces[MOST_DIGITS + 1], text[HEADER];
    size_t at = strlen(before_vertices);
    if (!digits(file, n, at, vertices) || !digits(file, n, at + strlen(vertices) + strlen(before_faces), faces))
        return 0;
    size_t length = document_header(vertices, faces, text);
    *P = strtoull(vertices, NULL, 10);
    *F = strtoull(faces, NULL, 10);
    /* A count above the bytes of the file is too large; where neither is, the sum does not wrap. */
    return length <= n && memcmp(file, text, length) == 0 && *P <= n && *F <= n && length + 24 * *P + 13 * *F == n ? length : 0;
}

/* A number of so many bytes, the lowest first. */
static uint64_t little(const uint8_t *at, int bytes) {
    uint64_t number = 0;
    for (int k = 0; k < bytes; k++)
        number += (uint64_t)at[k] << 8 * k;
    return number;
}

/* Puts a number in so many bytes, the lowest first. */
static void put_little(uint8_t *at, int bytes, uint64_t number) {
    for (int k = 0; k < bytes; k++)
        at[k] = (uint8_t)(number >> 8 * k);
}

uint8_t *document_file(const double *points, uint64_t P, const uint32_t *faces, uint64_t F, size_t *bytes) {
    char vertices[MOST_DIGITS + 1], triples[MOST_DIGITS + 1], text[HEADER];
    snprintf(vertices, sizeof vertices, "%lu", (unsigned long)P);
    snprintf(triples, sizeof triples, "%lu", (unsigned long)F);
    size_t length = document_header(vertices, triples, text);
    uint8_t *file = row(length + 24 * P + 13 * F, 1), *at = file + length;
    memcpy(file, text, length);
    for (uint64_t i = 0; i < 3 * P; i++, at += 8) {
        uint64_t bits;
        memcpy(&bits, points + i, 8);
        put_little(at, 8, bits);
    }
    for (uint64_t i = 0; i < 3 * F; i++, at += 4) {
        if (i % 3 == 0)
            *at++ = 3;
        put_little(at, 4, faces[i]);
    }
    *bytes = (size_t)(at - file);
    return file;
}

/* Coordinate i of a body. */
static double coordinate(const uint8_t *body, uint64_t i) {
    uint64_t bits = little(body + 8 * i, 8);
    double x;
    memcpy(&x, &bits, 8);
    return x;
}

/* Notes a refusal. */
static int refused(Wanted *w, uint32_t number, uint64_t place) {
    w->number = number;
    w->place = place;
    return 1;
}

int document_counts_refused(const Asked *a, Wanted *w, uint64_t *P, uint64_t *F) {
    if (document_form(a->file, a->file_len, P, F) == 0)
        return refused(w, 13, 0);
    if (*P > 4194304)
        return refused(w, 2, 0);
    return *F > 1048576 && refused(w, 2, 1);
}

int document_read_refused(const Asked *a, Wanted *w) {
    uint64_t P, F;
    if (document_counts_refused(a, w, &P, &F))
        return 1;
    const uint8_t *body = a->file + document_form(a->file, a->file_len, &P, &F), *triples = body + 24 * P;
    for (uint64_t i = 0; i < F; i++)
        if (triples[13 * i] != 3)
            return refused(w, 14, i);
    for (uint64_t i = 0; i < 3 * P; i++)
        if (!(fabs(coordinate(body, i)) <= 0x1p100))
            return refused(w, 4, i / 3);
    for (uint64_t i = 0; i < 3 * F; i++)
        if (little(triples + i / 3 * 13 + 1 + 4 * (i % 3), 4) >= P)
            return refused(w, 5, i / 3);
    return 0;
}

void document_read(const Asked *a, Wanted *w) {
    uint64_t P, F;
    const uint8_t *body = a->file + document_form(a->file, a->file_len, &P, &F), *triples = body + 24 * P;
    double *points = w->row[0] = row(3 * P, 8);
    uint32_t *faces = w->row[1] = row(3 * F, 4);
    for (uint64_t i = 0; i < 3 * P; i++)
        points[i] = coordinate(body, i);
    for (uint64_t i = 0; i < 3 * F; i++)
        faces[i] = (uint32_t)little(triples + i / 3 * 13 + 1 + 4 * (i % 3), 4);
    w->entries[0] = 3 * P;
    w->entries[1] = 3 * F;
}

void document_write(const Asked *a, Wanted *w) {
    size_t bytes;
    w->row[0] = document_file(a->points, a->P, a->faces, a->faces_len / 3, &bytes);
    w->entries[0] = bytes;
}
