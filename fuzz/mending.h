/* What item 8 of document 02 says of mending lists, in plain C and from the documents alone: the list of a repair, what a list makes of a mesh, and which of
 * its lines is the first bad one. It shares nothing with the library, nor with passes.c. Each pass compares every face with every other: for small meshes. */
#ifndef JOGASMUN_MENDING_H
#define JOGASMUN_MENDING_H

#include "lend.h"

/* A text that grows. */
typedef struct {
    uint8_t *bytes;
    size_t length, held;
} Text;

/* Adds bytes to a text. */
void add_bytes(Text *text, const void *bytes, size_t length);

/* The list of a repair of an accepted mesh with these settings. */
Text mending_list(const double *points, size_t P, const uint32_t *faces, size_t F, double s, uint32_t options);

/* An input of the call that applies a list, and the lengths of its rooms. */
typedef struct {
    const double *points;
    const uint32_t *faces;
    const uint8_t *text;
    size_t points_len, faces_len, text_len, room[3];
} Applying;

/* The stated rooms: points, faces, work. */
void mending_rooms(const Applying *a, size_t stated[3]);

/* What must come out: number and place, or the mended mesh. */
typedef struct {
    uint32_t number;
    size_t place, P, F;
    double *points;
    uint32_t *faces;
} Mended;

Mended mending_applied(const Applying *a);
void mending_free(Mended *m);

/* The call of the library in rooms of these lengths, and what differs from what must come out, or NULL: number, place, counts, every entry of every room. */
const char *mending_differs(const Applying *a, const Lending *how, const Mended *wanted);

/* An input of the call that writes a list, and the lengths of its rooms, text and work. */
typedef struct {
    const double *points;
    const uint32_t *faces;
    size_t points_len, faces_len, room[2];
    double s;
    uint32_t options;
} Listing;

/* What must come out: number and place, or the list. Where only a room is too short the list stands here too; its bytes are to be freed in any case. */
typedef struct {
    uint32_t number;
    size_t place;
    Text list;
} Listed;

Listed mending_listed(const Listing *l);

/* The same for other rooms. */
void judge_rooms(const Listing *l, Listed *wanted);

/* That call of the library, and what differs, or NULL. */
const char *listing_differs(const Listing *l, const Lending *how, const Listed *wanted);

#endif
