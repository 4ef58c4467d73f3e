/* What item 9 of document 02 says of many meshes in one repair, in plain C and from the documents alone: the refusals of the whole call, and else each mesh by
 * what document.c says of one repair, packed in order. */
#ifndef JOGASMUN_PANEL_H
#define JOGASMUN_PANEL_H

#include "lend.h"
#include "shell.h"

/* The rooms in checking order are points, faces, report, origins, meshes and work; all but the last have answers. */
enum { PACK_ROOMS = 6, PACK_ANSWERS = 5 };

/* The bytes of an entry in each. */
extern const size_t panel_sizes[PACK_ROOMS];

/* An input of the call, and the lengths of its rooms. */
typedef struct {
    const double *points;
    const uint32_t *faces, *point_counts, *face_counts;
    size_t points_len, faces_len, point_counts_len, face_counts_len;
    double s;
    uint32_t options;
    size_t room[PACK_ROOMS];
} Packing;

/* The stated rooms, over all meshes that both rows have, refused ones too. */
void panel_rooms(const Packing *p, uint64_t stated[PACK_ROOMS]);

/* What must come out: number and place of the whole call, and for each answer room how many entries stand there, and which. */
typedef struct {
    uint32_t number;
    uint64_t place, entries[PACK_ANSWERS];
    void *row[PACK_ANSWERS];
} Packed;

Packed panel_packed(const Packing *p);
void panel_free(Packed *wanted);

/* The call of the library on a copy of this input, in rooms of these lengths, all of them lent by lend.c. */
ShellPanel panel_called(const Packing *p, const Lending *how);

/* What the last of these calls gave and must not, or NULL: number, place, counts, every entry of every room, and of the input. */
const char *panel_differs(const Packing *p, const ShellPanel *found, const Packed *wanted);

#endif
