#include "panel.h"
#include "document.h"
#include "uses.h"
#include <stdlib.h>
#include <string.h>

/* The places where the input is lent, behind those of the rooms. */
enum { POINTS = PACK_ROOMS, FACES, POINT_COUNTS, FACE_COUNTS };

const size_t panel_sizes[PACK_ROOMS] = {8, 4, 4, 4, 4, 4};

/* The sum of two numbers, or the largest number where it is beyond that. */
static uint64_t sum(uint64_t a, uint64_t b) { return a + b < a ? UINT64_MAX : a + b; }

void panel_rooms(const Packing *p, uint64_t stated[PACK_ROOMS]) {
    size_t M = p->point_counts_len < p->face_counts_len ? p->point_counts_len : p->face_counts_len;
    memset(stated, 0, PACK_ROOMS * sizeof *stated);
    for (size_t k = 0; k < M; k++) {
        uint64_t P = p->point_counts[k], F = p->face_counts[k], work = 16 * P + 64 * F + 64;
        const uint64_t all[PACK_ANSWERS] = {3 * (P + 3 * F), 3 * F, 11, F, 4};
        for (int i = 0; i < PACK_ANSWERS; i++)
            stated[i] = sum(stated[i], all[i]);
        stated[PACK_ANSWERS] = stated[PACK_ANSWERS] < work ? work : stated[PACK_ANSWERS];
    }
}

/* Whether the counts, times 3, add up to the length: each is taken off what is left of it. */
static int adds_up(const uint32_t *counts, size_t n, size_t length) {
    for (size_t k = 0; k < n; k++) {
        if (length / 3 < counts[k])
            return 0;
        length -= 3 * (size_t)counts[k];
    }
    return length == 0;
}

/* Refuses unless something holds, or the call is refused already. */
static void unless(Packed *wanted, int holds, uint32_t number, uint64_t place) {
    if (wanted->number == 0 && !holds) {
        wanted->number = number;
        wanted->place = place;
    }
}

/* The refusals of the whole call, 1, 2, 3 and 6. No mesh is looked at. */
static void refuse(const Packing *p, Packed *wanted) {
    uint64_t stated[PACK_ROOMS];
    unless(wanted, p->point_counts_len == p->face_counts_len, 1, 0);
    unless(wanted, adds_up(p->point_counts, p->point_counts_len, p->points_len), 1, 0);
    unless(wanted, adds_up(p->face_counts, p->face_counts_len, p->faces_len), 1, 1);
    unless(wanted, p->point_counts_len <= 256, 2, 0);
    unless(wanted, 0 <= p->s && p->s <= 1, 3, 0);
    unless(wanted, p->options <= 63, 3, 1);
    if (wanted->number != 0)
        return;
    panel_rooms(p, stated);
    for (int k = 0; k < PACK_ROOMS; k++)
        unless(wanted, p->room[k] >= stated[k], 6, (uint64_t)k);
}

/* What one call gives of one mesh, whose rooms are long enough. */
static Wanted one_call(const Packing *p, const double *points, uint32_t P, const uint32_t *faces, uint32_t F) {
    Asked a = {.call = REPAIR, .points = points, .points_len = 3 * (size_t)P, .P = P, .faces = faces, .faces_len = 3 * (size_t)F};
    a.s = p->s;
    a.options = p->options;
    for (int k = 0; k < PACK_ROOMS; k++)
        a.room[k] = SIZE_MAX;
    return document_answer(&a);
}

/* What one call gives of each mesh: each takes its points and faces off the front. */
static Wanted *own_calls(const Packing *p) {
    Wanted *all = row(p->point_counts_len, sizeof *all);
    size_t point = 0, corner = 0;
    for (size_t k = 0; k < p->point_counts_len; k++) {
        uint32_t P = p->point_counts[k], F = p->face_counts[k];
        all[k] = one_call(p, P == 0 ? NULL : p->points + point, P, F == 0 ? NULL : p->faces + corner, F);
        point += 3 * (size_t)P;
        corner += 3 * (size_t)F;
    }
    return all;
}

/* Room i of all meshes, one after the other; a refused one has no entries there. */
static void pack(Packed *wanted, const Wanted *all, size_t M, int i) {
    for (size_t k = 0; k < M; k++)
        wanted->entries[i] += all[k].entries[i];
    uint8_t *at = wanted->row[i] = row(wanted->entries[i], panel_sizes[i]);
    for (size_t k = 0; k < M; k++)
        if (all[k].entries[i] > 0) {
            memcpy(at, all[k].row[i], all[k].entries[i] * panel_sizes[i]);
            at += all[k].entries[i] * panel_sizes[i];
        }
}

/* Four entries a mesh: number, place, points and faces. */
static void tell_meshes(Packed *wanted, const Wanted *all, size_t M) {
    uint32_t *meshes = wanted->row[4] = row(4 * M, 4);
    wanted->entries[4] = 4 * M;
    for (size_t k = 0; k < M; k++) {
        meshes[4 * k] = all[k].number;
        meshes[4 * k + 1] = (uint32_t)all[k].place;
        meshes[4 * k + 2] = (uint32_t)(all[k].entries[0] / 3);
        meshes[4 * k + 3] = (uint32_t)(all[k].entries[1] / 3);
    }
}

Packed panel_packed(const Packing *p) {
    Packed wanted = {0, 0, {0}, {NULL}};
    refuse(p, &wanted);
    if (wanted.number != 0)
        return wanted;
    size_t M = p->point_counts_len;
    Wanted *all = own_calls(p);
    for (int i = 0; i < 4; i++)
        pack(&wanted, all, M, i);
    tell_meshes(&wanted, all, M);
    for (size_t k = 0; k < M; k++)
        document_free(all + k);
    free(all);
    return wanted;
}

void panel_free(Packed *wanted) {
    for (int k = 0; k < PACK_ANSWERS; k++)
        free(wanted->row[k]);
}

/* Lends a copy of a list; an empty one may be NULL. */
static const void *lend_list(int which, const void *list, size_t n, size_t size, const Lending *how) {
    void *lent = lend(which, n, size, !how->front);
    if (n > 0)
        memcpy(lent, list, n * size);
    keep(which);
    return n == 0 && how->null ? NULL : lent;
}

ShellPanel panel_called(const Packing *p, const Lending *how) {
    const double *points = lend_list(POINTS, p->points, p->points_len, 8, how);
    const uint32_t *faces = lend_list(FACES, p->faces, p->faces_len, 4, how);
    const uint32_t *point_counts = lend_list(POINT_COUNTS, p->point_counts, p->point_counts_len, 4, how);
    const uint32_t *face_counts = lend_list(FACE_COUNTS, p->face_counts, p->face_counts_len, 4, how);
    const size_t *n = p->room;
    void *r[PACK_ROOMS];
    for (int k = 0; k < PACK_ROOMS; k++) {
        r[k] = lend(k, n[k], panel_sizes[k], how->front);
        soil(k, how->dirt, how->seed + (unsigned)k);
        keep(k);
        if (n[k] == 0 && how->null)
            r[k] = NULL;
    }
    return shell_repair_panel(points, p->points_len, faces, p->faces_len, point_counts, p->point_counts_len, face_counts, p->face_counts_len, p->s, p->options,
                              r[0], n[0], r[1], n[1], r[2], n[2], r[3], n[3], r[4], n[4], r[5], n[5]);
}

const char *panel_differs(const Packing *p, const ShellPanel *found, const Packed *wanted) {
    static const char *const rooms[PACK_ROOMS] = {"the points room does not hold what it must", "the faces room does not hold what it must",
                                                  "the report room does not hold what it must", "the origins room does not hold what it must",
                                                  "the meshes room does not hold what it must", "the work room does not hold what it must"};
    const uint64_t entries[PACK_ANSWERS] = {found->points, found->faces, found->counts, found->origins, found->meshes};
    uint64_t stated[PACK_ROOMS] = {0};
    if (found->number != wanted->number || found->place != wanted->place)
        return "another number or place";
    if (memcmp(entries, wanted->entries, sizeof entries) != 0)
        return "other counts";
    if (wanted->number == 0)
        panel_rooms(p, stated);
    for (int k = 0; k < PACK_ROOMS; k++)
        if (!holds(k, k < PACK_ANSWERS ? wanted->row[k] : NULL, k < PACK_ANSWERS ? wanted->entries[k] : 0, stated[k]))
            return wanted->number == 0 ? rooms[k] : "a room is changed though the call is refused";
    for (int k = POINTS; k <= FACE_COUNTS; k++)
        if (!holds(k, NULL, 0, 0))
            return "the input is changed";
    return NULL;
}
