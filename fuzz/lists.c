/* A fuzz target: a few bytes become a small mesh and rooms, the rest is a mending list for it, as it is or put into the list of a repair of the mesh. Number,
 * place, counts and every entry of every room must be those of the documents (mending.c), and what is told of the list line by line must end at the same line
 * (host/lists.c). The list of a repair must apply as it is. Some inputs ask for the list of a repair of the mesh too, in rooms of any length. */
#include "blocks.h"
#include "lend.h"
#include "lists.h"
#include "mending.h"
#include "shell.h"
#include <stdio.h>
#include <stdlib.h>
#include <string.h>

enum { MOST = 7, POINTS = 3, FACES, TEXT };

typedef struct {
    const uint8_t *at, *end;
} Bytes;

/* The next byte, or 0 behind the last. */
static uint8_t take(Bytes *b) { return b->at < b->end ? *b->at++ : 0; }

/* Says what differs, and ends the program. */
static _Noreturn void wrong(const Applying *a, const char *what) {
    fprintf(stderr, "lists: %s; %zu point entries, %zu corners, rooms %zu %zu %zu, list of %zu bytes\n", what, a->points_len, a->faces_len, a->room[0],
            a->room[1], a->room[2], a->text_len);
    abort();
}

/* A mesh of up to MOST points and faces. A corner may be beyond the points, and a list of corners one longer, or a coordinate not a number. */
static void read_mesh(Applying *a, Bytes *b) {
    static const double places[] = {0, 1, -1, 0.5, -0.0, 0x1p100, 0x1p-1074, 0x1.8p100};
    uint8_t sizes = take(b), odd = take(b);
    size_t P = sizes & MOST, F = sizes >> 4 & MOST;
    a->points_len = 3 * P + (odd == 250);
    a->faces_len = 3 * F + (odd == 251);
    double *points = lend(POINTS, a->points_len, 8, 0);
    uint32_t *faces = lend(FACES, a->faces_len, 4, 0);
    for (size_t i = 0; i < a->points_len; i++)
        points[i] = places[(i * i + odd % 16) % (odd == 252 ? 8 : 7)];
    for (size_t i = 0; i < a->faces_len; i++) {
        uint32_t v = take(b);
        faces[i] = v >= 253 || P == 0 ? v : v % (uint32_t)P;
    }
    a->points = points;
    a->faces = faces;
}

/* Whether a mesh is accepted, so that its repair has a list. */
static int accepted(const Applying *a) {
    Applying alone = {a->points, a->faces, NULL, a->points_len, a->faces_len, 0, {SIZE_MAX, SIZE_MAX, SIZE_MAX}};
    Mended m = mending_applied(&alone);
    mending_free(&m);
    return m.number == 0;
}

/* The list: the rest of the bytes, or that put into the list of a repair for some bytes of it. */
static Text read_list(const Applying *a, Bytes *b, int of_repair) {
    Text list = {NULL, 0, 0}, repair = {NULL, 0, 0};
    size_t at = 0, gone = 0;
    if (of_repair && accepted(a)) {
        uint32_t options = take(b) % 64;
        repair = mending_list(a->points, a->points_len / 3, a->faces, a->faces_len / 3, take(b) / 255.0, options);
        at = take(b) % (repair.length + 1);
        gone = take(b) % (repair.length - at + 1);
    }
    add_bytes(&list, repair.bytes, at);
    add_bytes(&list, b->at, (size_t)(b->end - b->at));
    if (repair.length > 0)
        add_bytes(&list, repair.bytes + at + gone, repair.length - at - gone);
    free(repair.bytes);
    return list;
}

/* Whether going through the list line by line ends where it must: at the bad line, or at its end. */
static int ends_there(const Applying *a, const Mended *wanted) {
    List list;
    if (!open_list(&list, a->text, a->text_len, a->faces, a->faces_len / 3, a->points_len / 3))
        abort();
    while (next_line(&list))
        continue;
    int good = wanted->number == 15 ? list.wrong != NOTHING_WRONG && list.number == wanted->place : list.wrong == NOTHING_WRONG;
    close_list(&list);
    return good;
}

/* Asks the call, and compares. */
static void ask(const Applying *a, const Lending *how, int line_by_line) {
    Mended wanted = mending_applied(a);
    const uint64_t entries[2] = {wanted.P, wanted.F};
    const char *what = mending_differs(a, how, &wanted);
    if (what != NULL)
        wrong(a, what);
    if (line_by_line && !ends_there(a, &wanted))
        wrong(a, "another bad line is told");
    blocks_seen(0, wanted.number, wanted.place, entries, 2);
    mending_free(&wanted);
}

/* Asks for the list of a repair of the mesh, with settings that may be refused, and compares. The text's room differs by some bytes from the list's length. */
static void ask_list(const Applying *a, const Lending *how, Bytes *b) {
    static const double thresholds[] = {0, 1e-12, 0.25, 1, -0.0, -1, 1.5};
    uint8_t options = take(b), threshold = take(b), odd = take(b);
    int8_t by = (int8_t)take(b);
    size_t P = a->points_len / 3, F = a->faces_len / 3;
    Listing l = {a->points, a->faces, a->points_len, a->faces_len, {0, 16 * P + 64 * F + 64}, thresholds[threshold % 7], options > 250 ? 64 : options % 64};
    Listed wanted = mending_listed(&l);
    l.room[0] = wanted.list.length;
    if (odd % 4 < 2)
        l.room[odd % 4] = by < 0 && l.room[odd % 4] < (size_t)-by ? 0 : l.room[odd % 4] + (size_t)by;
    judge_rooms(&l, &wanted);
    const uint64_t entries[1] = {wanted.list.length};
    const char *what = listing_differs(&l, how, &wanted);
    if (what != NULL)
        wrong(a, what);
    blocks_seen(1, wanted.number, wanted.place, entries, 1);
    free(wanted.list.bytes);
}

int LLVMFuzzerTestOneInput(const uint8_t *data, size_t size) {
    Bytes b = {data, size == 0 ? data : data + size};
    Applying a = {NULL, NULL, NULL, 0, 0, 0, {0, 0, 0}};
    uint8_t how = take(&b), odd = take(&b);
    int8_t by = (int8_t)take(&b);
    Lending lending = {how % DIRTS, how >> 3 & 1, how >> 4 & 1, odd};
    read_mesh(&a, &b);
    keep(POINTS), keep(FACES);
    if (how >> 7)
        ask_list(&a, &lending, &b);
    Text list = read_list(&a, &b, how >> 5 & 1);
    uint8_t *text = lend(TEXT, list.length, 1, how >> 6 & 1);
    if (list.length > 0)
        memcpy(text, list.bytes, list.length);
    a.text = text;
    a.text_len = list.length;
    free(list.bytes);
    for (int k = POINTS; k <= TEXT; k++)
        keep(k);
    mending_rooms(&a, a.room);
    if (odd % 4 < 3)
        a.room[odd % 4] = by < 0 && a.room[odd % 4] < (size_t)-by ? 0 : a.room[odd % 4] + (size_t)by;
    ask(&a, &lending, accepted(&a));
    for (int k = POINTS; k <= TEXT; k++)
        if (!holds(k, NULL, 0, 0))
            wrong(&a, "the input is changed");
    return 0;
}
