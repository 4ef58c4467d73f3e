/* Shows what the STL call reads: corners FILE..
 *
 * For each file one line `file NAME points P faces F`, or `file NAME refused NUMBER PLACE`; then a line for each corner, its point's number and the bits of
 * its three coordinates. The rooms are dirty and longer than stated; exit status 1 if one does not hold what it must. */
#include "shell.h"
#include <inttypes.h>
#include <stdio.h>
#include <stdlib.h>
#include <string.h>

enum { BEYOND = 3 };
static const uint8_t DIRT = 0xA5;

/* A room of `entries` and some beyond, all dirty. */
static void *room(size_t entries, size_t size) {
    void *made = malloc((entries + BEYOND) * size);
    if (made == NULL)
        exit(2);
    return memset(made, DIRT, (entries + BEYOND) * size);
}

/* Whether `entries` entries from `from` on have all their bytes equal to `byte`. */
static int all(const void *room, size_t from, size_t entries, size_t size, uint8_t byte) {
    const uint8_t *bytes = (const uint8_t *)room + from * size;
    for (size_t i = 0; i < entries * size; i++)
        if (bytes[i] != byte)
            return 0;
    return 1;
}

/* Whether behind its first `held` entries a room is zero as far as stated and dirty beyond; after a refusal dirty throughout. */
static int kept(const char *name, const void *room, size_t held, size_t stated, size_t size, int refused) {
    int good = refused ? all(room, 0, stated + BEYOND, size, DIRT) : all(room, held, stated - held, size, 0) && all(room, stated, BEYOND, size, DIRT);
    if (!good)
        fprintf(stderr, "corners: the room of %s does not hold what it must\n", name);
    return good;
}

static uint64_t bits(double number) {
    uint64_t pattern;
    memcpy(&pattern, &number, sizeof pattern);
    return pattern;
}

/* Reads the bytes as STL and prints the answer. */
static int show(const char *name, const uint8_t *file, size_t length) {
    size_t f = length < 84 || (length - 84) / 50 > SHELL_MOST_FACES ? 0 : (length - 84) / 50;
    size_t p = SHELL_STL_POINTS_ROOM(f), n = SHELL_STL_FACES_ROOM(f), w = SHELL_STL_WORK_ROOM(f);
    double *points = room(p, sizeof *points);
    uint32_t *faces = room(n, sizeof *faces), *work = room(w, sizeof *work);
    ShellStl read = shell_read_stl(file, length, points, p + BEYOND, faces, n + BEYOND, work, w + BEYOND);
    int refused = read.number != SHELL_ACCEPTED;
    if (refused)
        printf("file %s refused %" PRIu32 " %" PRIu32 "\n", name, read.number, read.place);
    else
        printf("file %s points %" PRIu64 " faces %" PRIu64 "\n", name, read.points / 3, read.faces / 3);
    for (size_t i = 0; i < read.faces; i++) {
        const double *at = points + 3 * (size_t)faces[i];
        printf("%" PRIu32 " %016" PRIx64 " %016" PRIx64 " %016" PRIx64 "\n", faces[i], bits(at[0]), bits(at[1]), bits(at[2]));
    }
    int good = kept("points", points, read.points, p, sizeof *points, refused) & kept("faces", faces, read.faces, n, sizeof *faces, refused) &
               kept("work", work, 0, w, sizeof *work, refused);
    free(points), free(faces), free(work);
    return good;
}

int main(int count, char **given) {
    int good = 1;
    for (int i = 1; i < count; i++) {
        FILE *file = fopen(given[i], "rb");
        if (file == NULL || fseek(file, 0, SEEK_END) != 0)
            return 2;
        size_t length = (size_t)ftell(file);
        uint8_t *bytes = malloc(length ? length : 1);
        rewind(file);
        if (bytes == NULL || fread(bytes, 1, length, file) != length)
            return 2;
        fclose(file);
        good &= show(given[i], bytes, length);
        free(bytes);
    }
    return good ? 0 : 1;
}
