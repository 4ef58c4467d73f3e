/* Shows what the PLY calls read and write: ply read FILE.. | ply write MESH..
 *
 * read: of each file a line `file NAME counts P F` by the call that counts, or `file NAME not counted NUMBER PLACE`, and a line `file NAME points P faces F` by
 * the call that reads, or `file NAME refused NUMBER PLACE`; then a line with the bits of each point's coordinates, and a line with each face's corners.
 *
 * write: a mesh is two numbers of 64 bits, the entries of its points and of its faces, and then these, 8 bytes and 4 each. Of each a line `mesh NAME bytes N`,
 * or `mesh NAME refused NUMBER PLACE`; what is written goes to the file NAME.ply.
 *
 * Each call is asked again in every choice of rooms that are exact, longer and one entry short, each clean and dirty; what is read is written again, and what
 * is written is read again. Exit status 1 if a number, a place, a count or a byte of a room is not as it must be. */
#include "shell.h"
#include <inttypes.h>
#include <stdio.h>
#include <stdlib.h>
#include <string.h>

enum { BEYOND = 3, UNKNOWN = 7, WAYS = 3, LONG = 1 << 20 };
static const uint8_t DIRT[] = {0, 0xa5, 0xff};

/* Bytes in memory. */
typedef struct {
    uint8_t *at;
    size_t length;
} Bytes;

/* So much memory, all zero, since a call reads its rooms; none is NULL, which the calls take too. */
static void *memory(size_t bytes) {
    void *made = bytes == 0 ? NULL : calloc(bytes, 1);
    if (made == NULL && bytes != 0)
        exit(2);
    return made;
}

/* The bytes of a file. */
static Bytes load(const char *name) {
    FILE *file = fopen(name, "rb");
    if (file == NULL || fseek(file, 0, SEEK_END) != 0) {
        fprintf(stderr, "ply: cannot read %s\n", name);
        exit(2);
    }
    Bytes bytes = {NULL, (size_t)ftell(file)};
    bytes.at = memory(bytes.length);
    rewind(file);
    if (bytes.length != 0 && fread(bytes.at, 1, bytes.length, file) != bytes.length)
        exit(2);
    fclose(file);
    return bytes;
}

/* A room of exactly so many entries, filled with one byte. */
typedef struct {
    void *at;
    size_t entries, size;
    uint8_t dirt;
} Room;

/* Makes such a room. */
static Room lend(size_t entries, size_t size, uint8_t dirt) {
    Room room = {memory(entries * size), entries, size, dirt};
    if (room.at != NULL)
        memset(room.at, dirt, entries * size);
    return room;
}

/* Whether a room holds the answer in front, zero as far as stated, and behind that what it was filled with; the room is given back. */
static int held(Room *room, const void *answer, size_t count, size_t stated) {
    const uint8_t *bytes = room->at;
    size_t n = count * room->size;
    int good = stated <= room->entries && (n == 0 || memcmp(bytes, answer, n) == 0);
    for (size_t i = n; good && i < room->entries * room->size; i++)
        good = bytes[i] == (i < stated * room->size ? 0 : room->dirt);
    free(room->at);
    return good;
}

/* A mesh as the calls take it. */
typedef struct {
    double *points;
    uint32_t *faces;
    size_t points_len, faces_len;
} Mesh;

/* How many entries each room has by a choice: as many as stated, more, or one fewer; and the first room that is too short, or `rooms`. Whether there is such a
 * choice. */
static int choose(unsigned choice, int rooms, const size_t *stated, size_t *entries, int *first_short) {
    *first_short = rooms;
    for (int k = 0; k < rooms; k++, choice /= WAYS) {
        int is_short = choice % WAYS == 2 && stated[k] > 0;
        entries[k] = stated[k] + (choice % WAYS == 1 ? BEYOND : 0) - (is_short ? 1 : 0);
        if (is_short && *first_short == rooms)
            *first_short = k;
    }
    return choice == 0;
}

/* Whether a file is read so in these rooms: refused with that number and place, or as that mesh. */
static int reads(const Bytes *file, const size_t entries[3], uint8_t dirt, uint32_t number, uint32_t place, const Mesh *mesh) {
    Room points = lend(entries[0], 8, dirt), faces = lend(entries[1], 4, dirt), work = lend(entries[2], 4, dirt);
    ShellPly got = shell_read_ply(file->at, file->length, points.at, points.entries, faces.at, faces.entries, work.at, work.entries);
    size_t p = number == 0 ? mesh->points_len : 0, f = number == 0 ? mesh->faces_len : 0, w = number == 0 ? SHELL_WORK_ROOM(p / 3, f / 3) : 0;
    int good = got.number == number && got.place == place && got.points == p && got.faces == f;
    good &= held(&points, mesh->points, p, p);
    good &= held(&faces, mesh->faces, f, f);
    good &= held(&work, NULL, 0, w);
    return good;
}

/* Whether a mesh is written so in these rooms: refused with that number and place, or as those bytes. */
static int writes(const Mesh *mesh, const size_t entries[2], uint8_t dirt, uint32_t number, uint32_t place, const Bytes *file) {
    Room out = lend(entries[0], 1, dirt), work = lend(entries[1], 4, dirt);
    ShellPlyFile got = shell_write_ply(mesh->points, mesh->points_len, mesh->faces, mesh->faces_len, out.at, out.entries, work.at, work.entries);
    size_t n = number == 0 ? file->length : 0, w = number == 0 ? SHELL_WORK_ROOM(mesh->points_len / 3, mesh->faces_len / 3) : 0;
    int good = got.number == number && got.place == place && got.bytes == n;
    good &= held(&out, file->at, n, n);
    good &= held(&work, NULL, 0, w);
    return good;
}

/* Whether a file is read so in every choice of rooms; where it is accepted, a short room is refused. */
static int reads_anyhow(const Bytes *file, uint32_t number, uint32_t place, const Mesh *mesh) {
    const size_t stated[3] = {mesh->points_len, mesh->faces_len, SHELL_WORK_ROOM(mesh->points_len / 3, mesh->faces_len / 3)};
    size_t entries[3];
    int good = 1, first_short;
    for (unsigned choice = 0; choose(choice, 3, stated, entries, &first_short); choice++)
        for (size_t d = 0; d < sizeof DIRT; d++)
            good &= number == 0 && first_short < 3 ? reads(file, entries, DIRT[d], SHELL_SHORT_ROOM, (uint32_t)first_short, mesh)
                                                   : reads(file, entries, DIRT[d], number, place, mesh);
    return good;
}

/* Whether a mesh is written so in every choice of rooms; one that is refused gets no long ones. */
static int writes_anyhow(const Mesh *mesh, uint32_t number, uint32_t place, const Bytes *file) {
    size_t w = SHELL_WORK_ROOM(mesh->points_len / 3, mesh->faces_len / 3), entries[2];
    const size_t stated[2] = {file->length, number != 0 && w > LONG ? UNKNOWN : w};
    int good = 1, first_short;
    for (unsigned choice = 0; choose(choice, 2, stated, entries, &first_short); choice++)
        for (size_t d = 0; d < sizeof DIRT; d++)
            good &= number == 0 && first_short < 2 ? writes(mesh, entries, DIRT[d], SHELL_SHORT_ROOM, (uint32_t)first_short, file)
                                                   : writes(mesh, entries, DIRT[d], number, place, file);
    return good;
}

/* The bits of a coordinate. */
static uint64_t bits(double number) {
    uint64_t pattern;
    memcpy(&pattern, &number, sizeof pattern);
    return pattern;
}

/* Prints a line for each point and each face. */
static void print_mesh(const Mesh *mesh) {
    for (size_t i = 0; i < mesh->points_len; i += 3)
        printf("%016" PRIx64 " %016" PRIx64 " %016" PRIx64 "\n", bits(mesh->points[i]), bits(mesh->points[i + 1]), bits(mesh->points[i + 2]));
    for (size_t i = 0; i < mesh->faces_len; i += 3)
        printf("%" PRIu32 " %" PRIu32 " %" PRIu32 "\n", mesh->faces[i], mesh->faces[i + 1], mesh->faces[i + 2]);
}

/* Says what is wrong, if it is. */
static int told(int good, const char *name, const char *what) {
    if (!good)
        fprintf(stderr, "ply: %s: %s\n", name, what);
    return good;
}

/* What the call that counts says of a file, with the entries of the rooms for it; where it refuses, of some rooms. */
static Mesh count(const char *name, const Bytes *file, int *good) {
    ShellPlyCounts counts = shell_ply_counts(file->at, file->length);
    Mesh mesh = {NULL, NULL, 3 * UNKNOWN, 3 * UNKNOWN};
    if (counts.number != SHELL_ACCEPTED) {
        printf("file %s not counted %" PRIu32 " %" PRIu32 "\n", name, counts.number, counts.place);
        *good &= told(counts.points == 0 && counts.faces == 0, name, "a refusal has counts");
        return mesh;
    }
    printf("file %s counts %" PRIu64 " %" PRIu64 "\n", name, counts.points, counts.faces);
    mesh.points_len = SHELL_PLY_POINTS_ROOM(counts.points);
    mesh.faces_len = SHELL_PLY_FACES_ROOM(counts.faces);
    return mesh;
}

/* Reads a file, prints the answer, and asks once more in every choice of rooms; what was read is written again. */
static int read_one(const char *name) {
    int good = 1;
    Bytes file = load(name), before = load(name);
    Mesh mesh = count(name, &file, &good);
    size_t w = SHELL_WORK_ROOM(mesh.points_len / 3, mesh.faces_len / 3);
    uint32_t *work = memory(4 * w);
    mesh.points = memory(8 * mesh.points_len);
    mesh.faces = memory(4 * mesh.faces_len);
    ShellPly read = shell_read_ply(file.at, file.length, mesh.points, mesh.points_len, mesh.faces, mesh.faces_len, work, w);
    free(work);
    if (read.number != SHELL_ACCEPTED)
        printf("file %s refused %" PRIu32 " %" PRIu32 "\n", name, read.number, read.place);
    else {
        printf("file %s points %" PRIu64 " faces %" PRIu64 "\n", name, read.points / 3, read.faces / 3);
        good &= told(read.points == mesh.points_len && read.faces == mesh.faces_len, name, "other counts are read");
        print_mesh(&mesh);
        good &= told(writes_anyhow(&mesh, 0, 0, &file), name, "what was read is not written again");
    }
    good &= told(reads_anyhow(&file, read.number, read.place, &mesh), name, "in other rooms it is read otherwise, or a room does not hold what it must");
    good &= told(file.length == 0 || memcmp(file.at, before.at, file.length) == 0, name, "the file is changed");
    free(file.at), free(before.at), free(mesh.points), free(mesh.faces);
    return good;
}

/* The mesh of a file of numbers. */
static Mesh load_mesh(const char *name) {
    Bytes file = load(name);
    uint64_t lengths[2];
    memcpy(lengths, file.at, sizeof lengths);
    Mesh mesh = {memory(8 * lengths[0]), memory(4 * lengths[1]), lengths[0], lengths[1]};
    if (file.length != sizeof lengths + 8 * lengths[0] + 4 * lengths[1])
        exit(2);
    if (mesh.points != NULL)
        memcpy(mesh.points, file.at + sizeof lengths, 8 * lengths[0]);
    if (mesh.faces != NULL)
        memcpy(mesh.faces, file.at + sizeof lengths + 8 * lengths[0], 4 * lengths[1]);
    free(file.at);
    return mesh;
}

/* Keeps what was written of a mesh in a file. */
static void store(const char *name, const Bytes *file) {
    char to[4096];
    snprintf(to, sizeof to, "%s.ply", name);
    FILE *out = fopen(to, "wb");
    if (out == NULL || fwrite(file->at, 1, file->length, out) != file->length || fclose(out) != 0)
        exit(2);
}

/* Writes a mesh to a file, prints the answer, and asks once more in every choice of rooms; what was written is read again. */
static int write_one(const char *name) {
    Mesh mesh = load_mesh(name), before = load_mesh(name);
    size_t w = SHELL_WORK_ROOM(mesh.points_len / 3, mesh.faces_len / 3), most = SHELL_PLY_FILE_ROOM(mesh.points_len / 3, mesh.faces_len / 3);
    uint32_t *work = memory(4 * w);
    Bytes file = {memory(most), 0};
    ShellPlyFile written = shell_write_ply(mesh.points, mesh.points_len, mesh.faces, mesh.faces_len, file.at, most, work, w);
    free(work);
    file.length = written.bytes;
    int good = told(written.bytes <= most && (written.number != 0) == (written.bytes == 0), name, "another length");
    if (written.number != SHELL_ACCEPTED)
        printf("mesh %s refused %" PRIu32 " %" PRIu32 "\n", name, written.number, written.place);
    else {
        printf("mesh %s bytes %" PRIu64 "\n", name, written.bytes);
        store(name, &file);
        good &= told(reads_anyhow(&file, 0, 0, &mesh), name, "what was written is not read again");
    }
    good &=
        told(writes_anyhow(&mesh, written.number, written.place, &file), name, "in other rooms it is written otherwise, or a room does not hold what it must");
    good &= told((mesh.points_len == 0 || memcmp(mesh.points, before.points, 8 * mesh.points_len) == 0) &&
                     (mesh.faces_len == 0 || memcmp(mesh.faces, before.faces, 4 * mesh.faces_len) == 0),
                 name, "the mesh is changed");
    free(file.at), free(mesh.points), free(mesh.faces), free(before.points), free(before.faces);
    return good;
}

int main(int count, char **given) {
    int good = 1, is_read = count > 1 && strcmp(given[1], "read") == 0;
    if (!is_read && !(count > 1 && strcmp(given[1], "write") == 0)) {
        fprintf(stderr, "usage: ply read FILE.. | ply write MESH..\n");
        return 2;
    }
    for (int i = 2; i < count; i++)
        good &= is_read ? read_one(given[i]) : write_one(given[i]);
    return good ? 0 : 1;
}
