/* The keys of a panel, mended in one call: shellfix [-s THRESHOLD] -i FOLDER IN..
 *
 * Each file is read as shellfix reads one. The shells of those that can be read are packed one after another and mended by one shell_repair_panel with all
 * options. For each key, in the order of the words, there is a line: its name, and what shellfix says of that file by itself, sentence by sentence. A last line
 * has totals. A key that cannot be read or is refused stops no other, and its line says why. With -i each mended key is written to FOLDER, as a PLY file with
 * the name of its own file: nothing that stands there is replaced, and none takes its name before all are on the disk. Exit status: 0 where all keys are
 * mended; 1 where one is refused, or all are because they are too many, and then nothing is written; 2 where one cannot be read, whatever the others are, or
 * where FOLDER cannot be written to, and then nothing is written either. */
#define _XOPEN_SOURCE 700
#include "shellfix.h"
#include <errno.h>
#include <stdlib.h>
#include <string.h>
#include <strings.h>
#include <sys/stat.h>
#include <unistd.h>

/* A key: its file; the sentences that are said of it, and the stream that keeps them; its shell as it was read and as it is mended; the file that it is written
 * to, and its name; and how it ended, as an exit status. */
typedef struct {
    const char *name;
    char *said;
    size_t said_length;
    FILE *sentences;
    Mesh scan;
    Mended mended;
    char *file;
    Output out;
    int status;
} Key;

/* The shells of the keys that were read, one after another, and the rows of their counts; then the rooms of the call. */
typedef struct {
    Mesh scans;
    uint32_t *point_counts, *face_counts;
    size_t count;
    double *points;
    uint32_t *faces, *report, *origins, *meshes;
} Panel;

/* The four entries that a mesh has in the meshes room. */
enum { NUMBER, PLACE, POINTS, FACES, ENTRIES };

/* The name of the file that a key is written to: that of its own file, in the folder, with .ply in the place of .stl or .ply at its end, or behind it. */
static char *name_in(const char *folder, const char *name) {
    const char *slash = strrchr(name, '/'), *last = slash == NULL ? name : slash + 1, *between = "/";
    size_t length = strlen(last), start = strlen(folder), most = start + length + sizeof "/.ply";
    char *made = room(most, 1);
    if (length > 4 && (strcasecmp(last + length - 4, ".stl") == 0 || strcasecmp(last + length - 4, ".ply") == 0))
        length -= 4;
    if (start > 0 && folder[start - 1] == '/')
        between = "";
    snprintf(made, most, "%s%s%.*s.ply", folder, between, (int)length, last);
    return made;
}

/* Whether files can be made in a folder; if not, says why. */
static int open_to_files(const char *folder) {
    struct stat held;
    int there = stat(folder, &held) == 0;
    if (there && S_ISDIR(held.st_mode) && access(folder, W_OK | X_OK) == 0)
        return 1;
    if (there && !S_ISDIR(held.st_mode))
        errno = ENOTDIR;
    fprintf(stderr, "shellfix: cannot write to %s: %s\n", folder, strerror(errno));
    return 0;
}

/* The order of two keys by the files that they are written to, and then by their own places. */
static int by_file(const void *a, const void *b) {
    const Key *one = *(Key *const *)a, *other = *(Key *const *)b;
    int order = strcmp(one->file, other->file);
    return order != 0 ? order : one < other ? -1 : one > other;
}

/* Whether each key is written to a file of its own; if not, says which two are not. */
static int each_its_own(Key *keys, size_t count) {
    Key **sorted = room(count, sizeof *sorted);
    size_t k = 1;
    for (size_t i = 0; i < count; i++)
        sorted[i] = keys + i;
    qsort(sorted, count, sizeof *sorted, by_file);
    while (k < count && strcmp(sorted[k - 1]->file, sorted[k]->file) != 0)
        k++;
    if (k < count)
        fprintf(stderr, "shellfix: %s and %s cannot both be written to %s\n", sorted[k - 1]->name, sorted[k]->name, sorted[k]->file);
    free(sorted);
    return k >= count;
}

/* Whether all files that keys are written to are new; if not, says which is not. */
static int all_new(const Key *keys, size_t count) {
    struct stat held;
    for (size_t k = 0; k < count; k++)
        if (lstat(keys[k].file, &held) == 0) {
            fprintf(stderr, "shellfix: %s is there already, and is not replaced: take it away, or name another folder\n", keys[k].file);
            return 0;
        }
    return 1;
}

/* Names the files that keys are written to in a folder; whether they can be. */
static int name_files(Key *keys, size_t count, const char *folder) {
    for (size_t k = 0; k < count; k++)
        keys[k].out.name = keys[k].file = name_in(folder, keys[k].name);
    return open_to_files(folder) && each_its_own(keys, count) && all_new(keys, count);
}

/* Ends the program where the sentences of a key cannot be kept. */
static _Noreturn void cannot_keep(const Key *key) {
    fprintf(stderr, "shellfix: no memory for what is said of %s\n", key->name);
    exit(TROUBLE);
}

/* Reads the shell of a key; if that cannot be done, says why. */
static void read_key(Key *key) {
    size_t length;
    uint8_t *file = load_file(key->name, &length);
    if (file == NULL) {
        tell("cannot be read: %s\n", strerror(errno));
        key->status = TROUBLE;
        return;
    }
    stage_bytes(length);
    key->status = read_mesh(file, length, &key->scan) ? SOUND : REFUSED;
    free(file);
}

/* Reads the shells of all keys, and keeps what is said of each. */
static void read_keys(Key *keys, size_t count) {
    for (size_t k = 0; k < count; k++) {
        kept = keys[k].sentences = open_memstream(&keys[k].said, &keys[k].said_length);
        if (kept == NULL)
            cannot_keep(keys + k);
        read_key(keys + k);
    }
    kept = NULL;
}

/* Fills the rows of counts with those of the keys that were read, and adds them up. */
static void count_scans(const Key *keys, size_t count, Panel *panel) {
    Mesh *scans = &panel->scans;
    panel->point_counts = room(count, sizeof *panel->point_counts);
    panel->face_counts = room(count, sizeof *panel->face_counts);
    for (size_t k = 0; k < count; k++)
        if (keys[k].status == SOUND) {
            panel->point_counts[panel->count] = (uint32_t)keys[k].scan.point_count;
            panel->face_counts[panel->count] = (uint32_t)keys[k].scan.face_count;
            panel->count++;
            scans->point_count += keys[k].scan.point_count;
            scans->face_count += keys[k].scan.face_count;
        }
    scans->large = scans->face_count >= LARGE;
}

/* Packs the shells of the keys that were read, and gives back their own memory. */
static void pack(Key *keys, size_t count, Panel *panel) {
    count_scans(keys, count, panel);
    double *points = panel->scans.points = room(3 * panel->scans.point_count, sizeof *points);
    uint32_t *faces = panel->scans.faces = room(3 * panel->scans.face_count, sizeof *faces);
    for (size_t k = 0; k < count; k++) {
        const Mesh *scan = &keys[k].scan;
        if (keys[k].status == SOUND) {
            memcpy(points, scan->points, 3 * scan->point_count * sizeof *points);
            memcpy(faces, scan->faces, 3 * scan->face_count * sizeof *faces);
            points += 3 * scan->point_count;
            faces += 3 * scan->face_count;
        }
        free(scan->points), free(scan->faces);
    }
}

/* Whether the whole call was accepted; if not, says why. */
static int accepted_whole(const ShellPanel *mended, size_t count) {
    static const char *const rooms[] = {"points", "faces", "report", "origins", "meshes", "work"};
    const uint32_t number = mended->number, place = mended->place;
    if (number != SHELL_BAD_LENGTH && number != SHELL_TOO_LARGE && number != SHELL_SHORT_ROOM)
        return accepted("panel", number, place);
    printf("panel refused, number %u, place %u: ", number, place);
    if (number == SHELL_TOO_LARGE)
        printf("too many keys; %zu were read, and at most %u are mended in one call\n", count, SHELL_MOST_MESHES);
    else if (number == SHELL_BAD_LENGTH)
        printf("the row of %s counts does not fit\n", place == 0 ? "point" : "face");
    else
        printf("the %s room is too short\n", place < sizeof rooms / sizeof *rooms ? rooms[place] : "last");
    return 0;
}

/* The repair of all shells in one call, with all options. */
static int mend_panel(Panel *panel, double s) {
    size_t m = panel->count, p = panel->scans.point_count, f = panel->scans.face_count;
    size_t work_length = shell_panel_work_room(panel->point_counts, panel->face_counts, m);
    uint32_t *work = room(work_length, sizeof *work);
    panel->points = room(SHELL_POINTS_ROOM(p, f), sizeof *panel->points);
    panel->faces = room(SHELL_FACES_ROOM(f), sizeof *panel->faces);
    panel->report = room(SHELL_REPORTS_ROOM(m), sizeof *panel->report);
    panel->origins = room(SHELL_ORIGINS_ROOM(f), sizeof *panel->origins);
    panel->meshes = room(SHELL_MESHES_ROOM(m), sizeof *panel->meshes);
    stage(&panel->scans, "repairing");
    ShellPanel mended = shell_repair_panel(panel->scans.points, 3 * p, panel->scans.faces, 3 * f, panel->point_counts, m, panel->face_counts, m, s,
                                           SHELL_ALL_OPTIONS, panel->points, SHELL_POINTS_ROOM(p, f), panel->faces, SHELL_FACES_ROOM(f), panel->report,
                                           SHELL_REPORTS_ROOM(m), panel->origins, SHELL_ORIGINS_ROOM(f), panel->meshes, SHELL_MESHES_ROOM(m), work,
                                           work_length);
    free(work);
    return accepted_whole(&mended, m);
}

/* Cuts the mended shell of a key off the front of the panel's rooms; if it was refused, says why. */
static int cut(Panel *rest, Key *key) {
    const uint32_t *entries = rest->meshes;
    Mended *mended = &key->mended;
    rest->meshes += ENTRIES;
    if (!accepted("repair", entries[NUMBER], entries[PLACE]))
        return 0;
    mended->mesh = (Mesh){rest->points, rest->faces, entries[POINTS], entries[FACES], key->scan.large};
    mended->origins = rest->origins;
    memcpy(mended->report, rest->report, sizeof mended->report);
    rest->points += 3 * mended->mesh.point_count;
    rest->faces += 3 * mended->mesh.face_count;
    rest->report += SHELL_REPORT_ROOM;
    rest->origins += mended->mesh.face_count;
    return 1;
}

/* Describes the mended shell of a key, the next one of the rooms, and makes the bytes of its file if it has one; the exit status. */
static int describe_key(Key *key, Panel *rest, const Asked *asked) {
    int good = cut(rest, key) && describe(NULL, &key->mended, asked);
    return good && (key->file == NULL || put_mesh(&key->mended.mesh, &key->out)) ? SOUND : REFUSED;
}

/* Prints the line of a key: its name, and the sentences that are said of it. */
static void print_line(Key *key) {
    int good = fclose(key->sentences) == 0;
    key->sentences = NULL;
    if (!good)
        cannot_keep(key);
    printf("%s: ", key->name);
    for (size_t i = 0; i < key->said_length; i++)
        if (key->said[i] == '\n' && i + 1 < key->said_length)
            printf("; ");
        else
            putchar(key->said[i]);
}

/* Describes all keys, each in a line. */
static void describe_keys(Key *keys, size_t count, Panel rest, const Asked *asked) {
    for (size_t k = 0; k < count; k++) {
        kept = keys[k].sentences;
        if (keys[k].status == SOUND)
            keys[k].status = describe_key(keys + k, &rest, asked);
        kept = NULL;
        print_line(keys + k);
    }
}

/* Writes the files of the keys that are mended. None of them takes its name before all are on the disk. */
static void write_keys(Key *keys, size_t count) {
    for (size_t k = 0; k < count; k++)
        if (keys[k].status == SOUND) {
            stage(&keys[k].mended.mesh, "writing");
            put_beside(&keys[k].out);
        }
    for (size_t k = 0; k < count; k++)
        if (keys[k].status == SOUND)
            take_name(&keys[k].out);
}

/* Prints the totals of all keys; the exit status. */
static int print_totals(const Key *keys, size_t count, const Panel *panel, const char *folder) {
    size_t ended[] = {[SOUND] = 0, [REFUSED] = 0, [TROUBLE] = 0}, points = 0, faces = 0;
    for (size_t k = 0; k < count; k++) {
        ended[keys[k].status]++;
        if (keys[k].status == SOUND)
            points += keys[k].mended.mesh.point_count, faces += keys[k].mended.mesh.face_count;
    }
    printf("%zu keys: %zu mended, %zu refused", count, ended[SOUND], ended[REFUSED]);
    if (ended[TROUBLE] > 0)
        printf(", %zu cannot be read", ended[TROUBLE]);
    printf("; read: %zu points, %zu faces; mended: %zu points, %zu faces", panel->scans.point_count, panel->scans.face_count, points, faces);
    if (folder != NULL)
        printf("; written: %zu files to %s", ended[SOUND], folder);
    printf("\n");
    return ended[TROUBLE] > 0 ? TROUBLE : ended[REFUSED] > 0 ? REFUSED : SOUND;
}

/* Mends the shells of keys that were read, tells of each, and writes those that are mended if a folder is named; the exit status. */
static int mend_read(Key *keys, size_t count, const Asked *asked) {
    Panel panel = {.count = 0};
    int status = REFUSED;
    pack(keys, count, &panel);
    if (mend_panel(&panel, asked->s)) {
        describe_keys(keys, count, panel, asked);
        if (asked->into != NULL)
            write_keys(keys, count);
        status = print_totals(keys, count, &panel, asked->into);
    }
    free(panel.scans.points), free(panel.scans.faces), free(panel.point_counts), free(panel.face_counts);
    free(panel.points), free(panel.faces), free(panel.report), free(panel.origins), free(panel.meshes);
    return status;
}

int mend_keys(const Asked *asked) {
    size_t count = asked->count;
    Key *keys = room(count, sizeof *keys);
    int status = TROUBLE;
    for (size_t k = 0; k < count; k++)
        keys[k].name = asked->names[k];
    if (asked->into == NULL || name_files(keys, count, asked->into)) {
        read_keys(keys, count);
        status = mend_read(keys, count, asked);
    }
    for (size_t k = 0; k < count; k++) {
        if (keys[k].sentences != NULL)
            fclose(keys[k].sentences);
        free(keys[k].said), free(keys[k].file), free(keys[k].out.bytes);
    }
    free(keys);
    return status;
}
