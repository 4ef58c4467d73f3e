/* Mends a shell from the mould shop or the layout program: shellfix [-s THRESHOLD] [-o OUT.ply] [-f FILE] [-l LIST [-w]] IN
 * Or mends it by a list: shellfix -a LIST [-w] [-o OUT.ply] IN
 * Or checks it as it is: shellfix -c IN
 * Or mends the keys of a panel in one call: shellfix [-s THRESHOLD] -i FOLDER IN..
 *
 * Reads a binary STL file, or a PLY file of the form that shell.h tells, repairs it with all options, checks it, and prints what was mended and how many edges
 * and boundary loops it has then. Where degenerate faces were removed it says how many of them repeat a corner and how many are thin: a scanner is adjusted by
 * that. THRESHOLD is the sine, from 0 to 1, of the angle at a face's first corner up to which the face is thin. OUT.ply gets the mended shell as a PLY file,
 * and FILE a line for each of its faces, in their order: which face of IN it is, from 0, so that tables built on the scan can be carried over. A refusal is
 * printed in words with its number and place; of a PLY file that is not of the form, with the first line of its header that differs; where only the loops are
 * refused, after the number of edges and with the place of the vertex at fault. For a large file each stage is told on standard error. Exit status: 0; 1 for a
 * refusal, or for a shell that the check does not pass, and then nothing is written; 2 if the words or the threshold are not understood, a file cannot be read
 * or written, or memory runs out.
 *
 * With -l the file LIST gets the mending list of the repair, in the form that shell.h tells: a line for each change, with -w each told as a sentence too.
 *
 * With -a the shell is mended by the mending list in the file LIST, in the same form, and not by the repair: so lines that a technician struck are not applied.
 * How many lines of each kind were applied is told, with -w each line as a sentence too. A list that does not apply is refused, with its first bad line and
 * what is wrong with it. The shell that comes out may not be sound: then what is wrong is told as with -c, it is written all the same, and the exit status is
 * 3.
 *
 * With -c nothing is mended. Where the check says no, what is wrong is told in words: faces that repeat a corner, directed edges that are walked more than
 * once, points where several surfaces touch; of each kind how many there are, and where the first is. The exit status is then 3.
 *
 * One file is taken at a time, but with -i each file is a key, and keys.c says what becomes of them. --help does not tell of -i. */
#define _XOPEN_SOURCE 700
#include "shellfix.h"
#include "faults.h"
#include "lists.h"
#include <ctype.h>
#include <errno.h>
#include <getopt.h>
#include <stdarg.h>
#include <stdlib.h>
#include <string.h>
#include <sys/stat.h>
#include <unistd.h>

/* The sine up to which the Rust takes a face for degenerate, and the bytes of a file from which the stages are told. */
#define THRESHOLD "1e-12"
#define LARGE_FILE 5000000u

FILE *kept;

void tell(const char *form, ...) {
    va_list rest;
    va_start(rest, form);
    vfprintf(kept == NULL ? stdout : kept, form, rest);
    va_end(rest);
}

/* What a refusal's number says. */
static const char *words(uint32_t number) {
    switch (number) {
    case SHELL_BAD_LENGTH:
        return "a list has a wrong length; 0 points, 1 faces, 2 counts";
    case SHELL_TOO_LARGE:
        return "too many; 0 points, 1 faces, 2 patches";
    case SHELL_BAD_SETTING:
        return "a bad setting; 0 threshold, 1 options";
    case SHELL_BAD_POINT:
        return "a coordinate is not a number, infinite or beyond 2^100; the first such corner or point";
    case SHELL_BAD_CORNER:
        return "a corner is no point; the first such face";
    case SHELL_SHORT_ROOM:
        return "a room is too short; its place in the call's list";
    case SHELL_CROWDED_EDGE:
        return "an edge occurs more than twice; its position among the sorted edges";
    case SHELL_BAD_BOUNDARY:
        return "the boundary is not simple; the lowest vertex at fault";
    case SHELL_BAD_FILE:
        return "not a binary STL file: 84 bytes and 50 for each facet that it counts";
    case SHELL_BAD_PLY:
        return "not a PLY file of the form that is read";
    case SHELL_NOT_A_TRIPLE:
        return "a face has not three corners; the first such face";
    case SHELL_BAD_LIST:
        return "the list does not apply; its first bad line, from 0";
    default:
        return "refused";
    }
}

int accepted(const char *call, uint32_t number, uint32_t place) {
    if (number == SHELL_ACCEPTED)
        return 1;
    tell("%s refused, number %u, place %u: %s\n", call, number, place, words(number));
    return 0;
}

void *room(size_t entries, size_t size) {
    void *made = calloc(entries ? entries : 1, size);
    if (made == NULL) {
        fprintf(stderr, "shellfix: no memory for %zu entries\n", entries);
        exit(TROUBLE);
    }
    return made;
}

uint8_t *load_file(const char *name, size_t *length) {
    FILE *file = fopen(name, "rb");
    size_t held = 1 << 16, n = 0, got;
    uint8_t *bytes = file ? malloc(held) : NULL;
    while (bytes != NULL && (got = fread(bytes + n, 1, held - n, file)) > 0) {
        n += got;
        if (n == held) {
            uint8_t *more = realloc(bytes, held *= 2);
            if (more == NULL)
                free(bytes);
            bytes = more;
        }
    }
    int error = errno;
    if (bytes != NULL && ferror(file)) {
        free(bytes);
        bytes = NULL;
    }
    if (file != NULL)
        fclose(file);
    errno = error;
    *length = n;
    return bytes;
}

/* The bytes of the file, and how many; if it cannot be read the program ends. */
static uint8_t *read_file(const char *name, size_t *length) {
    uint8_t *bytes = load_file(name, length);
    if (bytes != NULL)
        return bytes;
    fprintf(stderr, "shellfix: cannot read %s: %s\n", name, strerror(errno));
    exit(TROUBLE);
}

void stage_bytes(size_t length) {
    if (length >= LARGE_FILE)
        fprintf(stderr, "shellfix: reading %zu bytes\n", length);
}

void stage(const Mesh *mesh, const char *what) {
    if (mesh->large)
        fprintf(stderr, "shellfix: %s %zu points, %zu faces\n", what, mesh->point_count, mesh->face_count);
}

/* Tells bytes between quotes, a tab as \t and others that have no sign of their own as \xNN; of many the first. */
static void print_bytes(const uint8_t *bytes, size_t length) {
    const size_t most = 60;
    tell("'");
    for (size_t i = 0; i < length && i < most; i++)
        tell(bytes[i] == '\t' ? "\\t" : isprint(bytes[i]) && bytes[i] != '\\' ? "%c" : "\\x%02x", bytes[i]);
    tell(length > most ? "...'" : "'");
}

/* Whether bytes are a decimal number without leading zeros, and that number, or the largest of 64 bits where it has more. */
static int read_count(const uint8_t *bytes, size_t length, uint64_t *count) {
    *count = 0;
    for (size_t i = 0; i < length; i++) {
        uint64_t digit = (uint64_t)bytes[i] - '0';
        if (digit > 9)
            return 0;
        *count = *count > (UINT64_MAX - digit) / 10 ? UINT64_MAX : 10 * *count + digit;
    }
    return length == 1 || (length > 1 && bytes[0] != '0');
}

/* A line of a PLY file's header: where it begins, how long it is, and whether a newline ends it. */
typedef struct {
    const uint8_t *text;
    size_t length;
    int ended;
} Line;

/* The lines of the header that is read. In two of them N stands for a count. */
enum { LINES = 9, VERTEX_LINE = 2, FACE_LINE = 6 };
static const char *const wanted[LINES] = {"ply",
                                          "format binary_little_endian 1.0",
                                          "element vertex N",
                                          "property double x",
                                          "property double y",
                                          "property double z",
                                          "element face N",
                                          "property list uchar int vertex_indices",
                                          "end_header"};

/* Whether a line of the header has a count. */
static int has_count(int number) { return number == VERTEX_LINE || number == FACE_LINE; }

/* Whether a line of the header is as it must be; the count in it, where it has one. */
static int as_wanted(const Line *line, int number, uint64_t *count) {
    size_t length = strlen(wanted[number]) - (has_count(number) ? 1 : 0);
    if (!line->ended || line->length < length || memcmp(line->text, wanted[number], length) != 0)
        return 0;
    return has_count(number) ? read_count(line->text + length, line->length - length, count) : line->length == length;
}

/* Says of a line of the header that differs what it is and what is wanted. */
static void tell_line(const Line *line, int number) {
    tell("line %d of its PLY header is ", number + 1);
    print_bytes(line->text, line->length);
    tell(line->ended ? ", and '%s' is wanted" : ", where the file ends, and '%s' and a newline are wanted", wanted[number]);
    tell(has_count(number) ? ", N a decimal number without leading zeros\n" : "\n");
}

/* So many times a number and some more, or the largest number of 64 bits. */
static uint64_t times_and(uint64_t times, uint64_t number, uint64_t more) { return number > (UINT64_MAX - more) / times ? UINT64_MAX : times * number + more; }

/* Says of a file that is not of the form the first line of its header that differs, or else how long it is and how long it must be. */
static void tell_form(const uint8_t *file, size_t length) {
    uint64_t count[LINES] = {0};
    size_t at = 0;
    for (int number = 0; number < LINES; number++) {
        const uint8_t *end = memchr(file + at, '\n', length - at);
        Line line = {file + at, end == NULL ? length - at : (size_t)(end - file) - at, end != NULL};
        if (!as_wanted(&line, number, count + number)) {
            tell_line(&line, number);
            return;
        }
        at += line.length + 1;
    }
    uint64_t bytes = times_and(24, count[VERTEX_LINE], times_and(13, count[FACE_LINE], at));
    tell("its PLY header tells of %s%llu vertices", count[VERTEX_LINE] == UINT64_MAX ? "at least " : "", (unsigned long long)count[VERTEX_LINE]);
    tell(" and %s%llu faces", count[FACE_LINE] == UINT64_MAX ? "at least " : "", (unsigned long long)count[FACE_LINE]);
    tell(", so it must have %s%llu bytes, and it has %zu\n", bytes == UINT64_MAX ? "at least " : "", (unsigned long long)bytes, length);
}

/* The mesh of the bytes of an STL file. If they are none and begin as a PLY file does, says why they are none of those. */
static int read_stl(const uint8_t *file, size_t length, Mesh *mesh) {
    size_t stated = length < 84 ? 0 : (length - 84) / 50;
    size_t f = stated > SHELL_MOST_FACES ? 0 : stated;
    double *points = room(SHELL_STL_POINTS_ROOM(f), sizeof *points);
    uint32_t *faces = room(SHELL_STL_FACES_ROOM(f), sizeof *faces), *work = room(SHELL_STL_WORK_ROOM(f), sizeof *work);
    ShellStl read = shell_read_stl(file, length, points, SHELL_STL_POINTS_ROOM(f), faces, SHELL_STL_FACES_ROOM(f), work, SHELL_STL_WORK_ROOM(f));
    free(work);
    *mesh = (Mesh){points, faces, read.points / 3, read.faces / 3, f >= LARGE};
    int good = accepted("read", read.number, read.place);
    if (read.number == SHELL_BAD_FILE && length >= 3 && memcmp(file, "ply", 3) == 0)
        tell_form(file, length);
    return good;
}

/* The mesh of the bytes of a PLY file. */
static int read_ply(const uint8_t *file, size_t length, Mesh *mesh) {
    ShellPlyCounts counts = shell_ply_counts(file, length);
    size_t p = counts.points, f = counts.faces;
    double *points = room(SHELL_PLY_POINTS_ROOM(p), sizeof *points);
    uint32_t *faces = room(SHELL_PLY_FACES_ROOM(f), sizeof *faces), *work = room(SHELL_WORK_ROOM(p, f), sizeof *work);
    ShellPly read = shell_read_ply(file, length, points, SHELL_PLY_POINTS_ROOM(p), faces, SHELL_PLY_FACES_ROOM(f), work, SHELL_WORK_ROOM(p, f));
    free(work);
    *mesh = (Mesh){points, faces, read.points / 3, read.faces / 3, f >= LARGE};
    int good = accepted("read", read.number, read.place);
    if (read.number == SHELL_BAD_PLY)
        tell_form(file, length);
    return good;
}

/* A PLY file begins with its first line, and anything else must be an STL file. */
int read_mesh(const uint8_t *file, size_t length, Mesh *mesh) {
    int is_ply = length >= 4 && memcmp(file, "ply\n", 4) == 0, good = is_ply ? read_ply(file, length, mesh) : read_stl(file, length, mesh);
    if (good)
        tell("read: %zu points, %zu faces\n", mesh->point_count, mesh->face_count);
    return good;
}

/* The repair of a mesh with all options. */
static int mend(const Mesh *mesh, double s, Mended *mended) {
    size_t p = mesh->point_count, f = mesh->face_count;
    double *points = room(SHELL_POINTS_ROOM(p, f), sizeof *points);
    uint32_t *faces = room(SHELL_FACES_ROOM(f), sizeof *faces), *work = room(SHELL_WORK_ROOM(p, f), sizeof *work);
    mended->origins = room(SHELL_ORIGINS_ROOM(f), sizeof *mended->origins);
    ShellRepaired repaired = shell_repair(mesh->points, 3 * p, mesh->faces, 3 * f, s, SHELL_ALL_OPTIONS, points, SHELL_POINTS_ROOM(p, f), faces,
                                          SHELL_FACES_ROOM(f), mended->report, SHELL_REPORT_ROOM, mended->origins, SHELL_ORIGINS_ROOM(f), work,
                                          SHELL_WORK_ROOM(p, f));
    free(work);
    mended->mesh = (Mesh){points, faces, repaired.points / 3, repaired.faces / 3, mesh->large};
    return accepted("repair", repaired.number, repaired.place);
}

/* The report as a line, and of the degenerate faces how many there were of each kind. */
static int print_report(const uint32_t *report, const char *threshold) {
    uint32_t repeated = report[SHELL_REPEATED_REMOVED], thin = report[SHELL_THIN_REMOVED];
    uint8_t line[SHELL_LINE_ROOM];
    ShellLine written = shell_line(report, SHELL_REPORT_ROOM, line, sizeof line);
    if (!accepted("line", written.number, written.place))
        return 0;
    tell("%.*s\n", (int)written.bytes, (const char *)line);
    if (repeated != 0 || thin != 0)
        tell("of the degenerate faces %u repeat a corner, %u are thin at %s\n", repeated, thin, threshold);
    return 1;
}

/* The edge check's answer, as an exit status. */
static int check(const Mesh *mesh, uint32_t *work, size_t work_length) {
    stage(mesh, "checking");
    ShellCheck sound = shell_check(mesh->point_count, mesh->faces, 3 * mesh->face_count, work, work_length);
    if (!accepted("check", sound.number, sound.place))
        return REFUSED;
    tell("sound: %s\n", sound.yes ? "yes" : "no");
    return sound.yes ? SOUND : NOT_SOUND;
}

/* The edge call's answer, without what it lists. */
static ShellEdges find_edges(const Mesh *mesh, uint32_t *work, size_t work_length) {
    size_t f = mesh->face_count;
    uint32_t *edges = room(SHELL_EDGES_ROOM(f), sizeof *edges), *face_edges = room(SHELL_FACE_EDGES_ROOM(f), sizeof *face_edges);
    double *lengths = room(SHELL_LENGTHS_ROOM(f), sizeof *lengths);
    ShellEdges found = shell_edges(mesh->points, 3 * mesh->point_count, mesh->faces, 3 * f, edges, SHELL_EDGES_ROOM(f), lengths, SHELL_LENGTHS_ROOM(f),
                                   face_edges, SHELL_FACE_EDGES_ROOM(f), work, work_length);
    free(edges), free(face_edges), free(lengths);
    return found;
}

/* The loop call's answer, without what it lists. */
static ShellLoops find_loops(const Mesh *mesh, uint32_t *work, size_t work_length) {
    size_t f = mesh->face_count;
    uint32_t *loop_vertices = room(SHELL_LOOP_VERTICES_ROOM(f), sizeof *loop_vertices), *loop_ends = room(SHELL_LOOP_ENDS_ROOM(f), sizeof *loop_ends);
    ShellLoops found = shell_loops(mesh->points, 3 * mesh->point_count, mesh->faces, 3 * f, loop_vertices, SHELL_LOOP_VERTICES_ROOM(f), loop_ends,
                                   SHELL_LOOP_ENDS_ROOM(f), work, work_length);
    free(loop_vertices), free(loop_ends);
    return found;
}

/* How many edges and boundary loops there are; where the loops are refused, the edges all the same, why, and where the vertex at fault lies. */
static int count_edges(const Mesh *mesh, uint32_t *work, size_t work_length) {
    ShellEdges edges = find_edges(mesh, work, work_length);
    if (!accepted("edges", edges.number, edges.place))
        return 0;
    ShellLoops loops = find_loops(mesh, work, work_length);
    if (loops.number == SHELL_ACCEPTED) {
        tell("%llu edges, %llu boundary loops\n", (unsigned long long)edges.lengths, (unsigned long long)loops.loop_ends);
        return 1;
    }
    tell("%llu edges\n", (unsigned long long)edges.lengths);
    accepted("loops", loops.number, loops.place);
    if (loops.number == SHELL_BAD_BOUNDARY) {
        const double *at = mesh->points + 3 * (size_t)loops.place;
        tell("vertex %u lies at %.9g %.9g %.9g: several boundary edges begin there, or not as many as end there\n", loops.place, at[0], at[1], at[2]);
    }
    return 0;
}

/* The mended shell, its origins, and the mending list. */
enum { SHELL, ORIGINS, LIST, OUTPUTS };
static Output outputs[OUTPUTS];

/* The file that was begun last. */
static Output *begun;

/* A list in memory. */
typedef struct {
    uint8_t *bytes;
    size_t length;
} Bytes;

/* How many lines a list has; bytes behind its last newline are one too. */
static size_t count_lines(const uint8_t *bytes, size_t length) {
    size_t count = length > 0 && bytes[length - 1] != '\n';
    for (size_t i = 0; i < length; i++)
        count += bytes[i] == '\n';
    return count;
}

/* Begins to go through a list that is for a mesh. */
static void begin_list(List *list, const Mesh *mesh, const uint8_t *bytes, size_t length) {
    if (!open_list(list, bytes, length, mesh->faces, mesh->face_count, mesh->point_count)) {
        fprintf(stderr, "shellfix: no memory to go through the list\n");
        exit(TROUBLE);
    }
}

/* Goes through the lines of a list up to the first bad one, and tells them as sentences if that is wanted; how many there are of each kind. */
static void go_through(List *list, int sentences, size_t kinds[LINE_KINDS]) {
    while (next_line(list)) {
        kinds[list->kind]++;
        if (sentences)
            print_sentence(list);
    }
    if (list->wrong == NOTHING_WRONG && list->at < list->text_length) {
        fprintf(stderr, "shellfix: no memory to go through the list\n");
        exit(TROUBLE);
    }
}

/* The mending list of the repair of a mesh. */
static int put_list(const Mesh *mesh, double s, Output *out) {
    size_t p = mesh->point_count, f = mesh->face_count;
    uint32_t *work = room(SHELL_WORK_ROOM(p, f), sizeof *work);
    out->bytes = room(SHELL_LIST_ROOM(p, f), 1);
    ShellList written = shell_list(mesh->points, 3 * p, mesh->faces, 3 * f, s, SHELL_ALL_OPTIONS, out->bytes, SHELL_LIST_ROOM(p, f), work,
                                   SHELL_WORK_ROOM(p, f));
    free(work);
    out->length = written.bytes;
    return accepted("list", written.number, written.place);
}

/* Tells each line of the mending list of a mesh as a sentence. */
static int tell_list(const Mesh *mesh, const Output *out) {
    size_t kinds[LINE_KINDS] = {0};
    List list;
    begin_list(&list, mesh, out->bytes, out->length);
    go_through(&list, 1, kinds);
    int good = list.wrong == NOTHING_WRONG;
    if (!good)
        printf("the library wrote a list that shellfix finds wrong: one of them has a fault\n");
    close_list(&list);
    return good;
}

int describe(const Mesh *scan, const Mended *mended, const Asked *asked) {
    const Mesh *mesh = &mended->mesh;
    size_t work_length = SHELL_WORK_ROOM(mesh->point_count, mesh->face_count);
    uint32_t *work = room(work_length, sizeof *work);
    tell("mended: %zu points, %zu faces\n", mesh->point_count, mesh->face_count);
    int good = print_report(mended->report, asked->threshold);
    good = good && (!asked->words || tell_list(scan, outputs + LIST));
    good = good && check(mesh, work, work_length) == SOUND;
    stage(mesh, "listing the edges and loops of");
    good = good && count_edges(mesh, work, work_length);
    free(work);
    return good;
}

/* Says why a file cannot be written, and ends the program. New files that are not finished are taken away. */
static _Noreturn void cannot_write(const char *name) {
    fprintf(stderr, "shellfix: cannot write %s: %s\n", name, strerror(errno));
    for (; begun != NULL; begun = begun->before)
        if (begun->part != NULL)
            remove(begun->part);
    exit(TROUBLE);
}

/* Opens a new file beside the one whose name it is to take. NULL if that cannot be done. */
static FILE *open_beside(Output *out) {
    size_t length = strlen(out->to) + sizeof ".part99";
    FILE *file = NULL;
    char *part = room(length, 1);
    for (int k = 0; k < 100 && file == NULL && (k == 0 || errno == EEXIST); k++) {
        snprintf(part, length, k == 0 ? "%s.part" : "%s.part%d", out->to, k);
        file = fopen(part, "wbx");
    }
    if (file != NULL) {
        out->part = part;
        out->before = begun;
        begun = out;
    }
    return file;
}

/* Writes all bytes and closes the file; whether every one of them arrived, on the disk too where there is one. */
static int put_bytes(FILE *file, const Output *out) {
    int good = fwrite(out->bytes, 1, out->length, file) == out->length && fflush(file) == 0 && (fsync(fileno(file)) == 0 || errno == EINVAL || errno == EROFS);
    int error = errno;
    if (fclose(file) != 0 && good)
        return 0;
    errno = error;
    return good;
}

/* They go to a new file, so that what the old one held is not lost before all of them are there. What is no file, like a pipe or what /dev/stdout leads to, is
 * written to as it is; a link that leads nowhere stays. */
void put_beside(Output *out) {
    struct stat held;
    int link = lstat(out->name, &held) == 0, there = stat(out->name, &held) == 0, as_it_is = there && !S_ISREG(held.st_mode);
    if (!there && (link || errno != ENOENT || *out->name == 0))
        cannot_write(out->name);
    if (!as_it_is)
        out->to = there ? realpath(out->name, NULL) : strdup(out->name);
    if (!as_it_is && (out->to == NULL || (there && access(out->to, W_OK) != 0)))
        cannot_write(out->name);
    FILE *file = as_it_is ? fopen(out->name, "wb") : open_beside(out);
    if (file == NULL)
        cannot_write(out->name);
    if (there && !as_it_is)
        fchmod(fileno(file), held.st_mode & 07777);
    if (!put_bytes(file, out))
        cannot_write(out->name);
}

void take_name(Output *out) {
    if (out->part != NULL && rename(out->part, out->to) != 0)
        cannot_write(out->name);
    free(out->part), free(out->to);
    out->part = out->to = NULL;
}

int put_mesh(const Mesh *mesh, Output *out) {
    size_t p = mesh->point_count, f = mesh->face_count;
    uint32_t *work = room(SHELL_WORK_ROOM(p, f), sizeof *work);
    out->bytes = room(SHELL_PLY_FILE_ROOM(p, f), 1);
    ShellPlyFile written = shell_write_ply(mesh->points, 3 * p, mesh->faces, 3 * f, out->bytes, SHELL_PLY_FILE_ROOM(p, f), work, SHELL_WORK_ROOM(p, f));
    free(work);
    out->length = written.bytes;
    return accepted("write", written.number, written.place);
}

/* The origins as text, a line for each face. */
static void put_origins(const Mended *mended, Output *out) {
    const size_t longest = sizeof "4294967295\n";
    out->bytes = room(longest * mended->mesh.face_count, 1);
    for (size_t k = 0; k < mended->mesh.face_count; k++)
        out->length += (size_t)snprintf((char *)out->bytes + out->length, longest, "%u\n", mended->origins[k]);
}

/* Writes the files that have a name: none of them takes it before all are on the disk, so that the origins and the list that stand there fit the shell that
 * stands there. The list is made already. */
static int write_outputs(const Mended *mended) {
    Output *shell = outputs + SHELL, *origins = outputs + ORIGINS, *list = outputs + LIST;
    int good = shell->name == NULL || put_mesh(&mended->mesh, shell);
    if (good && origins->name != NULL)
        put_origins(mended, origins);
    for (int k = 0; k < OUTPUTS && good; k++)
        if (outputs[k].name != NULL)
            put_beside(outputs + k);
    for (int k = 0; k < OUTPUTS && good; k++)
        take_name(outputs + k);
    if (good && shell->name != NULL)
        printf("written: %zu bytes to %s\n", shell->length, shell->name);
    if (good && origins->name != NULL)
        printf("written: the origins of %zu faces to %s\n", mended->mesh.face_count, origins->name);
    if (good && list->name != NULL)
        printf("written: the %zu lines of the mending list to %s\n", count_lines(list->bytes, list->length), list->name);
    return good;
}

/* A point's number, and where it lies. */
static void print_point(const Mesh *mesh, uint32_t v) {
    const double *at = mesh->points + 3 * (size_t)v;
    printf("point %u at %.9g %.9g %.9g", v, at[0], at[1], at[2]);
}

/* The directed edges that are walked more than once: how many, and the first with two faces that walk it. */
static void print_walked(const Mesh *mesh, const Faults *found) {
    printf("%zu directed edges that are walked more than once; the first leads from ", found->walked);
    print_point(mesh, found->from);
    printf(" to ");
    print_point(mesh, found->to);
    if (found->by[0] == found->by[1])
        printf(", and face %zu walks it more than once\n", found->by[0]);
    else
        printf(", and faces %zu and %zu walk it\n", found->by[0], found->by[1]);
}

/* What is wrong with a mesh that the check says no to, a line for each kind of fault. */
static void print_faults(const Mesh *mesh, const Faults *found) {
    const uint32_t *face = mesh->faces + 3 * found->face;
    if (found->repeating > 0)
        printf("%zu faces that repeat a corner; the first is face %zu, with corners %u %u %u\n", found->repeating, found->face, face[0], face[1], face[2]);
    if (found->walked > 0)
        print_walked(mesh, found);
    if (found->tied > 0) {
        printf("%zu points where several surfaces touch; the first is ", found->tied);
        print_point(mesh, found->point);
        printf(", whose faces form %zu groups\n", found->groups);
    }
    if (found->repeating == 0 && found->walked == 0 && found->tied == 0)
        printf("the library says no, and shellfix finds nothing wrong: one of them has a fault\n");
}

/* Checks a mesh as it is, and says what is wrong if it is not sound; the exit status. */
static int judge(const Mesh *mesh) {
    size_t work_length = SHELL_WORK_ROOM(mesh->point_count, mesh->face_count);
    uint32_t *work = room(work_length, sizeof *work);
    int status = check(mesh, work, work_length);
    Faults found;
    free(work);
    if (status == NOT_SOUND && find_faults(mesh->faces, mesh->face_count, mesh->point_count, &found))
        print_faults(mesh, &found);
    else if (status == NOT_SOUND)
        fprintf(stderr, "shellfix: no memory to find out what is wrong\n");
    return status;
}

/* Mends a mesh, describes what came out, and writes what is asked for; the exit status. */
static int mend_mesh(const Mesh *mesh, const Asked *asked) {
    Mended mended = {.report = {0}};
    stage(mesh, "repairing");
    int good = mend(mesh, asked->s, &mended);
    if (good && outputs[LIST].name != NULL) {
        stage(mesh, "listing what is done to");
        good = put_list(mesh, asked->s, outputs + LIST);
    }
    good = good && describe(mesh, &mended, asked);
    if (good && (outputs[SHELL].name != NULL || outputs[ORIGINS].name != NULL || outputs[LIST].name != NULL)) {
        stage(&mended.mesh, "writing");
        good = write_outputs(&mended);
    }
    free(mended.mesh.points), free(mended.mesh.faces), free(mended.origins);
    return good ? SOUND : REFUSED;
}

/* How many lines of each kind were applied. */
static void print_kinds(const size_t kinds[LINE_KINDS]) {
    static const char *const labels[LINE_KINDS] = {"faces dropped that repeat a corner", "thin faces dropped", "duplicate faces dropped",
                                                   "faces dropped at crowded edges",     "faces turned over",  "faces dropped for their direction",
                                                   "points split off",                   "isolated points dropped"};
    const char *before = "applied: ";
    for (int k = 0; k < LINE_KINDS; k++)
        if (kinds[k] > 0) {
            printf("%s%zu %s", before, kinds[k], labels[k]);
            before = ", ";
        }
    printf(before[0] == ',' ? "\n" : "applied: nothing\n");
}

/* Says why a list does not apply: its first bad line, and what is wrong with it. */
static void tell_bad_line(const List *list, uint32_t place) {
    if (list->wrong == NOTHING_WRONG || list->number != place) {
        printf("the library does not apply the list, and shellfix finds nothing wrong with that line: one of them has a fault\n");
        return;
    }
    printf("line %u of the list, from 0, is ", place);
    print_bytes(list->line, list->line_length);
    printf(": ");
    print_wrong(list);
}

/* The mesh that a list makes of a mesh; if the list does not apply, says why. */
static int apply(const Mesh *mesh, const Bytes *text, int sentences, Mesh *applied) {
    size_t p = mesh->point_count, f = mesh->face_count, kinds[LINE_KINDS] = {0};
    double *points = room(SHELL_POINTS_ROOM(p, f), sizeof *points);
    uint32_t *faces = room(SHELL_FACES_ROOM(f), sizeof *faces), *work = room(SHELL_WORK_ROOM(p, f), sizeof *work);
    List list;
    begin_list(&list, mesh, text->bytes, text->length);
    printf("list: %zu lines\n", count_lines(text->bytes, text->length));
    go_through(&list, sentences, kinds);
    ShellApplied found = shell_apply(mesh->points, 3 * p, mesh->faces, 3 * f, text->bytes, text->length, points, SHELL_POINTS_ROOM(p, f), faces,
                                     SHELL_FACES_ROOM(f), work, SHELL_WORK_ROOM(p, f));
    *applied = (Mesh){points, faces, found.points / 3, found.faces / 3, mesh->large};
    int good = accepted("apply", found.number, found.place);
    if (good)
        print_kinds(kinds);
    else if (found.number == SHELL_BAD_LIST)
        tell_bad_line(&list, found.place);
    close_list(&list);
    free(work);
    return good;
}

/* What is said of a mesh that was mended by a list: whether it is sound, and if not what is wrong, and the counts of edges and loops; the exit status. */
static int describe_applied(const Mesh *mesh) {
    size_t work_length = SHELL_WORK_ROOM(mesh->point_count, mesh->face_count);
    uint32_t *work = room(work_length, sizeof *work);
    printf("mended: %zu points, %zu faces\n", mesh->point_count, mesh->face_count);
    int status = judge(mesh);
    stage(mesh, "listing the edges and loops of");
    if (status != REFUSED && !count_edges(mesh, work, work_length) && status == SOUND)
        status = REFUSED;
    free(work);
    return status;
}

/* Mends a mesh by a list, describes what came out, and writes it if that is asked for; the exit status. */
static int apply_list(const Mesh *mesh, const Bytes *text, const Asked *asked) {
    Mended mended = {.report = {0}, .origins = NULL};
    stage(mesh, "applying the list to");
    int status = apply(mesh, text, asked->words, &mended.mesh) ? describe_applied(&mended.mesh) : REFUSED;
    if (status != REFUSED && outputs[SHELL].name != NULL) {
        stage(&mended.mesh, "writing");
        status = write_outputs(&mended) ? status : REFUSED;
    }
    free(mended.mesh.points), free(mended.mesh.faces);
    return status;
}

/* Reads the mesh of a file, and mends it, by a list if there is one, or only checks it; the exit status. */
static int take_file(const uint8_t *file, size_t length, const Bytes *text, const Asked *asked) {
    Mesh mesh;
    int status = REFUSED;
    if (read_mesh(file, length, &mesh))
        status = asked->check ? judge(&mesh) : asked->list != NULL ? apply_list(&mesh, text, asked) : mend_mesh(&mesh, asked);
    free(mesh.points), free(mesh.faces);
    return status;
}

/* Whether a word is a number from 0 to 1 and nothing besides, and that number; if not, says why. */
static int read_threshold(const char *word, Asked *asked) {
    char *end;
    asked->threshold = word;
    asked->s = strtod(word, &end);
    if (end == word || *end != 0 || isspace((unsigned char)*word)) {
        fprintf(stderr, "shellfix: the threshold '%s' is not a number\n", word);
        return 0;
    }
    if (!(0 <= asked->s && asked->s <= 1)) {
        fprintf(stderr, "shellfix: the threshold '%s' is not from 0 to 1\n", word);
        return 0;
    }
    return 1;
}

/* The options, by a letter or by a name. */
static const char letters[] = ":s:o:f:l:a:i:wch";
static const struct option options[] = {{"threshold", required_argument, NULL, 's'},
                                        {"output", required_argument, NULL, 'o'},
                                        {"origins", required_argument, NULL, 'f'},
                                        {"list", required_argument, NULL, 'l'},
                                        {"apply", required_argument, NULL, 'a'},
                                        {"into", required_argument, NULL, 'i'},
                                        {"words", no_argument, NULL, 'w'},
                                        {"check", no_argument, NULL, 'c'},
                                        {"help", no_argument, NULL, 'h'},
                                        {NULL, 0, NULL, 0}};

/* Says what is wrong with an option: it wants a word behind it, or takes none, or there is no such option. */
static int bad_option(int found, char **given) {
    if (found == ':')
        fprintf(stderr, "shellfix: -%c wants a %s\n", optopt, optopt == 's' ? "threshold" : optopt == 'i' ? "folder" : "file");
    else if (optopt == 0)
        fprintf(stderr, "shellfix: there is no option %s\n", given[optind - 1]);
    else if (strchr(letters, optopt) != NULL)
        fprintf(stderr, "shellfix: nothing is wanted behind that option: %s\n", given[optind - 1]);
    else
        fprintf(stderr, "shellfix: there is no option -%c\n", optopt);
    return 0;
}

/* Takes a name, if there is none yet. */
static int take_only(const char **name, const char *what) {
    if (*name != NULL) {
        fprintf(stderr, "shellfix: %s, and not %s too\n", what, optarg);
        return 0;
    }
    *name = optarg;
    return 1;
}

/* Takes one option into what is asked for; if it cannot, says why. */
static int take_option(int found, char **given, Asked *asked) {
    switch (found) {
    case 's':
        return read_threshold(optarg, asked);
    case 'o':
        return take_only(&outputs[SHELL].name, "one file is written");
    case 'f':
        return take_only(&outputs[ORIGINS].name, "one list of origins is written");
    case 'l':
        return take_only(&outputs[LIST].name, "one mending list is written");
    case 'a':
        return take_only(&asked->list, "one list is applied");
    case 'i':
        return take_only(&asked->into, "one folder is written to");
    case 'w':
        asked->words = 1;
        return 1;
    case 'c':
        asked->check = 1;
        return 1;
    case 'h':
        asked->help = 1;
        return 1;
    default:
        return bad_option(found, given);
    }
}

/* Where a file of this name stands, or will: its path without links, or that of its folder and its last part. NULL where it cannot stand. */
static char *end_of(const char *name) {
    const char *slash = strrchr(name, '/'), *last = slash == NULL ? name : slash + 1;
    size_t folder = (size_t)(last - name), length;
    char *end = realpath(name, NULL), *at, *real;
    if (end != NULL)
        return end;
    at = room(folder + sizeof ".", 1);
    memcpy(at, name, folder);
    at[folder] = '.';
    real = realpath(at, NULL);
    free(at);
    if (real == NULL)
        return NULL;
    length = strlen(real) + strlen(last) + sizeof "/";
    end = room(length, 1);
    snprintf(end, length, "%s/%s", real, last);
    free(real);
    return end;
}

/* Whether two names are those of one file. */
static int one_file(const char *a, const char *b) {
    char *end_a = end_of(a), *end_b = end_of(b);
    int same = end_a != NULL && end_b != NULL ? strcmp(end_a, end_b) == 0 : strcmp(a, b) == 0;
    free(end_a), free(end_b);
    return same;
}

/* Whether two files that are written have names of their own; if not, says so. */
static int named_apart(const char *one, const char *other, const char *both) {
    if (one == NULL || other == NULL || !one_file(one, other))
        return 1;
    fprintf(stderr, "shellfix: %s cannot be both %s\n", one, both);
    return 0;
}

/* Whether a file that is written does not take the place of one that is read; if it does, says so, and why it must not. */
static int spared(const char *read, const char *written, const char *what, const char *why) {
    if (read == NULL || written == NULL || !one_file(read, written))
        return 1;
    fprintf(stderr, "shellfix: the %s cannot take the place of %s, which %s\n", what, read, why);
    return 0;
}

/* Whether the files that are written may take their names. The mended shell, and nothing else, may take the place of the scan. */
static int free_names(const Asked *asked) {
    const char *shell = outputs[SHELL].name, *origins = outputs[ORIGINS].name, *list = outputs[LIST].name, *scan = asked->count == 1 ? asked->names[0] : NULL;
    return named_apart(shell, origins, "the mended shell and its origins") && named_apart(shell, list, "the mended shell and its mending list") &&
           named_apart(origins, list, "the origins and the mending list") && spared(scan, origins, "origins", "they are counted in") &&
           spared(scan, list, "mending list", "its faces are counted in") && spared(asked->list, shell, "mended shell", "it is mended by");
}

/* Whether an option is given. */
static int is_given(const Asked *asked, char option) {
    switch (option) {
    case 's':
        return asked->threshold != NULL;
    case 'o':
        return outputs[SHELL].name != NULL;
    case 'f':
        return outputs[ORIGINS].name != NULL;
    case 'l':
        return outputs[LIST].name != NULL;
    case 'a':
        return asked->list != NULL;
    case 'i':
        return asked->into != NULL;
    case 'w':
        return asked->words;
    default:
        return asked->check;
    }
}

/* The first of these options that is given, as a letter; 0 if none is. */
static char first_given(const Asked *asked, const char *some) {
    while (*some != 0 && !is_given(asked, *some))
        some++;
    return *some;
}

/* Whether the keys of a panel are asked for, and not one shell. */
static int wants_keys(const Asked *asked) { return asked->into != NULL; }

/* Whether only such options are given as keys have; if not, says which is another. */
static int fit_keys(const Asked *asked) {
    const char other = first_given(asked, "coflaw");
    if (!other)
        return 1;
    fprintf(stderr, "shellfix: with -i mended keys are written to a folder, and nothing besides, so -%c has nothing to do\n", other);
    return 0;
}

/* Whether each option has something to do beside the others; if not, says which has not. */
static int have_to_do(const Asked *asked) {
    const char checked = first_given(asked, "soflaiw"), applied = first_given(asked, "sfl");
    if (asked->check && checked)
        fprintf(stderr, "shellfix: with -c nothing is mended, so -%c has nothing to do\n", checked);
    else if (asked->list != NULL && applied)
        fprintf(stderr, "shellfix: with -a the list says what is mended, so -%c has nothing to do\n", applied);
    else if (asked->words && !first_given(asked, "la"))
        fprintf(stderr, "shellfix: without -l or -a there is no list, so -w has nothing to do\n");
    else
        return 1;
    return 0;
}

/* Whether the words ask for files or for help, and what else they ask for; if not, says why. */
static int read_words(int count, char **given, Asked *asked) {
    int found;
    while ((found = getopt_long(count, given, letters, options, NULL)) != -1)
        if (!take_option(found, given, asked))
            return 0;
    asked->names = given + optind;
    asked->count = (size_t)(count - optind);
    if (!asked->help && (!have_to_do(asked) || (wants_keys(asked) && !fit_keys(asked))))
        return 0;
    const int too_many = asked->count > 1 && !wants_keys(asked);
    if (too_many)
        fprintf(stderr, "shellfix: one file at a time, and not %s too\n", asked->names[1]);
    return free_names(asked) && !too_many && (asked->count > 0 || asked->help);
}

/* How it is called, and what --help says besides. */
static const char usage[] =
    "usage: shellfix [-s THRESHOLD] [-o OUT.ply] [-f FILE] [-l LIST [-w]] IN\n"
    "       shellfix -a LIST [-w] [-o OUT.ply] IN\n"
    "       shellfix -c IN\n"
    "  IN: a binary STL file, or a PLY file of the form that -o writes\n"
    "  -s, --threshold THRESHOLD: from 0 to 1; a face is thin up to this sine of the angle at its first corner; " THRESHOLD " where none is given\n"
    "  -o, --output OUT.ply: the mended shell is written to this file, as binary PLY\n"
    "  -f, --origins FILE: a line for each face of the mended shell, in its order, is written to this file: which face of IN it is, from 0\n"
    "  -l, --list LIST: what is mended is written to this file as a mending list, a line for each change\n"
    "  -a, --apply LIST: the shell is mended by the mending list in this file, and not by the repair\n"
    "  -w, --words: each line of the list that is written or applied is told as a sentence\n"
    "  -c, --check: the shell is checked as it is, and not mended\n"
    "  -h, --help: this text\n";
static const char more[] =
    "Mends the shell, and prints what was mended, whether it is sound, and how many edges and boundary loops it has then.\n"
    "With -a it prints how many lines of each kind were applied; lines that were struck from a list are not applied, so that the shell may not be sound:\n"
    "then what is wrong is printed, and the shell is written all the same. Of a list that does not apply the first bad line is told, and why it is bad.\n"
    "With -c it prints whether the shell is sound, and if not what is wrong: faces that repeat a corner, directed edges that are walked more than\n"
    "once, points where several surfaces touch; of each how many there are, and the first. Faces and points are counted from 0.\n"
    "Exit status: 0; 1 where the file, the shell or the list is refused, and then nothing is written; 2 where the words are not understood,\n"
    "or a file cannot be read or written; 3 where a shell that is only checked, or was mended by a list, is not sound.\n";

/* The exit status, but for 2 where something that was printed did not arrive. */
static int ended(int status) {
    if (fflush(stdout) == 0 && !ferror(stdout))
        return status;
    fprintf(stderr, "shellfix: cannot print: %s\n", strerror(errno));
    return TROUBLE;
}

/* Takes one shell from its file, and a list if there is one to mend by; the exit status. */
static int take_shell(const Asked *asked) {
    Bytes text = {NULL, 0};
    size_t length;
    if (asked->list != NULL)
        text.bytes = read_file(asked->list, &text.length);
    uint8_t *file = read_file(asked->names[0], &length);
    stage_bytes(length);
    int status = take_file(file, length, &text, asked);
    free(file), free(text.bytes);
    for (int k = 0; k < OUTPUTS; k++)
        free(outputs[k].bytes);
    return status;
}

int main(int count, char **given) {
    Asked asked = {.names = NULL};
    if (!read_words(count, given, &asked) || (asked.threshold == NULL && !read_threshold(THRESHOLD, &asked))) {
        fputs(usage, stderr);
        return TROUBLE;
    }
    if (asked.help) {
        printf("%s%s", usage, more);
        return ended(SOUND);
    }
    return ended(wants_keys(&asked) ? mend_keys(&asked) : take_shell(&asked));
}
