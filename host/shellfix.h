/* What the two files of shellfix share: a shell from disk, what is said of it, and a file that is written. shellfix.c takes one shell, keys.c the keys of a
 * panel. */
#ifndef JOGASMUN_SHELLFIX_H
#define JOGASMUN_SHELLFIX_H

#include "shell.h"
#include <stddef.h>
#include <stdint.h>
#include <stdio.h>

/* The number of faces from which the stages are told. */
#define LARGE 100000u

/* The exit statuses. */
enum { SOUND = 0, REFUSED = 1, TROUBLE = 2, NOT_SOUND = 3 };

/* A mesh, and whether its stages are told. */
typedef struct {
    double *points;
    uint32_t *faces;
    size_t point_count, face_count;
    int large;
} Mesh;

/* A mended mesh, what was done, and for each face which face of the scan it is. */
typedef struct {
    Mesh mesh;
    uint32_t report[SHELL_REPORT_ROOM], *origins;
} Mended;

/* A file that is written: its name and its bytes; while it is not finished, the name of the new file beside it, and the name that this one is to take; and the
 * file that was begun before it. */
typedef struct Output {
    const char *name;
    uint8_t *bytes;
    size_t length;
    char *part, *to;
    struct Output *before;
} Output;

/* What the words ask for: files to read, a folder to write mended keys to, a threshold as it is written and as a number, a list to mend by, whether its lines
 * are told as sentences, whether the shell is only checked, and whether only help is wanted. */
typedef struct {
    char **names;
    size_t count;
    const char *into, *threshold, *list;
    double s;
    int words, check, help;
} Asked;

/* Where what is said of a shell is kept; printed where this is NULL. */
extern FILE *kept;

/* Says something of a shell: prints or keeps it. */
void tell(const char *form, ...) __attribute__((format(printf, 1, 2)));

/* Whether a call was accepted; if not, says why. */
int accepted(const char *call, uint32_t number, uint32_t place);

/* A room of `entries` entries of `size` bytes, all zero; where there is no memory for it the program ends. */
void *room(size_t entries, size_t size);

/* The bytes of the file, and how many; NULL if it cannot be read, and `errno` says why. */
uint8_t *load_file(const char *name, size_t *length);

/* Tells a stage of a large file or mesh on standard error. */
void stage_bytes(size_t length);
void stage(const Mesh *mesh, const char *what);

/* The mesh of a file's bytes, and says how large it is; if they are refused, says why. */
int read_mesh(const uint8_t *file, size_t length, Mesh *mesh);

/* What is said of a mended mesh: the report, what was done line by line if that is asked for, the check's answer, and the counts of edges and loops. Whether it
 * is sound. The scan may be NULL where no lines are asked for. */
int describe(const Mesh *scan, const Mended *mended, const Asked *asked);

/* The mesh as a PLY file. */
int put_mesh(const Mesh *mesh, Output *out);

/* Writes the bytes of a file to a new one beside it, or ends the program; and lets the new file take its name. */
void put_beside(Output *out);
void take_name(Output *out);

/* Mends the keys of a panel in one call, tells of each in a line, and writes those that are mended if a folder is named; the exit status. */
int mend_keys(const Asked *asked);

#endif
