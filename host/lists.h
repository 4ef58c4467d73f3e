/* A mending list, line by line: what each line says, and why the first bad one is bad. The library applies a list or tells which of its lines is bad; a program
 * that tells a person what a list does, and what is wrong with it, finds that out here, in plain C. */
#ifndef JOGASMUN_LISTS_H
#define JOGASMUN_LISTS_H

#include <stddef.h>
#include <stdint.h>

/* The kinds of lines, in the order in which they stand; the first two may be mixed. */
typedef enum { DROP_REPEATED, DROP_THIN, DROP_DUPLICATE, DROP_EDGE, EXCHANGE, DROP_DIRECTION, SPLIT, ISOLATED, LINE_KINDS } LineKind;

/* What may be wrong with a line: first its form, then its order, then what it names. */
typedef enum {
    NOTHING_WRONG,
    NO_NEWLINE,      /* the list ends without one */
    CARRIAGE_RETURN, /* one stands before the newline */
    WRONG_LETTER,    /* the first field is none of d, o, s, u */
    WRONG_FIELDS,    /* more or fewer fields than that letter has */
    WRONG_NUMBER,    /* a field that is no decimal number of 32 bits without leading zeros */
    WRONG_REASON,    /* pass and reason that do not belong together */
    NOT_RISING,      /* the faces of a split do not rise */
    WRONG_ORDER,     /* it does not belong behind the line before it */
    NO_FACE,         /* a face that the shell does not have */
    DROPPED_FACE,    /* a face that a line before dropped */
    MANY_SPLITS,     /* a split behind three times as many as there are faces */
    WRONG_OLD,       /* an old point that the shell does not have */
    WRONG_NEW,       /* a new point that is not the next */
    WITHOUT_OLD,     /* a face that does not have the old point then */
    NO_POINT,        /* a point that is not there */
    USED_POINT       /* a point that a face has */
} Wrong;

/* A list that is gone through, and the line that was read last: its bytes without the newline, its number from 0, and what it says. In `numbers` are the face
 * or the point; of a split the old point, the new one, and the faces. Where a line is bad: why, and the number that is to blame, or that of the field. */
typedef struct {
    const uint8_t *text, *line;
    size_t text_length, line_length, at, number;
    LineKind kind;
    uint32_t *numbers;
    size_t count, held;
    Wrong wrong;
    uint64_t blamed;
    /* What stands after the lines so far: corners, which faces were dropped, how many corners each point is, and kind and first numbers of the last line. */
    uint32_t *faces, *uses, last[3];
    uint8_t *dropped;
    size_t face_count, point_count, splits;
} List;

/* Begins with a list and the faces that it is for, whose corners must all be below `point_count`. 0 if there is no memory for it; then only close it. */
int open_list(List *list, const uint8_t *text, size_t length, const uint32_t *faces, size_t face_count, size_t point_count);

/* Reads and applies the next line. 0 if there is none, if it is bad, which `wrong` tells, or if there is no memory, and then `line` is NULL. The time that all
 * lines take grows with the list and the mesh and no faster. */
int next_line(List *list);

/* Prints the line that was applied last as a sentence. */
void print_sentence(const List *list);

/* Prints what is wrong with the line that is bad. */
void print_wrong(const List *list);

/* Gives back the memory. */
void close_list(List *list);

#endif
