/* Mending lists read and applied line by line, with a row of what each face and each point is then. */
#include "lists.h"
#include <stdio.h>
#include <stdlib.h>
#include <string.h>

/* The reasons for which a face is dropped, each with its pass. */
static const struct {
    const char *pass, *reason, *told;
    LineKind kind;
} reasons[] = {{"1", "repeated", "it repeats a corner", DROP_REPEATED},
               {"1", "thin", "it is thin", DROP_THIN},
               {"2", "duplicate", "a face before it has the same corners", DROP_DUPLICATE},
               {"3", "edge", "a third face on its edge", DROP_EDGE},
               {"4", "direction", "another face walks its edge in the same direction", DROP_DIRECTION}};
enum { REASONS = sizeof reasons / sizeof *reasons };

int open_list(List *list, const uint8_t *text, size_t length, const uint32_t *faces, size_t face_count, size_t point_count) {
    size_t corners = 3 * face_count;
    *list = (List){.text = text, .text_length = length, .face_count = face_count, .point_count = point_count};
    list->faces = malloc(4 * corners + 4);
    list->uses = calloc(point_count + corners + 1, 4);
    list->dropped = calloc(face_count + 1, 1);
    if (list->faces == NULL || list->uses == NULL || list->dropped == NULL)
        return 0;
    for (size_t c = 0; c < corners; c++)
        list->uses[list->faces[c] = faces[c]]++;
    return 1;
}

void close_list(List *list) {
    free(list->faces), free(list->uses), free(list->dropped), free(list->numbers);
    *list = (List){.text = NULL};
}

/* Notes what is wrong with a line, and what is to blame; 0. */
static int bad(List *list, Wrong wrong, uint64_t blamed) {
    list->wrong = wrong;
    list->blamed = blamed;
    return 0;
}

/* A field of a line. */
typedef struct {
    const uint8_t *at;
    size_t length;
} Field;

/* The next field of the line, from a place on, which is moved behind it and its tab; behind the last field it is the line's length + 1. */
static Field next_field(const List *list, size_t *at) {
    Field field = {list->line + *at, 0};
    while (*at + field.length < list->line_length && field.at[field.length] != '\t')
        field.length++;
    *at += field.length + 1;
    return field;
}

/* Whether a field is this word. */
static int is_word(Field field, const char *word) { return field.length == strlen(word) && memcmp(field.at, word, field.length) == 0; }

/* Adds the number that a field is to those of the line. */
static int read_number(List *list, Field field) {
    uint64_t number = 0;
    int good = field.length > 0 && field.length <= 10 && (field.length == 1 || field.at[0] != '0');
    for (size_t i = 0; i < field.length && good; i++) {
        good = field.at[i] >= '0' && field.at[i] <= '9';
        number = 10 * number + (uint64_t)field.at[i] - '0';
    }
    if (!good || number > UINT32_MAX)
        return bad(list, WRONG_NUMBER, list->count + 2);
    list->numbers[list->count++] = (uint32_t)number;
    return 1;
}

/* The rest of a line that drops a face. */
static int read_drop(List *list, size_t at) {
    if (!read_number(list, next_field(list, &at)))
        return 0;
    Field pass = next_field(list, &at), reason = next_field(list, &at);
    for (int k = 0; k < REASONS; k++)
        if (is_word(pass, reasons[k].pass) && is_word(reason, reasons[k].reason)) {
            list->kind = reasons[k].kind;
            return 1;
        }
    return bad(list, WRONG_REASON, 0);
}

/* The rest of a line of numbers alone. From the third on they rise. */
static int read_numbers(List *list, size_t at) {
    while (at <= list->line_length) {
        if (!read_number(list, next_field(list, &at)))
            return 0;
        size_t k = list->count - 1;
        if (k > 2 && list->numbers[k - 1] >= list->numbers[k])
            return bad(list, NOT_RISING, list->numbers[k]);
    }
    return 1;
}

/* How many fields the line has. */
static size_t count_fields(const List *list) {
    size_t count = 1;
    for (size_t i = 0; i < list->line_length; i++)
        count += list->line[i] == '\t';
    return count;
}

/* Reads a line by its form. */
static int read_line(List *list) {
    size_t at = 0, fields = count_fields(list), length = list->line_length;
    Field letter = next_field(list, &at);
    list->count = 0;
    if (length > 0 && list->line[length - 1] == '\r')
        return bad(list, CARRIAGE_RETURN, 0);
    int drop = is_word(letter, "d"), split = is_word(letter, "s"), exchange = is_word(letter, "o"), isolated = is_word(letter, "u");
    if (!(drop || split || exchange || isolated))
        return bad(list, WRONG_LETTER, 0);
    if (split ? fields < 3 : fields != (drop ? 4 : 2))
        return bad(list, WRONG_FIELDS, fields);
    list->kind = split ? SPLIT : exchange ? EXCHANGE : ISOLATED;
    return drop ? read_drop(list, at) : read_numbers(list, at);
}

/* Makes room for as many numbers as the line may have. */
static int make_room(List *list) {
    size_t most = list->line_length / 2 + 4;
    if (most <= list->held)
        return 1;
    uint32_t *numbers = realloc(list->numbers, 4 * most);
    if (numbers == NULL)
        return 0;
    list->numbers = numbers;
    list->held = most;
    return 1;
}

/* Whether the line belongs behind the last one, and then it is the last. Kinds rise, both of pass 1 being one, which is not 0; then the first number, then of
 * splits the second. */
static int take_order(List *list) {
    uint32_t order[3] = {list->kind == DROP_REPEATED ? DROP_THIN : list->kind, list->numbers[0], list->kind == SPLIT ? list->numbers[1] : 0};
    int k = 0;
    while (k < 2 && order[k] == list->last[k])
        k++;
    if (order[k] <= list->last[k])
        return bad(list, WRONG_ORDER, 0);
    memcpy(list->last, order, sizeof order);
    return 1;
}

/* Whether a face is there. */
static int is_face(List *list, uint32_t face) {
    if (face >= list->face_count)
        return bad(list, NO_FACE, face);
    return list->dropped[face] ? bad(list, DROPPED_FACE, face) : 1;
}

/* Whether a face has a point. */
static int has_point(const List *list, uint32_t face, uint32_t v) {
    const uint32_t *corners = list->faces + 3 * (size_t)face;
    return corners[0] == v || corners[1] == v || corners[2] == v;
}

/* Drops a face. */
static int drop_face(List *list) {
    uint32_t face = list->numbers[0];
    if (!is_face(list, face))
        return 0;
    for (size_t k = 0; k < 3; k++)
        list->uses[list->faces[3 * (size_t)face + k]]--;
    list->dropped[face] = 1;
    return 1;
}

/* Exchanges corners 1 and 2 of a face. */
static int exchange(List *list) {
    if (!is_face(list, list->numbers[0]))
        return 0;
    uint32_t *corners = list->faces + 3 * (size_t)list->numbers[0], held = corners[1];
    corners[1] = corners[2];
    corners[2] = held;
    return 1;
}

/* Splits a point. All faces are looked at before one is changed. */
static int split(List *list) {
    uint32_t old = list->numbers[0], new = list->numbers[1];
    if (list->splits >= 3 * list->face_count)
        return bad(list, MANY_SPLITS, list->splits);
    if (old >= list->point_count)
        return bad(list, WRONG_OLD, old);
    if (new != list->point_count + list->splits)
        return bad(list, WRONG_NEW, new);
    for (size_t k = 2; k < list->count; k++) {
        if (!is_face(list, list->numbers[k]))
            return 0;
        if (!has_point(list, list->numbers[k], old))
            return bad(list, WITHOUT_OLD, list->numbers[k]);
    }
    list->splits++;
    for (size_t k = 2; k < list->count; k++)
        for (size_t c = 3 * (size_t)list->numbers[k], end = c + 3; c < end; c++)
            if (list->faces[c] == old) {
                list->faces[c] = new;
                list->uses[old]--, list->uses[new]++;
            }
    return 1;
}

/* Whether a point is there and no face has it. It leaves behind the last line, so nothing is changed. */
static int isolated(List *list) {
    uint32_t v = list->numbers[0];
    if (v >= list->point_count + list->splits)
        return bad(list, NO_POINT, v);
    return list->uses[v] > 0 ? bad(list, USED_POINT, v) : 1;
}

int next_line(List *list) {
    if (list->wrong != NOTHING_WRONG || list->at == list->text_length)
        return 0;
    const uint8_t *begin = list->text + list->at, *end = memchr(begin, '\n', list->text_length - list->at);
    list->number += list->line != NULL;
    list->line = begin;
    list->line_length = end == NULL ? list->text_length - list->at : (size_t)(end - begin);
    if (end == NULL)
        return bad(list, NO_NEWLINE, 0);
    if (!make_room(list)) {
        list->line = NULL;
        return 0;
    }
    list->at += list->line_length + 1;
    if (!read_line(list) || !take_order(list))
        return 0;
    return list->kind == SPLIT ? split(list) : list->kind == EXCHANGE ? exchange(list) : list->kind == ISOLATED ? isolated(list) : drop_face(list);
}

void print_sentence(const List *list) {
    const uint32_t *n = list->numbers;
    for (int k = 0; k < REASONS; k++)
        if (list->kind == reasons[k].kind)
            printf("face %u left in pass %s: %s\n", n[0], reasons[k].pass, reasons[k].told);
    if (list->kind == EXCHANGE)
        printf("face %u was turned over in pass 4: its corners 1 and 2 were exchanged\n", n[0]);
    if (list->kind == ISOLATED)
        printf("point %u left in pass 6: no face has it\n", n[0]);
    if (list->kind != SPLIT)
        return;
    printf("point %u was split in pass 5: its copy is point %u, ", n[0], n[1]);
    printf(list->count == 2 ? "which no face takes" : list->count == 3 ? "which face" : "which faces");
    for (size_t k = 2; k < list->count; k++)
        printf(" %u", n[k]);
    printf(list->count == 2 ? "\n" : list->count == 3 ? " takes\n" : " take\n");
}

/* Prints what is wrong with the form of a line. */
static void print_form(const List *list) {
    unsigned long long blamed = list->blamed;
    if (list->wrong == NO_NEWLINE)
        printf("the list ends there, and a newline is wanted\n");
    else if (list->wrong == CARRIAGE_RETURN)
        printf("a carriage return stands before its newline, and nothing but the newline may end a line\n");
    else if (list->wrong == WRONG_LETTER)
        printf("its first field must be d, o, s or u, and fields are parted by one tab\n");
    else if (list->wrong == WRONG_FIELDS)
        printf("it has %llu fields; a line d has four, o and u two, s three or more, parted by one tab\n", blamed);
    else if (list->wrong == WRONG_NUMBER)
        printf("its field %llu must be a decimal number below 4294967296, without leading zeros\n", blamed);
    else if (list->wrong == WRONG_REASON)
        printf("pass and reason must be 1 repeated, 1 thin, 2 duplicate, 3 edge or 4 direction\n");
    else
        printf("face %llu stands behind one that is not lower, and the faces that take the new point must rise\n", blamed);
}

/* Prints what is wrong with a point that a line names. */
static void print_point_wrong(const List *list) {
    unsigned long long blamed = list->blamed;
    size_t now = list->point_count + list->splits, face = 0;
    if (list->wrong == WRONG_OLD)
        printf("the old point %llu is not below %zu, the number of points that were read\n", blamed, list->point_count);
    else if (list->wrong == WRONG_NEW)
        printf("the new point must be %zu, the next one: those that are split off are counted on\n", now);
    else if (list->wrong == NO_POINT)
        printf("there is no point %llu; there are %zu, those split off too\n", blamed, now);
    else {
        while (face < list->face_count && (list->dropped[face] || !has_point(list, (uint32_t)face, (uint32_t)blamed)))
            face++;
        printf("point %llu is not isolated: face %zu has it\n", blamed, face);
    }
}

void print_wrong(const List *list) {
    unsigned long long blamed = list->blamed;
    if (list->wrong <= NOT_RISING)
        print_form(list);
    else if (list->wrong == WRONG_ORDER)
        printf("it does not belong behind the line before it: first d of pass 1, 2 and 3, then o, d of pass 4, s and u, each kind by rising numbers\n");
    else if (list->wrong == NO_FACE)
        printf("there is no face %llu; %zu faces were read, and they are counted from 0\n", blamed, list->face_count);
    else if (list->wrong == DROPPED_FACE)
        printf("a line before it dropped face %llu\n", blamed);
    else if (list->wrong == MANY_SPLITS)
        printf("there are %llu splits before it, three for each face that was read, and no more can be\n", blamed);
    else if (list->wrong == WITHOUT_OLD)
        printf("face %llu does not have point %u then\n", blamed, list->numbers[0]);
    else
        print_point_wrong(list);
}
