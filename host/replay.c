/* Replays recorded answers through the library: `replay CASES ANSWERS`. The word form is told in tests/cases/FORMAT.md. Every room is lent filled with
 * 0xff, which makes each float a NaN with a payload; accepted, it must hold the answer, then zero up to the stated room, then 0xff; refused, 0xff
 * everywhere. Repair, edges and loops are called once more with a work room of zeros.
 *
 * The recorded reports are document 01's and have one count of degenerate faces where the library has two. Of a repair their sum must be that count, and the
 * first of them the number of input faces that repeat a corner, as it is counted here; the report room is lent one entry longer. A line gets the count in
 * two parts.
 *
 * No origins were recorded. A room for them is lent with two entries more than is stated, and they must be the one list that rises strictly and names for each
 * recorded face an input face in the same place; where several lists do, the one of the passes in plain C (fuzz/passes.c). A recorded refusal of the work room,
 * 6 at place 3, is one at place 4.
 *
 * A recorded answer of call 2 has edges and loops together, in six rooms, and is asked of both calls: rooms 0, 1, 2, 5 of the edge call, 3, 4, 5 of the loop
 * call. 6 is that of the call that has the room, 8 that of the loop call; what the other call must then give, the record does not say, and it is found here by
 * document 01's rule.
 *
 * A recorded answer of call 3 may be document 01's: its check does not ask for the groups of faces at a point. A recorded yes is a yes here only where those
 * are one at each point, by the rule in plain C; a recorded no is one here too.
 *
 * No call for PLY files was recorded. Points and faces of call 2 are written to one: refused 1, 2, 4 and 5 as recorded, and accepted else; and so are those
 * that a recorded repair gives. What is written must be read again as it was. */
#include "document.h"
#include "shell.h"
#include <math.h>
#include <stdio.h>
#include <stdlib.h>
#include <string.h>

typedef struct {
    uint64_t *words;
    size_t count, at;
} Words;

/* A row of entries: as they stand in the file, or one value many times. */
typedef struct {
    uint64_t count, value;
    const uint64_t *entries;
} Row;

static Words load(const char *path) {
    Words w = {NULL, 0, 1};
    FILE *file = fopen(path, "rb");
    if (file == NULL || fseek(file, 0, SEEK_END) != 0) {
        fprintf(stderr, "replay: cannot read %s\n", path);
        exit(2);
    }
    long length = ftell(file);
    rewind(file);
    w.words = malloc(length + 8);
    w.count = length / 8;
    if (w.words == NULL || fread(w.words, 8, w.count, file) != w.count || w.count == 0 || memcmp(w.words, "MFIXCAS1", 8) != 0) {
        fprintf(stderr, "replay: %s is not in word form\n", path);
        exit(2);
    }
    fclose(file);
    return w;
}

static uint64_t one(Words *w) { return w->words[w->at++]; }

static Row plain(Words *w) {
    Row row = {one(w), 0, NULL};
    row.entries = w->words + w->at;
    w->at += row.count;
    return row;
}

static Row array(Words *w) {
    uint64_t count = one(w);
    if (one(w) == 1) {
        Row row = {count, one(w), NULL};
        return row;
    }
    Row row = {count, 0, w->words + w->at};
    w->at += count;
    return row;
}

static uint64_t entry(Row row, uint64_t i) { return row.entries == NULL ? row.value : row.entries[i]; }

static uint32_t *numbers(Row row) {
    uint32_t *out = malloc(4 * row.count + 4);
    for (uint64_t i = 0; out != NULL && i < row.count; i++)
        out[i] = (uint32_t)entry(row, i);
    return out;
}

static double *floats(Row row) {
    double *out = malloc(8 * row.count + 8);
    for (uint64_t i = 0; out != NULL && i < row.count; i++) {
        uint64_t bits = entry(row, i);
        memcpy(out + i, &bits, 8);
    }
    return out;
}

/* A room of n entries that each hold 0xff in every byte. */
static void *lent(uint64_t n, size_t size) {
    void *room = malloc(n * size + 8);
    if (room == NULL)
        exit(2);
    memset(room, 0xff, n * size);
    return room;
}

/* Whether a room holds the answer in front, zero up to `stated` and 0xff behind; with `stated` 0, whether it is untouched. */
static int holds(const void *room, size_t size, uint64_t length, uint64_t stated, Row answer) {
    const unsigned char *bytes = room;
    if (answer.count > stated || stated > length)
        return 0;
    for (uint64_t i = 0; i < length; i++) {
        uint64_t found = 0, wanted = 0;
        memcpy(&found, bytes + i * size, size);
        if (i < answer.count)
            wanted = entry(answer, i);
        else if (i >= stated)
            memset(&wanted, 0xff, size);
        if (found != wanted)
            return 0;
    }
    return 1;
}

static const Row NOTHING = {0, 0, NULL};

/* What was recorded: number, place and the rows of an accepted call. */
typedef struct {
    uint64_t number, place, rows;
    Row row[6];
} Recorded;

static Recorded recorded(Words *w) {
    Recorded r = {0, 0, 0, {{0, 0, NULL}}};
    r.number = one(w);
    r.place = one(w);
    r.rows = one(w);
    for (uint64_t k = 0; k < r.rows; k++)
        r.row[k] = plain(w);
    return r;
}

/* Rooms of the recorded lengths, each filled with 0xff; the last, which is the work room, all zero if asked. */
static void lend(Row rooms, int count, const size_t *size, uint64_t *length, void **room, int zero) {
    for (int k = 0; k < count; k++) {
        length[k] = entry(rooms, k);
        room[k] = lent(length[k], size[k]);
    }
    if (zero)
        memset(room[count - 1], 0, length[count - 1] * 4);
}

/* Whether the rooms of a call, the work room last, are as recorded, with these counts of entries; they are given back. */
static int returned(Recorded want, int count, const size_t *size, const uint64_t *length, const uint64_t *stated, const uint64_t *entries, void **room,
                    int zero) {
    int ok = 1, last = count - 1, accepted = want.number == 0;
    for (int k = 0; k < last; k++) {
        Row answer = accepted ? want.row[k] : NOTHING;
        ok = ok && entries[k] == answer.count && holds(room[k], size[k], length[k], accepted ? stated[k] : 0, answer);
    }
    Row zeros = {length[last], 0, NULL};
    ok = ok && (zero ? holds(room[last], 4, length[last], length[last], zeros) : holds(room[last], 4, length[last], accepted ? stated[last] : 0, NOTHING));
    for (int k = 0; k < count; k++)
        free(room[k]);
    return ok;
}

/* How many faces have two corners with the same number. */
static uint64_t repeated(Row faces) {
    uint64_t count = 0;
    for (uint64_t i = 0; i < faces.count / 3; i++) {
        uint64_t a = entry(faces, 3 * i), b = entry(faces, 3 * i + 1), c = entry(faces, 3 * i + 2);
        count += a == b || b == c || c == a;
    }
    return count;
}

/* The eleven counts for ten recorded ones, where so many of the degenerate faces repeat a corner. */
static Row by_kind(Row ten, uint64_t repeated, uint64_t eleven[11]) {
    Row row = {11, 0, eleven};
    if (ten.count != 10)
        return ten;
    eleven[0] = repeated;
    eleven[1] = entry(ten, 0) - repeated;
    for (uint64_t i = 1; i < ten.count; i++)
        eleven[i + 1] = entry(ten, i);
    return row;
}

/* Whether a PLY file is read as this mesh. */
static int read_back(const uint8_t *file, uint64_t bytes, Row points, Row faces) {
    uint64_t P = points.count / 3, F = faces.count / 3, work_room = SHELL_WORK_ROOM(P, F);
    double *coordinates = lent(points.count + 3, 8);
    uint32_t *corners = lent(faces.count + 3, 4), *work = lent(work_room + 3, 4);
    ShellPlyCounts counts = shell_ply_counts(file, bytes);
    ShellPly got = shell_read_ply(file, bytes, coordinates, points.count + 3, corners, faces.count + 3, work, work_room + 3);
    int ok = counts.number == 0 && counts.place == 0 && counts.points == P && counts.faces == F && got.number == 0 && got.place == 0 &&
             got.points == points.count && got.faces == faces.count && holds(coordinates, 8, points.count + 3, points.count, points) &&
             holds(corners, 4, faces.count + 3, faces.count, faces) && holds(work, 4, work_room + 3, work_room, NOTHING);
    free(coordinates);
    free(corners);
    free(work);
    return ok;
}

/* How many meshes went to a PLY file and back. */
static unsigned long files;

/* Whether a mesh is written to a PLY file and read again, or refused so. The rooms are three entries longer than stated; for a refusal they are short. */
static int there_and_back(Row points, Row faces, uint64_t number, uint64_t place) {
    uint64_t P = points.count / 3, F = faces.count / 3, accepted = number == 0;
    uint64_t digits = (uint64_t)snprintf(NULL, 0, "%lu%lu", (unsigned long)P, (unsigned long)F);
    uint64_t bytes = accepted ? 170 + digits + 24 * P + 13 * F : 0, work_room = accepted ? SHELL_WORK_ROOM(P, F) : 0;
    double *coordinates = floats(points);
    uint32_t *corners = numbers(faces), *work = lent(work_room + 3, 4);
    uint8_t *file = lent(bytes + 3, 1);
    ShellPlyFile got = shell_write_ply(coordinates, points.count, corners, faces.count, file, bytes + 3, work, work_room + 3);
    int ok = got.number == number && got.place == place && got.bytes == bytes && holds(work, 4, work_room + 3, work_room, NOTHING) &&
             holds(file + bytes, 1, 3, 0, NOTHING) && (!accepted || read_back(file, bytes, points, faces));
    files += accepted;
    free(coordinates);
    free(corners);
    free(work);
    free(file);
    return ok;
}

/* The input of a recorded repair. */
typedef struct {
    double s, *points;
    uint32_t options, *faces;
    uint64_t P, F;
} Scan;

/* Whether output face k of a recorded answer stands where input face i does, corners 1 and 2 exchanged or not. */
static int stands(const Scan *scan, uint64_t i, const Recorded *want, uint64_t k) {
    int same = 1, exchanged = 1;
    for (uint64_t j = 0; j < 9; j++) {
        uint64_t was, is = entry(want->row[0], 3 * entry(want->row[1], 3 * k + j / 3) + j % 3);
        uint64_t other = entry(want->row[0], 3 * entry(want->row[1], 3 * k + (3 - j / 3) % 3) + j % 3);
        memcpy(&was, scan->points + 3 * (size_t)scan->faces[3 * i + j / 3] + j % 3, 8);
        same = same && was == is;
        exchanged = exchanged && was == other;
    }
    return same || exchanged;
}

/* How many origins were told by their places alone, and how many by the passes. */
static unsigned long by_place, by_passes;

/* The origins of the faces of a recorded answer: each face takes the first input face that is free for it, and from behind the last; where that is the same
 * list there is no other. */
static Row traced(const Scan *scan, const Recorded *want, uint64_t *origins) {
    uint64_t n = want->row[1].count / 3, k = 0, alone = 1;
    for (uint64_t i = 0; i < scan->F && k < n; i++)
        if (stands(scan, i, want, k))
            origins[k++] = i;
    alone = k == n;
    for (uint64_t i = scan->F; i-- > 0 && k > 0 && alone;)
        if (stands(scan, i, want, k - 1))
            alone = origins[--k] == i;
    if (alone) {
        by_place += n;
        return (Row){n, 0, origins};
    }
    uint32_t *found = lent(scan->F, 4);
    n = document_origins(scan->points, scan->P, scan->faces, scan->F, scan->s, scan->options, found);
    for (uint64_t i = 0; i < n; i++)
        origins[i] = found[i];
    by_passes += n;
    free(found);
    return (Row){n, 0, origins};
}

/* What a recorded repair must give: of an accepted one the report of eleven counts and the origins too, of a short work room its place. */
static Recorded in_five_rooms(Recorded want, const Scan *scan, Row faces, uint64_t eleven[SHELL_REPORT_ROOM], uint64_t *origins) {
    if (want.number == SHELL_SHORT_ROOM && want.place == 3)
        want.place = 4;
    if (want.number == 0) {
        want.row[2] = by_kind(want.row[2], scan->options & SHELL_DROP_DEGENERATE ? repeated(faces) : 0, eleven);
        want.row[3] = traced(scan, &want, origins);
    }
    return want;
}

static int replay_repair(Words *w, Recorded want, int zero) {
    Scan scan = {.options = (uint32_t)one(w)};
    uint64_t bits = one(w);
    memcpy(&scan.s, &bits, 8);
    Row points = array(w), faces = array(w), recorded = array(w);
    uint64_t length[5], P = points.count / 3, F = faces.count / 3;
    uint64_t stated[5] = {SHELL_POINTS_ROOM(P, F), SHELL_FACES_ROOM(F), SHELL_REPORT_ROOM, SHELL_ORIGINS_ROOM(F), SHELL_WORK_ROOM(P, F)};
    const size_t size[5] = {8, 4, 4, 4, 4};
    void *room[5];
    const uint64_t longer[5] = {entry(recorded, 0), entry(recorded, 1), entry(recorded, 2) + 1, F + 2, entry(recorded, 3)};
    uint64_t eleven[SHELL_REPORT_ROOM], *origins = malloc(8 * F + 8);
    scan.points = floats(points);
    scan.faces = numbers(faces);
    scan.P = P;
    scan.F = F;
    lend((Row){5, 0, longer}, 5, size, length, room, zero);
    want = in_five_rooms(want, &scan, faces, eleven, origins);
    int written = want.number != 0 || want.row[0].count / 3 > SHELL_MOST_POINTS || there_and_back(want.row[0], want.row[1], 0, 0);
    ShellRepaired got = shell_repair(scan.points, points.count, scan.faces, faces.count, scan.s, scan.options, room[0], length[0], room[1], length[1],
                                     room[2], length[2], room[3], length[3], room[4], length[4]);
    uint64_t entries[4] = {got.points, got.faces, got.counts, got.origins};
    int as_recorded = returned(want, 5, size, length, stated, entries, room, zero) && got.number == want.number && got.place == want.place;
    free(scan.points);
    free(scan.faces);
    free(origins);
    return as_recorded && written;
}

/* A use of an edge: its ends, the lower first, and its entry, 3i for step (1,2) of face i, 3i + 1 for (2,0), 3i + 2 for (0,1). */
typedef struct {
    uint64_t low, high, entry;
} Use;

static int by_ends(const void *one, const void *other) {
    const Use *x = one, *y = other;
    return x->low != y->low ? (x->low < y->low ? -1 : 1) : (x->high > y->high) - (x->high < y->high);
}

/* Where the step of an entry begins, and where it ends. */
static uint64_t begins(Row faces, uint64_t e) { return entry(faces, e - e % 3 + (e + 1) % 3); }
static uint64_t ends(Row faces, uint64_t e) { return entry(faces, e - e % 3 + (e + 2) % 3); }

/* The bits of the distance between two points. */
static uint64_t distance(Row points, uint64_t from, uint64_t to) {
    double step[3], length;
    uint64_t bits;
    for (int k = 0; k < 3; k++) {
        double at[2];
        bits = entry(points, 3 * from + k);
        memcpy(at, &bits, 8);
        bits = entry(points, 3 * to + k);
        memcpy(at + 1, &bits, 8);
        step[k] = at[1] - at[0];
    }
    length = sqrt((step[0] * step[0] + step[1] * step[1]) + step[2] * step[2]);
    memcpy(&bits, &length, 8);
    return bits;
}

/* What document 01 says of good points and faces: the answers of the edge call and of the loop call, and the words of their rows. */
typedef struct {
    Recorded answer[2];
    uint64_t *edges, *lengths, *face_edges, *times, *vertices, *loop_ends;
} Rule;

/* So many words of zero. */
static uint64_t *zeros(uint64_t n) {
    uint64_t *out = calloc(n + 1, sizeof *out);
    if (out == NULL)
        exit(2);
    return out;
}

/* The unique edges and how often each occurs, and by them the edge call's answer. */
static void rule_edges(Rule *rule, Row points, Row faces) {
    uint64_t n = faces.count, count = 0;
    Use *all = (Use *)zeros(3 * n);
    for (uint64_t e = 0; e < n; e++) {
        uint64_t a = begins(faces, e), b = ends(faces, e);
        all[e] = (Use){a < b ? a : b, a < b ? b : a, e};
    }
    qsort(all, n, sizeof *all, by_ends);
    for (uint64_t i = 0; i < n; i++) {
        uint64_t k = i > 0 && by_ends(all + i - 1, all + i) == 0 ? count - 1 : count++;
        rule->edges[2 * k] = all[i].low;
        rule->edges[2 * k + 1] = all[i].high;
        rule->lengths[k] = distance(points, all[i].low, all[i].high);
        rule->face_edges[all[i].entry] = k;
        rule->times[k]++;
    }
    free(all);
    rule->answer[0] = (Recorded){0, 0, 3, {{2 * count, 0, rule->edges}, {count, 0, rule->lengths}, {n, 0, rule->face_edges}}};
    for (uint64_t k = count; k-- > 0;)
        if (rule->times[k] > 2)
            rule->answer[0] = (Recorded){SHELL_CROWDED_EDGE, k, 0, {NOTHING}};
}

/* The loops of the edges that occur once, each from its lowest vertex and against its walk, and by them the loop call's answer. */
static void rule_loops(Rule *rule, uint64_t P, Row faces) {
    uint64_t *begun = zeros(P), *ended = zeros(P), *before = zeros(P), n = 0, loops = 0;
    for (uint64_t e = 0; e < faces.count; e++)
        if (rule->times[rule->face_edges[e]] == 1) {
            begun[begins(faces, e)]++;
            ended[ends(faces, e)]++;
            before[ends(faces, e)] = begins(faces, e);
        }
    uint64_t fault = 0;
    while (fault < P && begun[fault] == ended[fault] && begun[fault] <= 1)
        fault++;
    for (uint64_t v = 0; v < P && fault == P; v++) {
        uint64_t first = n;
        for (uint64_t at = v; ended[at] > 0; at = before[at]) {
            ended[at] = 0;
            rule->vertices[n++] = before[at];
        }
        if (n > first)
            rule->loop_ends[loops++] = n;
    }
    if (rule->answer[0].number == SHELL_CROWDED_EDGE)
        rule->answer[1] = rule->answer[0];
    else if (fault < P)
        rule->answer[1] = (Recorded){SHELL_BAD_BOUNDARY, fault, 0, {NOTHING}};
    else
        rule->answer[1] = (Recorded){0, 0, 2, {{n, 0, rule->vertices}, {loops, 0, rule->loop_ends}}};
    free(begun);
    free(ended);
    free(before);
}

static Rule by_rule(Row points, Row faces) {
    uint64_t n = faces.count;
    Rule rule = {{{0, 0, 0, {NOTHING}}, {0, 0, 0, {NOTHING}}}, zeros(2 * n), zeros(n), zeros(n), zeros(n), zeros(n), zeros(n)};
    rule_edges(&rule, points, faces);
    rule_loops(&rule, points.count / 3, faces);
    return rule;
}

static void free_rule(Rule *rule) {
    free(rule->edges);
    free(rule->lengths);
    free(rule->face_edges);
    free(rule->times);
    free(rule->vertices);
    free(rule->loop_ends);
}

/* The rooms of the edge call and of the loop call: how many, which they are of the six of a record, and the bytes of an entry. */
typedef struct {
    int count, place[4];
    size_t size[4];
} Part;
static const Part parts[2] = {{4, {0, 1, 2, 5}, {4, 8, 4, 4}}, {3, {3, 4, 5}, {4, 4, 4}}};

/* What one of the two calls must give by a record of six rooms: what was recorded of it, or else its own refusal of a short room, or else the rule's answer. */
static Recorded of_part(Recorded six, const Rule *rule, int call, const uint64_t *length, const uint64_t *stated) {
    const Part *part = parts + call;
    Recorded want = {six.number, six.place, six.rows == 0 ? 0 : (uint64_t)part->count - 1, {NOTHING}};
    for (uint64_t k = 0; k < want.rows; k++)
        want.row[k] = six.row[part->place[k]];
    if (six.number == SHELL_BAD_BOUNDARY && call == 0)
        return rule->answer[0];
    if (six.number != SHELL_SHORT_ROOM)
        return want;
    for (want.place = 0; want.place < (uint64_t)part->count; want.place++)
        if (part->place[want.place] == (int)six.place || length[want.place] < stated[want.place])
            return want;
    return rule->answer[call];
}

/* A record of six rooms asked of one of the two calls. */
static int replay_part(Row points, Row faces, Row rooms, Recorded six, const Rule *rule, int call, int zero) {
    const Part *part = parts + call;
    uint64_t F = faces.count / 3, six_stated[6] = {6 * F, 3 * F, 3 * F, 3 * F, 3 * F, SHELL_WORK_ROOM(points.count / 3, F)};
    uint64_t lengths[4], length[4], stated[4], entries[3] = {0, 0, 0};
    void *room[4];
    for (int k = 0; k < part->count; k++) {
        lengths[k] = entry(rooms, part->place[k]);
        stated[k] = six_stated[part->place[k]];
    }
    lend((Row){4, 0, lengths}, part->count, part->size, length, room, zero);
    Recorded want = of_part(six, rule, call, length, stated);
    double *coordinates = floats(points);
    uint32_t *corners = numbers(faces), number, place;
    if (call == 0) {
        ShellEdges got = shell_edges(coordinates, points.count, corners, faces.count, room[0], length[0], room[1], length[1], room[2], length[2], room[3],
                                     length[3]);
        number = got.number, place = got.place, entries[0] = got.edges, entries[1] = got.lengths, entries[2] = got.face_edges;
    } else {
        ShellLoops got = shell_loops(coordinates, points.count, corners, faces.count, room[0], length[0], room[1], length[1], room[2], length[2]);
        number = got.number, place = got.place, entries[0] = got.loop_vertices, entries[1] = got.loop_ends;
    }
    free(coordinates);
    free(corners);
    return returned(want, part->count, part->size, length, stated, entries, room, zero) && number == want.number && place == want.place;
}

static int replay_edges(Words *w, Recorded six, int zero) {
    Row points = array(w), faces = array(w), rooms = array(w);
    int told = six.number != SHELL_SHORT_ROOM && six.number != SHELL_BAD_BOUNDARY;
    Rule rule = by_rule(points, told ? NOTHING : faces);
    int edges = replay_part(points, faces, rooms, six, &rule, 0, zero), loops = replay_part(points, faces, rooms, six, &rule, 1, zero);
    int refused = six.number != 0 && six.number < SHELL_SHORT_ROOM;
    free_rule(&rule);
    return there_and_back(points, faces, refused ? six.number : 0, refused ? six.place : 0) && edges && loops;
}

/* With a work room as it is lent, and all zero: the calls may go two ways. */
static int both(int (*replay)(Words *, Recorded, int), Words *w, Recorded want) {
    size_t at = w->at;
    int ok = replay(w, want, 0);
    w->at = at;
    return replay(w, want, 1) && ok;
}

/* A corner of a face with one of the two other corners: their points, and the corner. */
typedef struct {
    uint64_t at, beside, corner;
} Side;

static int by_points(const void *one, const void *other) {
    const Side *x = one, *y = other;
    return x->at != y->at ? (x->at < y->at ? -1 : 1) : (x->beside > y->beside) - (x->beside < y->beside);
}

/* The sides of all corners, sorted by their points: those that follow each other with the same two points join their corners. */
static Side *sides(Row faces) {
    Side *all = (Side *)zeros(6 * faces.count);
    for (uint64_t c = 0; c < faces.count; c++)
        for (uint64_t k = 0; k < 2; k++)
            all[2 * c + k] = (Side){entry(faces, c), entry(faces, c - c % 3 + (c % 3 + 1 + k) % 3), c};
    qsort(all, 2 * faces.count, sizeof *all, by_points);
    return all;
}

/* The corner that a corner is led to, one after the other. */
static uint64_t led(uint64_t *next, uint64_t c) {
    for (; next[c] != c; c = next[c])
        next[c] = next[next[c]];
    return c;
}

/* Whether the faces at each used point form one group: corners at a point are joined where their faces share another one, and all that are joined are led to
 * the same corner. There are then as many such corners as used points. */
static int one_group_each(Row faces) {
    Side *all = sides(faces);
    uint64_t *next = zeros(faces.count), groups = 0, used = 0;
    for (uint64_t c = 0; c < faces.count; c++)
        next[c] = c;
    for (uint64_t i = 1; i < 2 * faces.count; i++)
        if (by_points(all + i - 1, all + i) == 0 && all[i].at != all[i].beside)
            next[led(next, all[i].corner)] = led(next, all[i - 1].corner);
    for (uint64_t c = 0; c < faces.count; c++)
        groups += next[c] == c;
    for (uint64_t i = 0; i < 2 * faces.count; i++)
        used += i == 0 || all[i - 1].at != all[i].at;
    free(all);
    free(next);
    return groups == used;
}

/* How many recorded answers of call 3 are another here. */
static unsigned long other_checks;

static int replay_check(Words *w, Recorded want) {
    uint64_t points = one(w);
    Row faces = array(w), rooms = array(w);
    uint64_t length = entry(rooms, 0);
    uint32_t *corners = numbers(faces), *work = lent(length, 4);
    ShellCheck got = shell_check(points, corners, faces.count, work, length);
    uint64_t stated = want.number == 0 ? SHELL_WORK_ROOM(points, faces.count / 3) : 0;
    uint64_t was = want.number == 0 ? entry(want.row[0], 0) : 0, yes = was && one_group_each(faces);
    other_checks += was != yes;
    int ok = got.number == want.number && got.place == want.place && got.yes == yes && holds(work, 4, length, stated, NOTHING);
    free(corners);
    free(work);
    return ok;
}

/* Counts with the first of them, if there is one, in two parts: by turns none, a third, two thirds and all of it in the first part. */
static uint32_t *in_parts(Row counts, size_t *length) {
    static uint64_t turn;
    uint32_t *out = malloc(4 * counts.count + 8);
    for (uint64_t i = 0; out != NULL && i < counts.count; i++)
        out[i + 1] = (uint32_t)entry(counts, i);
    if (out != NULL && counts.count > 0) {
        out[0] = (uint32_t)(entry(counts, 0) * (turn++ % 4) / 3);
        out[1] -= out[0];
    }
    *length = counts.count > 0 ? counts.count + 1 : 0;
    return out;
}

static int replay_line(Words *w, Recorded want) {
    Row counts = array(w), rooms = array(w);
    uint64_t length = entry(rooms, 0);
    size_t count;
    uint32_t *parts = in_parts(counts, &count);
    uint8_t *line = lent(length, 1);
    ShellLine got = shell_line(parts, count, line, length);
    Row answer = want.number == 0 ? want.row[0] : NOTHING;
    int ok = got.number == want.number && got.place == want.place && got.bytes == answer.count &&
             holds(line, 1, length, want.number == 0 ? SHELL_LINE_ROOM : 0, answer);
    free(parts);
    free(line);
    return ok;
}

/* The recorded box numbers with the sign of each zero as it was found: the Rust may keep either of two zeros. */
static Row same_zeros(Row answer, const double *found) {
    uint64_t *out = malloc(8 * answer.count + 8);
    for (uint64_t i = 0; out != NULL && i < answer.count; i++) {
        out[i] = entry(answer, i);
        if (i % 7 != 0 && out[i] << 1 == 0 && found[i] == 0)
            memcpy(out + i, found + i, 8);
    }
    Row row = {answer.count, 0, out};
    return row;
}

static int replay_patches(Words *w, Recorded want) {
    Row points = array(w), faces = array(w), labels = array(w);
    uint64_t count = one(w), setting[5];
    uint32_t limits = 0;
    for (int k = 0; k < 5; k++) {
        limits |= (uint32_t)one(w) << k;
        setting[k] = one(w);
    }
    Row rooms = array(w);
    uint64_t length[4];
    for (int k = 0; k < 4; k++)
        length[k] = entry(rooms, k);
    double least[3], *places = floats(points), *seven = lent(length[1], 8);
    memcpy(least, setting + 1, sizeof least);
    uint32_t *corners = numbers(faces), *patch = numbers(labels), *counted = lent(length[0], 4), *flags = lent(length[2], 4), *work = lent(length[3], 4);
    ShellPatches got = shell_patches(places, points.count, corners, faces.count, patch, labels.count, count, limits, setting[0], least[0], least[1],
                                     least[2], setting[4], counted, length[0], seven, length[1], flags, length[2], work, length[3]);
    int accepted = want.number == 0;
    uint64_t stated = accepted ? count : 0;
    Row numbers_row = accepted ? same_zeros(want.row[1], seven) : NOTHING;
    int ok = got.number == want.number && got.place == want.place && got.face_counts == stated && got.numbers == 7 * stated && got.flags == stated &&
             holds(counted, 4, length[0], stated, accepted ? want.row[0] : NOTHING) && holds(seven, 8, length[1], 7 * stated, numbers_row) &&
             holds(flags, 4, length[2], stated, accepted ? want.row[2] : NOTHING) && holds(work, 4, length[3], 4 * stated, NOTHING);
    free(places);
    free(seven);
    free(corners);
    free(patch);
    free(counted);
    free(flags);
    free(work);
    free((void *)numbers_row.entries);
    return ok;
}

static int replay_one(uint64_t call, Words *w, Recorded want) {
    switch (call) {
    case 1:
        return both(replay_repair, w, want);
    case 2:
        return both(replay_edges, w, want);
    case 3:
        return replay_check(w, want);
    case 4:
        return replay_patches(w, want);
    case 5:
        return replay_line(w, want);
    default:
        return 0;
    }
}

int main(int count, char **names) {
    if (count != 3) {
        fprintf(stderr, "usage: replay CASES ANSWERS\n");
        return 2;
    }
    Words cases = load(names[1]), answers = load(names[2]);
    unsigned long same[6] = {0}, different = 0;
    for (unsigned long k = 0; cases.at < cases.count; k++) {
        uint64_t call = one(&cases), end = one(&cases);
        end += cases.at;
        one(&answers);
        uint64_t after = one(&answers);
        after += answers.at;
        if (replay_one(call, &cases, recorded(&answers)))
            same[call]++;
        else {
            different++;
            printf("case %lu of call %lu differs\n", k, (unsigned long)call);
        }
        cases.at = end;
        answers.at = after;
    }
    free(cases.words);
    free(answers.words);
    printf("replay: as recorded repair %lu (origins %lu by place, %lu by the passes), edges and loops %lu, check %lu (a recorded yes is a no here %lu times), "
           "patches %lu, line %lu; to a PLY file and back %lu; different %lu\n",
           same[1], by_place, by_passes, same[2], same[3], other_checks, same[4], same[5], files, different);
    return different != 0 || !(same[1] && same[2] && same[3] && same[4] && same[5] && files);
}
