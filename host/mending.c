/* Mending lists on small meshes: `mending MESHES`; lists whose refusals are known, from standard input in the form that tests/mending.py prints:
 * `mending known`; or the list of a repair with all options, printed: `mending list THRESHOLD IN.ply`.
 *
 * Every mesh of at most two faces on three points, with all options, and random ones from a fixed seed: shell_list must write the list that the documents say
 * (fuzz/mending.c), and that must give by shell_apply what shell_repair gives, bit by bit, and tell each count of its report. Then such lists with lines
 * struck, doubled or exchanged, with bytes changed, put in or cut off; lists of any lines, and of any bytes; meshes that are refused too. Number, place, points
 * and faces must be the documents', in rooms of every length, clean and dirty ones, and what is refused leaves every room as it was. What is told of a list
 * line by line (lists.c) must end at the same line. The first input that differs is printed, and else what was tried: nothing may be missing. For few meshes
 * only some of the small ones are taken, and something may be missing. */
#include "mending.h"
#include "lend.h"
#include "lists.h"
#include "shell.h"
#include <math.h>
#include <stdio.h>
#include <stdlib.h>
#include <string.h>

/* The largest mesh, so many lists for each, and so many meshes that everything is met; the bytes of the largest file that is read. */
enum { MOST_POINTS = 30, MOST_FACES = 40, LISTS = 8, ENOUGH = 4000, MOST_BYTES = 1 << 20 };

/* A mesh with its threshold, and how many entries the call is told of. */
typedef struct {
    double points[3 * MOST_POINTS + 3], s;
    uint32_t faces[3 * MOST_FACES + 3];
    size_t P, F, points_len, faces_len;
} Mesh;

static uint64_t state = 20261117;

/* A number below n, by xorshift. */
static uint32_t below(uint32_t n) {
    state ^= state << 13;
    state ^= state >> 7;
    state ^= state << 17;
    return (uint32_t)((state >> 32) % n);
}

/* How often each number came back from shell_apply, and from shell_list, of a short room for each place; each kind of line was applied, and each fault was
 * found in a line. */
static unsigned long numbers[16], listed[16], shorts[2], kinds[LINE_KINDS], faults[USED_POINT + 1], struck, repairs;

/* Prints what differs for a mesh and a list, and ends the program. */
static _Noreturn void differs(const Mesh *m, const Text *list, const char *what) {
    printf("mending: %s; %zu point entries, %zu face entries, threshold %a\n", what, m->points_len, m->faces_len, m->s);
    for (size_t i = 0; i < m->P; i++)
        printf("point %a %a %a\n", m->points[3 * i], m->points[3 * i + 1], m->points[3 * i + 2]);
    for (size_t i = 0; i < m->F; i++)
        printf("face %u %u %u\n", m->faces[3 * i], m->faces[3 * i + 1], m->faces[3 * i + 2]);
    printf("list of %zu bytes:\n%.*s", list->length, (int)list->length, (const char *)list->bytes);
    exit(1);
}

/* Goes through the lines of a list by lists.c. Where that does not end at the first bad line it is told. */
static void go_through(const Mesh *m, const Text *list, const Mended *wanted) {
    List l;
    size_t lines = 0, count[LINE_KINDS] = {0};
    if (!open_list(&l, list->bytes, list->length, m->faces, m->F, m->P))
        exit(2);
    for (; next_line(&l); lines++)
        count[l.kind]++;
    faults[l.wrong]++;
    int bad = l.wrong != NOTHING_WRONG, told = bad == (wanted->number == 15) && (!bad || (l.number == wanted->place && lines == wanted->place));
    for (int k = 0; k < LINE_KINDS && !bad; k++)
        kinds[k] += count[k];
    close_list(&l);
    if (!told)
        differs(m, list, "lists.c finds another bad line");
}

/* Asks the call for a mesh and a list, in rooms that differ from the stated ones by so much, at least none. */
static Mended ask(const Mesh *m, const Text *list, const int by[3], const Lending *how) {
    double *points = lend(3, m->points_len, 8, how->front);
    uint32_t *faces = lend(4, m->faces_len, 4, how->front);
    uint8_t *text = lend(5, list->length, 1, !how->front);
    memcpy(points, m->points, 8 * m->points_len);
    memcpy(faces, m->faces, 4 * m->faces_len);
    memcpy(text, list->bytes, list->length);
    Applying a = {points, faces, list->length == 0 && how->null ? NULL : text, m->points_len, m->faces_len, list->length, {0, 0, 0}};
    mending_rooms(&a, a.room);
    for (int k = 0; k < 3; k++)
        a.room[k] = by[k] < 0 && a.room[k] < (size_t)-by[k] ? 0 : a.room[k] + (size_t)by[k];
    for (int k = 3; k < 6; k++)
        keep(k);
    Mended wanted = mending_applied(&a);
    const char *what = mending_differs(&a, how, &wanted);
    if (what == NULL && !(holds(3, NULL, 0, 0) && holds(4, NULL, 0, 0) && holds(5, NULL, 0, 0)))
        what = "the input is changed";
    if (what != NULL)
        differs(m, list, what);
    numbers[wanted.number]++;
    return wanted;
}

/* Asks for a mesh and a list in rooms of some lengths; a bad list is told in no rooms too. */
static void ask_anyhow(const Mesh *m, const Text *list) {
    static const int some[] = {0, 0, 0, 0, 0, 0, 1, 7, -1, -5, -100000};
    static const int none[3] = {-100000, -100000, -100000};
    Lending how = {(int)below(DIRTS), (int)below(2), (int)below(2), below(1000)};
    int by[3];
    for (int k = 0; k < 3; k++)
        by[k] = some[below(sizeof some / sizeof *some)];
    Mended wanted = ask(m, list, by, &how);
    if (m->points_len == 3 * m->P && m->faces_len == 3 * m->F && wanted.number != 4 && wanted.number != 5)
        go_through(m, list, &wanted);
    if (wanted.number == 15) {
        Mended again = ask(m, list, none, &how);
        if (again.number != 15 || again.place != wanted.place)
            differs(m, list, "a bad list is not told in no rooms");
    }
    mending_free(&wanted);
}

/* ---- lists of repairs */

/* Asks for a list in rooms that differ from the stated ones by so much, at least none; for the text's, from the list's length. */
static void ask_list(const Mesh *m, const Listing *input, Listed *wanted, const int by[2], const Lending *how) {
    Listing l = *input;
    double *points = lend(3, l.points_len, 8, how->front);
    uint32_t *faces = lend(4, l.faces_len, 4, how->front);
    memcpy(points, l.points, 8 * l.points_len);
    memcpy(faces, l.faces, 4 * l.faces_len);
    l.points = l.points_len == 0 && how->null ? NULL : points;
    l.faces = l.faces_len == 0 && how->null ? NULL : faces;
    keep(3), keep(4);
    l.room[0] = wanted->list.length;
    l.room[1] = SHELL_WORK_ROOM(l.points_len / 3, l.faces_len / 3);
    for (int k = 0; k < 2; k++)
        l.room[k] = by[k] < 0 && l.room[k] < (size_t)-by[k] ? 0 : l.room[k] + (size_t)by[k];
    judge_rooms(&l, wanted);
    const char *what = listing_differs(&l, how, wanted);
    if (what == NULL && !(holds(3, NULL, 0, 0) && holds(4, NULL, 0, 0)))
        what = "the list: the input is changed";
    if (what != NULL) {
        printf("mending: options %u, threshold %a, rooms %zu %zu of %zu, work room of kind %d\n", l.options, l.s, l.room[0], l.room[1], wanted->list.length,
               how->dirt);
        differs(m, &wanted->list, what);
    }
    listed[wanted->number]++;
    if (wanted->number == 6)
        shorts[wanted->place]++;
}

/* Asks for the list of a repair in rooms of some lengths: the text's exact, one short, as long as for any list, and other; the work room's of every kind. */
static void ask_list_anyhow(const Mesh *m, const Listing *input, Listed *wanted) {
    static const int some[] = {0, 0, 0, 0, 0, 1, 7, -1, -5, -1000000};
    const int any[] = {0, -1, 1000, -1000000, (int)(SHELL_LIST_ROOM(m->P, m->F) - wanted->list.length), some[below(10)]};
    for (size_t k = 0; k < sizeof any / sizeof *any; k++) {
        const Lending how = {(int)below(DIRTS), (int)below(2), (int)below(2), below(1000)};
        const int by[2] = {any[k], some[below(10)]};
        ask_list(m, input, wanted, by, &how);
    }
}

/* Asks for the list of a mesh that may be refused, with settings that may be too. */
static void ask_list_of_any(const Mesh *m) {
    static const double thresholds[] = {-0.0, 0, 1, 0.5, 1e-12, -0x1p-1074, 0x1.0000000000001p0, NAN, INFINITY, -1};
    static const uint32_t options[] = {64, 127, 1u << 31, UINT32_MAX};
    Listing l = {m->points, m->faces, m->points_len, m->faces_len, {0, 0}, below(2) ? m->s : thresholds[below(10)], below(4) ? below(64) : options[below(4)]};
    Listed wanted = mending_listed(&l);
    ask_list_anyhow(m, &l, &wanted);
    free(wanted.list.bytes);
}

/* Where the counts of a report tell of the lines of each kind. */
static const int counts[LINE_KINDS] = {SHELL_REPEATED_REMOVED, SHELL_THIN_REMOVED, SHELL_DUPLICATE_FACES_REMOVED, SHELL_FACES_DROPPED_AT_NONMANIFOLD,
                                       SHELL_FACES_REORIENTED, SHELL_FACES_DROPPED_FOR_ORIENTATION, SHELL_POINTS_ADDED_BY_SPLITTING,
                                       SHELL_ISOLATED_VERTICES_REMOVED};

/* Whether a list has as many lines of each kind as a report counts. */
static int counted(const Mesh *m, const Text *list, const uint32_t *report) {
    uint32_t found[LINE_KINDS] = {0};
    List l;
    int same = open_list(&l, list->bytes, list->length, m->faces, m->F, m->P);
    while (next_line(&l))
        found[l.kind]++;
    same = same && l.wrong == NOTHING_WRONG;
    for (int k = 0; k < LINE_KINDS; k++)
        same = same && found[k] == report[counts[k]];
    close_list(&l);
    return same;
}

/* The list of a repair with these options, which gives what the repair gives. */
static Text repair_by_list(const Mesh *m, uint32_t options) {
    static double points[SHELL_POINTS_ROOM(MOST_POINTS, MOST_FACES)];
    static uint32_t faces[SHELL_FACES_ROOM(MOST_FACES)], origins[SHELL_ORIGINS_ROOM(MOST_FACES)], work[SHELL_WORK_ROOM(MOST_POINTS, MOST_FACES)];
    static const int exact[3];
    uint32_t report[SHELL_REPORT_ROOM];
    Lending how = {(int)below(DIRTS), (int)below(2), 0, below(1000)};
    ShellRepaired r = shell_repair(m->points, 3 * m->P, m->faces, 3 * m->F, m->s, options, points, SHELL_POINTS_ROOM(MOST_POINTS, MOST_FACES), faces,
                                   SHELL_FACES_ROOM(MOST_FACES), report, SHELL_REPORT_ROOM, origins, SHELL_ORIGINS_ROOM(MOST_FACES), work,
                                   SHELL_WORK_ROOM(MOST_POINTS, MOST_FACES));
    const Listing l = {m->points, m->faces, 3 * m->P, 3 * m->F, {0, 0}, m->s, options};
    Listed wanted = mending_listed(&l);
    ask_list_anyhow(m, &l, &wanted);
    Text list = wanted.list;
    Mended applied = ask(m, &list, exact, &how);
    if (r.number != 0 || applied.number != 0)
        differs(m, &list, "the repair or its list is refused");
    if (r.points != 3 * applied.P || r.faces != 3 * applied.F || memcmp(points, applied.points, 8 * r.points) != 0 ||
        memcmp(faces, applied.faces, 4 * r.faces) != 0)
        differs(m, &list, "the list of a repair gives another mesh than the repair");
    if (!counted(m, &list, report))
        differs(m, &list, "the list of a repair tells other counts than its report");
    if (list.length > SHELL_LIST_ROOM(m->P, m->F))
        differs(m, &list, "the list of a repair is longer than SHELL_LIST_ROOM");
    go_through(m, &list, &applied);
    repairs++;
    mending_free(&applied);
    return list;
}

/* ---- lists that are changed */

/* Where line k of a list begins, from 0; its length behind the last. */
static size_t line_at(const Text *list, size_t k) {
    size_t at = 0;
    for (; at < list->length && k > 0; at++)
        k -= list->bytes[at] == '\n';
    return at;
}

/* How many newlines a list has. */
static uint32_t count_lines(const Text *list) {
    uint32_t count = 0;
    for (size_t i = 0; i < list->length; i++)
        count += list->bytes[i] == '\n';
    return count;
}

/* Puts bytes into a list, for so many that stand there. */
static void put(Text *list, size_t at, size_t gone, const char *bytes, size_t length) {
    Text made = {NULL, 0, 0};
    gone = gone < list->length - at ? gone : list->length - at;
    add_bytes(&made, list->bytes, at);
    add_bytes(&made, bytes, length);
    add_bytes(&made, list->bytes + at + gone, list->length - at - gone);
    free(list->bytes);
    *list = made;
}

/* Puts a word in. */
static void put_word(Text *list, size_t at, const char *word) { put(list, at, 0, word, strlen(word)); }

/* Strikes a line, or doubles it, or exchanges it with the next. */
static void change_line(Text *list, uint32_t how) {
    uint32_t k = below(count_lines(list) + 1);
    size_t at = line_at(list, k), end = line_at(list, k + 1), behind = line_at(list, k + 2);
    Text line = {NULL, 0, 0};
    add_bytes(&line, list->bytes + at, end - at);
    if (how > 0)
        put(list, how == 1 ? at : behind, 0, (char *)line.bytes, line.length);
    if (how != 1)
        put(list, at, line.length, "", 0);
    struck += how == 0;
    free(line.bytes);
}

/* The place behind a newline, a tab or anything; so words are put in where they tell most. */
static size_t some_place(const Text *list) {
    size_t at = below((uint32_t)list->length + 1);
    uint8_t wanted = below(3) == 0 ? '\n' : '\t';
    if (below(4) > 0)
        while (at > 0 && list->bytes[at - 1] != wanted)
            at--;
    return at;
}

/* Changes some bytes of a list: one for another, words put in, digits doubled, the end cut off, newlines with carriage returns. */
static void change_bytes(Text *list, uint32_t how) {
    static const char letters[] = "0123456789\t\n\rdosu repatedthinuplcg-+x";
    static const char *const words[] = {"0", "00", "1", "-1", "4294967295", "4294967296", "9999999999", "18446744073709551616", " ", "\r", "\t", "\n", "\t\t",
                                        "\t1\t2", "\t0\t0", "\n\n", "u\t0\n", "s\t0\t3\n", "s\t0\t3\t1\t0\n", "o\t0\n", "d\t0\t1\tthin\n",
                                        "d\t1\t2\tthin\n", "d\t0\t4\tdirection\n"};
    size_t at = some_place(list);
    char letter = letters[below(sizeof letters - 1)];
    if (how == 0)
        put(list, at, 1, &letter, 1);
    if (how == 1)
        put_word(list, at, words[below(sizeof words / sizeof *words)]);
    if (how == 2 && at < list->length)
        put(list, at, 0, (char *)list->bytes + at, 1);
    if (how == 3)
        list->length -= list->length == 0 ? 0 : 1 + (below(2) ? below((uint32_t)list->length) : 0);
    if (how == 4)
        put(list, at, 1, "", 0);
    for (uint32_t k = 0, end = count_lines(list); how == 5 && k < end; k++)
        put_word(list, line_at(list, k + 1) - 1, "\r");
}

/* Changes a field of a list: it is doubled, or what stands there as a number of 32 bits becomes one of 33 or of 65 that ends in the same bits. */
static void change_field(Text *list, uint32_t how) {
    char some[64];
    size_t at = below((uint32_t)list->length + 1), end;
    while (at > 0 && list->bytes[at - 1] != '\t')
        at--;
    for (end = at; end < list->length && list->bytes[end] != '\t' && list->bytes[end] != '\n';)
        end++;
    if (at == 0 || end - at > 10)
        return;
    snprintf(some, sizeof some, "%.*s", (int)(end - at), (const char *)list->bytes + at);
    unsigned long long number = strtoull(some, NULL, 10);
    if (how == 0)
        snprintf(some + (end - at), sizeof some - (end - at), "\t%.*s", (int)(end - at), (const char *)list->bytes + at);
    else if (how == 1)
        snprintf(some, sizeof some, "%llu", number + 4294967296);
    else
        snprintf(some, sizeof some, "184467440737%08llu", number + 9551616);
    put(list, at, end - at, some, strlen(some));
}

/* A number that may well be right: below n, n itself, or one behind the last. */
static uint32_t likely(uint32_t n, uint32_t last) { return below(3) == 0 ? last + 1 : below(20) == 0 ? n : n == 0 ? 0 : below(n); }

/* Adds the fields of a split: faces that have the point, some of them and rarely others. */
static void add_split(Text *list, const Mesh *m, uint32_t old, uint32_t new) {
    char some[64];
    add_bytes(list, some, (size_t)snprintf(some, sizeof some, "s\t%u\t%u", old, new));
    for (uint32_t i = 0; i < m->F; i++) {
        const uint32_t *face = m->faces + 3 * i;
        int has = face[0] == old || face[1] == old || face[2] == old;
        if (has ? below(3) > 0 : below(60) == 0)
            add_bytes(list, some, (size_t)snprintf(some, sizeof some, "\t%u", i));
    }
    add_bytes(list, "\n", 1);
}

/* A list of any lines that mostly follow the order. */
static Text any_lines(const Mesh *m) {
    static const char *const behind[LINE_KINDS] = {"\t1\trepeated", "\t1\tthin", "\t2\tduplicate", "\t3\tedge", "", "\t4\tdirection", "", ""};
    static const char letters[] = "ddddodsu";
    uint32_t next = (uint32_t)m->P, most = below(4) == 0 ? 12 : 3;
    Text list = {NULL, 0, 0};
    char some[64];
    add_bytes(&list, "", 0);
    for (int k = 0; k < LINE_KINDS; k++) {
        uint32_t last = below(3) == 0 ? 0 : UINT32_MAX;
        for (uint32_t n = below(most); n > 0; n--) {
            last = likely(k == ISOLATED ? next : (uint32_t)(k == SPLIT ? m->P : m->F), last);
            if (k == SPLIT) {
                next += below(30) == 0;
                add_split(&list, m, last, next++);
            } else {
                add_bytes(&list, some, (size_t)snprintf(some, sizeof some, "%c\t%u%s\n", letters[k], last, behind[k]));
            }
        }
    }
    return list;
}

/* A list of any bytes that a list may have. */
static Text any_bytes(void) {
    static const char letters[] = "0123\t\t\t\n\ndosu";
    Text list = {NULL, 0, 0};
    add_bytes(&list, "", 0);
    for (uint32_t n = below(20); n > 0; n--)
        add_bytes(&list, letters + below(sizeof letters - 1), 1);
    return list;
}

/* As many splits as there may be, of which no face takes any, and one more. */
static void split_all(const Mesh *m) {
    Text list = {NULL, 0, 0};
    char some[64];
    add_bytes(&list, "", 0);
    for (size_t k = 0; k <= 3 * m->F && m->P > 0; k++) {
        add_bytes(&list, some, (size_t)snprintf(some, sizeof some, "s\t%zu\t%zu\n", m->P - 1, m->P + k));
        if (k + 2 > 3 * m->F)
            ask_anyhow(m, &list);
    }
    free(list.bytes);
}

/* ---- meshes */

/* Spoils a mesh so that it may be refused before its list is. */
static void spoil(Mesh *m) {
    static const double far[] = {NAN, INFINITY, -INFINITY, 0x1.0000000000001p100, 0x1p100};
    uint32_t how = below(4);
    if (how == 0)
        m->points_len += below(2) + 1;
    if (how == 1)
        m->faces_len += below(2) + 1;
    if (how == 2 && m->P > 0)
        m->points[below(3 * (uint32_t)m->P)] = far[below(5)];
    if (how == 3 && m->F > 0)
        m->faces[below(3 * (uint32_t)m->F)] = (uint32_t)m->P + below(2);
}

/* Faces with any corners, some of them as one before; or a grid with some other faces on it. */
static Mesh any_mesh(void) {
    static const double thresholds[] = {0, 1e-12, 1.0 / 1024, 0.25, 1};
    Mesh m = {.s = thresholds[below(5)]};
    uint32_t wide = below(3), across = wide == 0 ? 1 + below(4) : 0;
    m.P = across > 0 ? (across + 1) * (across + 1) : 1 + below(wide == 1 ? 4 : 9);
    for (uint32_t i = 0; i < across * across; i++) {
        uint32_t v = i / across * (across + 1) + i % across, corners[6] = {v, v + 1, v + across + 1, v + 1, v + across + 2, v + across + 1};
        memcpy(m.faces + 3 * m.F, corners, sizeof corners);
        m.F += 2;
    }
    for (uint32_t n = below(wide == 1 ? 4 : 8); n > 0; n--, m.F++)
        for (size_t k = 0; k < 3; k++)
            m.faces[3 * m.F + k] = m.F > 0 && below(3) == 0 ? m.faces[below(3 * (uint32_t)m.F)] : below((uint32_t)m.P);
    if (m.F > 1 && below(3) == 0)
        memcpy(m.faces + 3 * (m.F - 1), m.faces + 3 * below((uint32_t)m.F - 1), 12);
    m.P += below(2);
    for (size_t i = 0; i < 3 * m.P; i++)
        m.points[i] = across > 0 && i % 3 < 2 ? (double)(i % 3 == 0 ? i / 3 % (across + 1) : i / 3 / (across + 1)) : (double)below(5) / 2 - 1;
    m.points_len = 3 * m.P;
    m.faces_len = 3 * m.F;
    return m;
}

/* A mesh with the lists of some options, changed in many ways, and other lists. */
static void try_mesh(const Mesh *m) {
    for (int k = 0; k < LISTS; k++) {
        Text list = k % 2 == 0 ? repair_by_list(m, k == 0 ? SHELL_ALL_OPTIONS : below(64)) : k % 4 == 1 ? any_lines(m) : any_bytes();
        for (uint32_t n = 1 + below(3); n > 0; n--) {
            Mesh other = *m;
            if (below(16) == 0)
                spoil(&other);
            if (below(2) == 0)
                change_line(&list, below(3));
            else if (k % 4 != 3 && below(2) == 0)
                change_bytes(&list, below(6));
            else if (below(4) == 0)
                change_field(&list, below(3));
            ask_anyhow(&other, &list);
            if (k == 0)
                ask_list_of_any(&other);
        }
        free(list.bytes);
    }
    if (below(10) == 0)
        split_all(m);
}

/* Every mesh of at most two faces on three points, or of them one in so many, with all options, and each of its lists with one line struck. */
static void try_small(uint32_t one_in) {
    for (uint32_t F = 0, all = 1; F <= 2; F++, all *= 27)
        for (uint32_t which = 0; which < all; which += one_in) {
            Mesh m = {.points = {0, 0, 0, 1, 0, 0, -0.0, 1, 0}, .s = 1e-12, .P = 3, .F = F, .points_len = 9, .faces_len = 3 * F};
            for (uint32_t c = 0, rest = which; c < 3 * F; c++, rest /= 3)
                m.faces[c] = rest % 3;
            for (uint32_t options = 0; options < 64; options++) {
                Text list = repair_by_list(&m, options);
                if (list.length > 0)
                    change_line(&list, 0);
                ask_anyhow(&m, &list);
                free(list.bytes);
            }
        }
}

/* Meshes that are too large, whose lists are not looked at. */
static void try_large(void) {
    const size_t points_len = 3 * ((size_t)SHELL_MOST_POINTS + 1), faces_len = 3 * ((size_t)SHELL_MOST_FACES + 1);
    double *points = calloc(points_len, 8);
    uint32_t *faces = calloc(faces_len, 4);
    if (points == NULL || faces == NULL)
        exit(2);
    const Applying all[] = {{points, faces, (const uint8_t *)"x", points_len, 3, 1, {0, 0, 0}},
                            {points, faces, (const uint8_t *)"x", 3, faces_len, 1, {7, 7, 7}},
                            {points, faces, NULL, points_len, faces_len, 0, {1, 0, 1}}};
    for (int k = 0; k < 3; k++) {
        const Lending how = {k, 0, 0, 0};
        Mended wanted = mending_applied(all + k);
        const char *what = mending_differs(all + k, &how, &wanted);
        const Listing l = {points, faces, all[k].points_len, all[k].faces_len, {(size_t)k, 0}, -1, 64};
        const Listed no = mending_listed(&l);
        numbers[wanted.number]++;
        listed[no.number]++;
        what = what == NULL ? listing_differs(&l, &how, &no) : what;
        if (what != NULL) {
            printf("mending: too large %d: %s\n", k, what);
            exit(1);
        }
    }
    free(points), free(faces);
}

/* ---- lists that are known */

/* A mesh, options, and the list of its repair, as the request and its readings have them. */
static const struct {
    size_t P, F;
    uint32_t faces[15], options;
    const char *list;
} known[] = {
    {0, 0, {0}, 63, ""},
    {1, 1, {0, 0, 0}, 40, "s\t0\t1\t0\ns\t0\t2\nu\t0\nu\t2\n"},
    {5, 5, {0, 1, 2, 1, 2, 3, 2, 3, 4, 3, 4, 0, 4, 0, 1}, 16, "o\t1\no\t3\no\t4\nd\t4\t4\tdirection\n"},
    {5, 3, {0, 1, 2, 0, 1, 3, 0, 1, 4}, 63, "d\t2\t3\tedge\no\t1\nu\t4\n"},
    {5, 2, {0, 1, 2, 0, 3, 4}, 63, "s\t0\t5\t1\n"},
    {5, 5, {0, 0, 1, 0, 1, 2, 0, 1, 2, 0, 2, 1, 3, 4, 0}, 63, "d\t0\t1\trepeated\nd\t2\t2\tduplicate\nd\t3\t2\tduplicate\ns\t0\t5\t4\n"},
    {5, 2, {0, 2, 3, 4, 1, 0}, 33, "d\t0\t1\tthin\nu\t2\nu\t3\n"},
    {5, 4, {0, 0, 1, 0, 1, 2, 2, 1, 0, 0, 2, 3}, 3, "d\t0\t1\trepeated\nd\t3\t1\tthin\nd\t2\t2\tduplicate\n"},
    {1, 1, {0, 0, 0}, 0, ""},
};

/* The known lists come out, and give what the repair gives. */
static void try_known(void) {
    for (size_t k = 0; k < sizeof known / sizeof *known; k++) {
        Mesh m = {.points = {0, 0, 0, 1, 0, 0, 0, 1, 0, 0, -1, 0, 0, 0, 1}, .s = 0x1p-10, .P = known[k].P, .F = known[k].F};
        if (known[k].options == 16)
            memset(m.points, 0, sizeof m.points);
        memcpy(m.faces, known[k].faces, sizeof known[k].faces);
        m.points_len = 3 * m.P;
        m.faces_len = 3 * m.F;
        Text list = repair_by_list(&m, known[k].options);
        if (list.length != strlen(known[k].list) || memcmp(list.bytes, known[k].list, list.length) != 0)
            differs(&m, &list, "not the known list");
        free(list.bytes);
    }
}

/* The bytes that hexadecimal digits tell. */
static Text read_digits(const char *digits) {
    Text list = {NULL, 0, 0};
    unsigned byte;
    add_bytes(&list, "", 0);
    for (; sscanf(digits, "%2x", &byte) == 1; digits += 2)
        add_bytes(&list, &(uint8_t){(uint8_t)byte}, 1);
    return list;
}

/* Lists whose refusals are known, each for a mesh whose points all lie in one place; the exit status. */
static int try_judged(void) {
    static const int exact[3], none[3] = {-100000, -100000, -100000};
    const Lending how = {2, 0, 1, 0};
    char digits[1000];
    uint32_t number, place, count = 0;
    Mesh m = {.s = 0};
    for (; scanf("%zu %zu", &m.P, &m.F) == 2 && m.P <= MOST_POINTS && m.F <= MOST_FACES; count++) {
        for (size_t i = 0; i < 3 * m.F; i++)
            if (scanf("%u", m.faces + i) != 1)
                return 2;
        if (scanf(" x%999[0-9a-f]", digits) != 1)
            digits[0] = 0;
        if (scanf("%u %u", &number, &place) != 2)
            return 2;
        m.points_len = 3 * m.P;
        m.faces_len = 3 * m.F;
        Text list = read_digits(digits);
        Mended wanted = ask(&m, &list, exact, &how), short_of_room = ask(&m, &list, none, &how);
        if (wanted.number != number || wanted.place != place || short_of_room.number != (number == 0 ? 6 : number))
            differs(&m, &list, "another refusal than is known");
        go_through(&m, &list, &wanted);
        mending_free(&wanted);
        free(list.bytes);
    }
    printf("mending: %u lists whose refusals are known\n", count);
    return !feof(stdin);
}

/* A room of so many entries, all zero. */
static void *room(size_t n, size_t size) {
    void *made = calloc(n + 1, size);
    if (made == NULL)
        exit(2);
    return made;
}

/* Prints the list of a repair of a PLY file; the exit status. */
static int print_list(const char *threshold, const char *name) {
    FILE *file = fopen(name, "rb");
    uint8_t *bytes = room(MOST_BYTES, 1);
    size_t length = file == NULL ? 0 : fread(bytes, 1, MOST_BYTES, file);
    ShellPlyCounts counts = shell_ply_counts(bytes, length);
    size_t P = counts.points, F = counts.faces;
    double *points = room(SHELL_PLY_POINTS_ROOM(P), sizeof *points);
    uint32_t *faces = room(SHELL_PLY_FACES_ROOM(F), sizeof *faces), *work = room(SHELL_WORK_ROOM(P, F), sizeof *work);
    ShellPly read = shell_read_ply(bytes, length, points, SHELL_PLY_POINTS_ROOM(P), faces, SHELL_PLY_FACES_ROOM(F), work, SHELL_WORK_ROOM(P, F));
    if (read.number == SHELL_ACCEPTED) {
        Text list = mending_list(points, P, faces, F, strtod(threshold, NULL), SHELL_ALL_OPTIONS);
        fwrite(list.bytes, 1, list.length, stdout);
        free(list.bytes);
    }
    if (file != NULL)
        fclose(file);
    free(bytes), free(points), free(faces), free(work);
    return read.number != SHELL_ACCEPTED;
}

/* Whether everything was tried: each kind of line applied, each fault found, and each number told. */
static int complete(void) {
    static const int applying[] = {0, 1, 2, 4, 5, 6, 15};
    int good = struck > 0 && shorts[0] > 0 && shorts[1] > 0;
    for (size_t k = 0; k < sizeof applying / sizeof *applying; k++)
        good = good && numbers[applying[k]] > 0;
    for (size_t k = 0; k <= 6; k++)
        good = good && listed[k] > 0;
    for (int k = 0; k < LINE_KINDS; k++)
        good = good && kinds[k] > 0;
    for (int k = 0; k <= USED_POINT; k++)
        good = good && faults[k] > 0;
    return good;
}

int main(int count, char **words) {
    if (count == 4 && strcmp(words[1], "list") == 0)
        return print_list(words[2], words[3]);
    if (count == 2 && strcmp(words[1], "known") == 0)
        return try_judged();
    if (count != 2) {
        fprintf(stderr, "usage: mending MESHES\n       mending known\n       mending list THRESHOLD IN.ply\n");
        return 2;
    }
    unsigned long meshes = strtoul(words[1], NULL, 10);
    try_known();
    try_large();
    try_small(meshes < ENOUGH ? 101 : 1);
    for (unsigned long k = 0; k < meshes; k++) {
        Mesh m = any_mesh();
        try_mesh(&m);
    }
    printf("mending: lists written %lu, refused 1 %lu, 2 %lu, 3 %lu, 4 %lu, 5 %lu, 6 for the text %lu and for the work room %lu times\n", listed[0], listed[1],
           listed[2], listed[3], listed[4], listed[5], shorts[0], shorts[1]);
    printf("mending: %lu lists of repairs, and others; applied %lu, refused 1 %lu, 2 %lu, 4 %lu, 5 %lu, 6 %lu, 15 %lu times; lines applied by their kinds",
           repairs, numbers[0], numbers[1], numbers[2], numbers[4], numbers[5], numbers[6], numbers[15]);
    for (int k = 0; k < LINE_KINDS; k++)
        printf(" %lu", kinds[k]);
    printf("; bad lines by their faults");
    for (int k = 1; k <= USED_POINT; k++)
        printf(" %lu", faults[k]);
    printf("\n");
    if (meshes >= ENOUGH && !complete()) {
        printf("mending: something was not tried\n");
        return 1;
    }
    return 0;
}
