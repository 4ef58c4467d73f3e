#!/usr/bin/env bash
# Many meshes in one repair: packs of every kind come out as the documents say, and as one call each gives them (host/panel.c). That the program sees faults is
# shown by the library's call with a fault put into what it gives.
set -u
here=$(cd "$(dirname "${BASH_SOURCE[0]}")/.." && pwd)
. "$here/tests/machine.sh" || exit 1
room=$(mktemp -d) || exit 1
trap 'rm -rf "$room"' EXIT
bash "$here/host/build.sh" "$room" || exit 1
cd "$room" || exit 1
flags=(-std=c11 -Wall -Wextra -Wpedantic -Werror -O2 -g -ffp-contract=off -I. "-I$here/fuzz")
plain=("$here/host/damaged.c" "$here"/fuzz/{document,passes,ply,uses,lend}.c)
gcc "${flags[@]}" -o panel "$here"/{host,fuzz}/panel.c "${plain[@]}" libshell.a -lm || exit 1
# Beside what follows. With fewer random packs than 1000 some kinds would not be tried.
packs=3000
[ -z "$emulated" ] || { packs=1000 && echo "panel: under an emulator a sample, of $packs random packs"; }
./panel $packs >told &
tried=$!

cat >wrong.c <<'END_OF_WRONG'
/* The library's call under another name, with the fault that the environment names as FAULT. */
#include "shell.h"
#include <math.h>
#include <stdlib.h>
#include <string.h>

/* What is asked and lent, but for the lengths of the answer rooms. */
typedef struct {
    const uint32_t *point_counts, *face_counts;
    size_t M;
    double *points;
    uint32_t *faces, *report, *meshes;
} Pack;

/* Whether this is the fault that is asked for. */
static int named(const char *fault) { return strcmp(getenv("FAULT"), fault) == 0; }

/* The answer of a call that is refused. */
static ShellPanel refused(uint32_t number, uint32_t place) { return (ShellPanel){number, place, 0, 0, 0, 0, 0}; }

/* The points of each mesh stand where its own stated room would begin. */
static void gaps(const Pack *p) {
    for (size_t k = p->M; k-- > 0;) {
        size_t from = 0, to = 0, stated = SHELL_POINTS_ROOM(p->point_counts[k], p->face_counts[k]), entries = 3 * (size_t)p->meshes[4 * k + 2];
        for (size_t j = 0; j < k; j++) {
            from += 3 * (size_t)p->meshes[4 * j + 2];
            to += SHELL_POINTS_ROOM(p->point_counts[j], p->face_counts[j]);
        }
        memmove(p->points + to, p->points + from, 8 * entries);
        memset(p->points + to + entries, 0, 8 * (stated - entries));
    }
}

/* A refused mesh has eleven counts of zero. */
static void zeros(const Pack *p, ShellPanel *a) {
    size_t accepted = (size_t)a->counts / 11;
    for (size_t k = p->M; k-- > 0;)
        if (p->meshes[4 * k] == 0)
            memmove(p->report + 11 * k, p->report + 11 * --accepted, 44);
        else
            memset(p->report + 11 * k, 0, 44);
    a->counts = 11 * p->M;
}

/* The meshes room counts entries, not points and faces. */
static void entries(const Pack *p) {
    for (size_t k = 0; k < 4 * p->M; k++)
        p->meshes[k] *= k % 4 < 2 ? 1 : 3;
}

/* The corners count on from mesh to mesh. */
static void through(const Pack *p) {
    uint32_t *corner = p->faces, before = 0;
    for (size_t k = 0; k < p->M; before += p->meshes[4 * k++ + 2])
        for (size_t i = 0; i < 3 * (size_t)p->meshes[4 * k + 3]; i++)
            *corner++ += before;
}

/* The first mesh that is refused refuses the whole. */
static ShellPanel whole(const Pack *p, ShellPanel a) {
    for (size_t k = 0; k < p->M; k++)
        if (p->meshes[4 * k] != 0)
            return refused(p->meshes[4 * k], p->meshes[4 * k + 1]);
    return a;
}

/* Whether the counts, times 3, add up to a length in so many bits. */
static int adds_up(const uint32_t *counts, size_t n, size_t length, uint64_t bits) {
    uint64_t sum = 0;
    for (size_t k = 0; k < n; k++)
        sum += 3 * (uint64_t)counts[k];
    return (sum & bits) == length;
}

ShellPanel wrong_repair_panel(const double *points, size_t points_len, const uint32_t *faces, size_t faces_len, const uint32_t *point_counts,
                              size_t point_counts_len, const uint32_t *face_counts, size_t face_counts_len, double s, uint32_t options, double *out_points,
                              size_t out_points_len, uint32_t *out_faces, size_t out_faces_len, uint32_t *report, size_t report_len, uint32_t *origins,
                              size_t origins_len, uint32_t *meshes, size_t meshes_len, uint32_t *work, size_t work_len);

/* What the library gives, with the fault: in an accepted pack, in what is refused and why, or in a room. */
ShellPanel wrong_repair_panel(const double *points, size_t points_len, const uint32_t *faces, size_t faces_len, const uint32_t *point_counts,
                              size_t point_counts_len, const uint32_t *face_counts, size_t face_counts_len, double s, uint32_t options, double *out_points,
                              size_t out_points_len, uint32_t *out_faces, size_t out_faces_len, uint32_t *report, size_t report_len, uint32_t *origins,
                              size_t origins_len, uint32_t *meshes, size_t meshes_len, uint32_t *work, size_t work_len) {
    const Pack p = {point_counts, face_counts, point_counts_len, out_points, out_faces, report, meshes};
    size_t first = p.M == 0 || face_counts_len == 0 ? 0 : SHELL_WORK_ROOM(point_counts[0], face_counts[0]), left = work_len < first ? 0 : work_len - first;
    uint32_t *held = malloc(4 * left + 1);
    if (left > 0 && held != NULL)
        memcpy(held, work + first, 4 * left);
    ShellPanel a = shell_repair_panel(points, points_len, faces, faces_len, point_counts, point_counts_len, face_counts, face_counts_len, s, options,
                                      out_points, out_points_len, out_faces, out_faces_len, report, report_len, origins, origins_len, meshes, meshes_len, work,
                                      work_len);
    uint64_t bits = named("32 bits") ? UINT32_MAX : named("64 bits") ? UINT64_MAX : 0;
    if (a.number == SHELL_ACCEPTED) {
        if (named("gaps"))
            gaps(&p);
        if (named("zeros"))
            zeros(&p, &a);
        if (named("entries"))
            entries(&p);
        if (named("through"))
            through(&p);
        if (named("whole"))
            a = whole(&p, a);
        if (named("dirty") && left > 0)
            memcpy(work + first, held, 4 * left);
        if (named("beyond") && meshes_len > 4 * p.M)
            meshes[4 * p.M] = 0;
    } else if (a.number == SHELL_TOO_LARGE && named("order") && !(0 <= s && s <= 1))
        a = refused(SHELL_BAD_SETTING, 0);
    else if (a.number == SHELL_SHORT_ROOM && named("early") && points_len > 0 && isnan(points[0]))
        a = refused(SHELL_BAD_POINT, 0);
    else if (a.number == SHELL_BAD_LENGTH && bits != 0 && p.M == face_counts_len && adds_up(point_counts, p.M, points_len, bits) &&
             adds_up(face_counts, p.M, faces_len, bits))
        a = refused(SHELL_TOO_LARGE, 0);
    if (a.number == SHELL_SHORT_ROOM && named("touched") && work_len > 0)
        work[0] ^= 1;
    free(held);
    return a;
}
END_OF_WRONG
gcc "${flags[@]}" -c wrong.c || exit 1
gcc "${flags[@]}" -Dshell_repair_panel=wrong_repair_panel -o wrong "$here"/{host,fuzz}/panel.c "${plain[@]}" wrong.o libshell.a -lm || exit 1
FAULT=none ./wrong 100 >said || { cat said; exit 1; }
# Puts the fault $1 into what the call gives; the program must say so, as $2.
sees() {
    FAULT=$1 ./wrong 1000 >"said $1"
    [ $? -eq 1 ] && grep -q "^panel: not as .*: $2;" "said $1" && return
    echo "panel: the fault '$1' is not seen as '$2':"
    tail -n 5 "said $1"
    exit 1
}
sees '64 bits' 'point counts whose sum wraps in 64 bits' >unseen &
wide=$!
sees gaps 'the points room does not hold what it must'
sees zeros 'other counts'
sees entries 'the meshes room does not hold what it must'
sees through 'the faces room does not hold what it must'
sees whole 'another number or place'
sees dirty 'the work room does not hold what it must'
sees beyond 'the meshes room does not hold what it must'
sees touched 'a room is changed though the call is refused'
sees order 'another number or place'
sees early 'another number or place'
sees '32 bits' 'another number or place'
wait $tried || { cat told; exit 1; }
cat told
wait $wide || grep -q 'no room here for rows' told || { cat unseen; exit 1; }
echo "panel: faults put into what the call gives are seen"

if can_watch; then
    valgrind -q --error-exitcode=9 --leak-check=full --errors-for-leak-kinds=definite ./panel 20 || exit 1
else
    echo "panel: no valgrind here, so the rooms' neighbours are watched by their pages alone"
fi
