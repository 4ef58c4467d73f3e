#!/usr/bin/env bash
# Keys: with --into many files are mended in one call as shellfix mends each by itself, sentence for sentence and byte for byte, with keys that are refused or
# cannot be read among them, one key, 40, 256, and 257, which are too many. What is printed is known word for word for a small keyboard, and so is what is said
# of words that are not understood, several files without --into among them. Nothing in a folder is replaced, and where it cannot be written to, nothing in it
# is changed and nothing is new.
set -u
here=$(cd "$(dirname "${BASH_SOURCE[0]}")/.." && pwd)
. "$here/tests/machine.sh" || exit 1
room=$(mktemp -d) || exit 1
trap 'rm -rf "$room"' EXIT
chmod 755 "$room" || exit 1
bash "$here/host/build.sh" "$room" || exit 1
cd "$room" || exit 1
flags=(-std=c11 -Wall -Wextra -Wpedantic -Werror -O2 -g -I.)
gcc "${flags[@]}" -o shellfix "$here"/host/{shellfix,keys,faults,lists}.c libshell.a || exit 1
python3 "$here/tests/origins.py" make scans || exit 1
python3 "$here/tests/stl.py" make made || exit 1
python3 "$here/tests/ply.py" shell plain || exit 1
cp "$here/tests/cases/stl/by-admesh.stl" made/ || exit 1
head -c 1000 made/by-admesh.stl >made/cut-off.stl
head -c 300 plain/bowtie.ply >plain/short.ply
mkdir made/folder.stl
count=0

# Says what is wrong, and ends the test.
wrong() {
    echo "keys: $*"
    exit 1
}

# The name of the file that a key is written to.
file_of() {
    local name=${1##*/}
    case $name in
    ?*.stl | ?*.ply | ?*.STL | ?*.PLY) name=${name%.*} ;;
    esac
    echo "$name.ply"
}

# Mends each of the files $2.. by itself, to files in a new folder alone, with the words $1. Prints of each the line that it must have as a key.
alone() {
    local settings=$1 file said
    shift
    rm -rf alone && mkdir alone || exit 1
    for file; do
        # Without quotes: some words or none.
        ./shellfix $settings -o "alone/$(file_of "$file")" "$file" >printed 2>said
        said=$(sed '/^written: /d' printed)
        [ -n "$said" ] || said=$(sed -n "s|^shellfix: cannot read $file: |cannot be read: |p" said)
        echo "$file: ${said//$'\n'/; }"
    done
}

# Prints the last line that keys must have, by the lines of all.
totals() {
    awk '/; mended: / { mended++ } / cannot be read: / { unread++ } / refused, number / { refused++ }
        { for (i = 1; i < NF; i++) { if ($i == "read:") { p += $(i + 1); f += $(i + 3) } if ($i == "mended:") { q += $(i + 1); g += $(i + 3) } } }
        END { printf "%d keys: %d mended, %d refused", NR, mended, refused
              if (unread) printf ", %d cannot be read", unread
              printf "; read: %d points, %d faces; mended: %d points, %d faces", p, f, q, g
              printf "; written: %d files to out\n", mended }' "$1"
}

# Mends the files $3.. in one call with the words $2, to a new folder out, and wants the exit status $1, and what each file gives by itself.
together() {
    local status=$1 settings=$2 found
    shift 2
    alone "$settings" "$@" >wanted && totals wanted >>wanted
    rm -rf out && mkdir out || exit 1
    ./shellfix $settings --into out "$@" >found 2>/dev/null
    found=$?
    [ $found -eq "$status" ] || wrong "exit status $found, and not $status, of $# keys with '$settings'"
    diff found wanted || wrong "other words of $# keys with '$settings'"
    diff -r out alone || wrong "other files of $# keys with '$settings'"
    count=$((count + $#))
}

# A panel of forty keys with defects of every kind, half of them in each form; one key; keys that are refused first, in the middle and last, and all of them.
forty=(scans/random-{0..19}.ply scans/random-{20..39}.stl)
refused=(made/{payload-7,cut-off,one-facet-too-many,ascii,empty}.stl plain/{comment,four-corners,negative,carriage-returns,nan,short}.ply)
together 0 '' "${forty[@]}"
together 0 '-s 0.5' "${forty[@]}"
together 0 '' scans/random-41.stl
together 0 '-s 1' made/kinds.stl scans/random-42.ply
together 0 '' scans/{empty,nothing-left,three-on-an-edge}.ply made/{none,kinds}.stl
together 1 '' "${refused[0]}" scans/random-1.ply "${refused[@]:1:9}" scans/random-2.stl "${refused[10]}"
together 1 '' "${refused[@]}"
together 1 '' made/payload-7.stl
together 2 '' scans/random-3.ply made/none-such.stl scans/random-4.ply
together 2 '' made/folder.stl made/none-such.stl
together 2 '-s 0' made/none-such.stl "${refused[@]}" scans/random-5.stl made/folder.stl

# As many keys as one call takes, and one more: then nothing is mended and nothing is written. Those that cannot be read are not counted.
mkdir many && for k in {0..256}; do cp scans/random-$((k % 60)).stl many/key-$k.stl; done
together 0 '' many/key-{0..255}.stl
rm -r out && mkdir out && ./shellfix -i out many/*.stl >found 2>&1
[ $? -eq 1 ] && [ -z "$(ls out)" ] || wrong "257 keys are taken, or something is written"
[ "$(cat found)" = "panel refused, number 2, place 0: too many keys; 257 were read, and at most 256 are mended in one call" ] || wrong "other words of 257 keys"
./shellfix -i out many/key-{0..255}.stl many/none-such.stl "${refused[@]}" >found 2>/dev/null
[ $? -eq 2 ] && tail -n 1 found | grep -q '^268 keys: 256 mended, 11 refused, 1 cannot be read; .*; written: 256 files to out$' ||
    wrong "256 keys and 12 that cannot be mended"

# Names: the ending is replaced where it is .stl or .ply, whatever its case; else .ply is put behind. Blanks and dots stay, and so does a folder's last stroke.
mkdir names && for name in A.STL 'b c.Stl' d.ply.stl e f.v2 .stl g.PLY; do cp made/none.stl "names/$name"; done
mkdir names/into && ./shellfix -i names/into/ names/A.STL names/'b c.Stl' names/d.ply.stl names/e names/f.v2 names/.stl names/g.PLY >found || exit 1
tail -n 1 found | grep -q '; written: 7 files to names/into/$' || wrong "other words of names"
[ "$(LC_ALL=C ls -A names/into)" = "$(printf '%s\n' .stl.ply A.ply 'b c.ply' d.ply.ply e.ply f.v2.ply g.ply)" ] || wrong "other names: $(ls -A names/into)"
(cd names/into && umask 027 && ../../shellfix -i .. ../e ../../scans/empty.ply) >/dev/null || exit 1
[ "$(stat -c %a names/e.ply)" = 640 ] && cmp names/e.ply names/into/e.ply || wrong "another file or mode in a folder above"

# Says what a shellfix printed, errors too, and its exit status.
told() {
    "$@" 2>&1
    echo "exit status $?"
}

# Says how shellfix begins to answer words that it does not understand. It must go on with its usage, print nothing else, and end with status 2.
puzzled() {
    ./shellfix "$@" 2>said >printed
    [ $? -eq 2 ] && [ ! -s printed ] && grep -q '^usage: shellfix' said || echo "another answer to $*"
    head -n 1 said
}

# A small keyboard, and words that are not understood.
mkdir keyboard mended two && cp made/by-admesh.stl keyboard/q.stl && cp plain/bowtie.ply keyboard/w.ply && cp made/payload-7.stl keyboard/e.stl || exit 1
cp made/kinds.stl keyboard/r.stl && cp plain/float.ply keyboard/t.ply && cp made/cut-off.stl keyboard/y.stl || exit 1
before=$(ls -laR keyboard)
{
    told ./shellfix -i two keyboard/q.stl keyboard/w.ply
    told ./shellfix -s 0.001 -i mended keyboard/{q.stl,w.ply,e.stl,r.stl,t.ply,y.stl,u.stl}
    (cd mended && ls)
    told ./shellfix --into=mended keyboard/e.stl
    told ./shellfix -i mended keyboard/u.stl keyboard/w.ply
    told ./shellfix keyboard/q.stl -i keyboard keyboard/w.ply
    told ./shellfix -i keyboard/q.stl keyboard/w.ply
    told ./shellfix -i none-such keyboard/w.ply keyboard/q.stl
    told ./shellfix -i '' keyboard/w.ply keyboard/q.stl
    told ./shellfix -i . keyboard/w.ply keyboard/q.stl plain/../keyboard/q.stl keyboard/w.ply
    told ./shellfix -i . scans/random-1.stl keyboard/w.ply scans/random-1.ply
    told ./shellfix -i . made/none-such.stl scans/random-1.stl scans/none-such.ply
    puzzled -i
    puzzled --into
    puzzled -i mended
    puzzled -i mended --into . keyboard/q.stl
    puzzled keyboard/q.stl keyboard/w.ply
    puzzled -s 0.5 keyboard/q.stl keyboard/w.ply keyboard/r.stl
    puzzled -o never.ply keyboard/q.stl keyboard/w.ply
    puzzled keyboard/q.stl -f never.txt keyboard/w.ply
    puzzled -l never.list keyboard/q.stl keyboard/w.ply
    puzzled -wl never.list keyboard/q.stl keyboard/w.ply
    puzzled -w keyboard/q.stl keyboard/w.ply
    puzzled -a keyboard/q.stl keyboard/q.stl keyboard/w.ply
    puzzled -c keyboard/q.stl keyboard/w.ply
    puzzled -c -i mended keyboard/q.stl
    puzzled -i mended -o never.ply keyboard/q.stl
    puzzled -i mended -f never.txt keyboard/q.stl keyboard/w.ply
    puzzled -i mended -l never.list keyboard/q.stl
    puzzled -i mended -a keyboard/q.stl keyboard/q.stl
    puzzled -i mended -s 2 keyboard/q.stl keyboard/w.ply
    puzzled -h keyboard/q.stl keyboard/w.ply
    ./shellfix -h -i mended keyboard/q.stl keyboard/w.ply | head -n 1
} >found
diff found - <<'WANTED' || wrong "other words"
keyboard/q.stl: read: 100 points, 158 faces; mended: 100 points, 158 faces; 105 faces reoriented; sound: yes; 259 edges, 3 boundary loops
keyboard/w.ply: read: 6 points, 3 faces; mended: 6 points, 2 faces; 1 degenerate faces removed, 1 bowtie vertices split, 1 points added, 1 isolated vertices removed; of the degenerate faces 1 repeat a corner, 0 are thin at 1e-12; sound: yes; 6 edges, 2 boundary loops
2 keys: 2 mended, 0 refused; read: 106 points, 161 faces; mended: 106 points, 160 faces; written: 2 files to two
exit status 0
keyboard/q.stl: read: 100 points, 158 faces; mended: 100 points, 158 faces; 105 faces reoriented; sound: yes; 259 edges, 3 boundary loops
keyboard/w.ply: read: 6 points, 3 faces; mended: 6 points, 2 faces; 1 degenerate faces removed, 1 bowtie vertices split, 1 points added, 1 isolated vertices removed; of the degenerate faces 1 repeat a corner, 0 are thin at 0.001; sound: yes; 6 edges, 2 boundary loops
keyboard/e.stl: read refused, number 4, place 5: a coordinate is not a number, infinite or beyond 2^100; the first such corner or point
keyboard/r.stl: read: 9 points, 7 faces; mended: 4 points, 2 faces; 5 degenerate faces removed, 5 isolated vertices removed; of the degenerate faces 3 repeat a corner, 2 are thin at 0.001; sound: yes; 5 edges, 1 boundary loops
keyboard/t.ply: read refused, number 13, place 0: not a PLY file of the form that is read; line 5 of its PLY header is 'property float y', and 'property double y' is wanted
keyboard/y.stl: read refused, number 12, place 0: not a binary STL file: 84 bytes and 50 for each facet that it counts
keyboard/u.stl: cannot be read: No such file or directory
7 keys: 3 mended, 3 refused, 1 cannot be read; read: 115 points, 168 faces; mended: 110 points, 162 faces; written: 3 files to mended
exit status 2
q.ply
r.ply
w.ply
keyboard/e.stl: read refused, number 4, place 5: a coordinate is not a number, infinite or beyond 2^100; the first such corner or point
1 keys: 0 mended, 1 refused; read: 0 points, 0 faces; mended: 0 points, 0 faces; written: 0 files to mended
exit status 1
shellfix: mended/w.ply is there already, and is not replaced: take it away, or name another folder
exit status 2
shellfix: keyboard/w.ply is there already, and is not replaced: take it away, or name another folder
exit status 2
shellfix: cannot write to keyboard/q.stl: Not a directory
exit status 2
shellfix: cannot write to none-such: No such file or directory
exit status 2
shellfix: cannot write to : No such file or directory
exit status 2
shellfix: keyboard/q.stl and plain/../keyboard/q.stl cannot both be written to ./q.ply
exit status 2
shellfix: scans/random-1.stl and scans/random-1.ply cannot both be written to ./random-1.ply
exit status 2
shellfix: made/none-such.stl and scans/none-such.ply cannot both be written to ./none-such.ply
exit status 2
shellfix: -i wants a folder
shellfix: -i wants a folder
usage: shellfix [-s THRESHOLD] [-o OUT.ply] [-f FILE] [-l LIST [-w]] IN
shellfix: one folder is written to, and not . too
shellfix: one file at a time, and not keyboard/w.ply too
shellfix: one file at a time, and not keyboard/w.ply too
shellfix: one file at a time, and not keyboard/w.ply too
shellfix: one file at a time, and not keyboard/w.ply too
shellfix: one file at a time, and not keyboard/w.ply too
shellfix: one file at a time, and not keyboard/w.ply too
shellfix: without -l or -a there is no list, so -w has nothing to do
shellfix: one file at a time, and not keyboard/w.ply too
shellfix: one file at a time, and not keyboard/w.ply too
shellfix: with -c nothing is mended, so -i has nothing to do
shellfix: with -i mended keys are written to a folder, and nothing besides, so -o has nothing to do
shellfix: with -i mended keys are written to a folder, and nothing besides, so -f has nothing to do
shellfix: with -i mended keys are written to a folder, and nothing besides, so -l has nothing to do
shellfix: with -i mended keys are written to a folder, and nothing besides, so -a has nothing to do
shellfix: the threshold '2' is not from 0 to 1
shellfix: one file at a time, and not keyboard/w.ply too
usage: shellfix [-s THRESHOLD] [-o OUT.ply] [-f FILE] [-l LIST [-w]] IN
WANTED
[ "$before" = "$(ls -laR keyboard)" ] && ! ls never.* 2>/dev/null || wrong "the scans are changed, or a file is written that must not be"

# Where writing fails shellfix ends with status 2 and a reason; nothing in its folder is changed, and nothing is new.
mkdir there && echo "what was there" >there/old.ply && mkdir there/taken.ply && ln -s none there/dangling.ply || exit 1
for name in old taken dangling; do cp made/none.stl $name.stl; done
# What stands in the folder.
seen() { ls -laR there | grep -v ' \.\.*$' && cat there/old.ply; }
# Runs $2.. and wants it to end with status 2 and the reason $1.
fails() {
    local reason=$1 before
    shift
    before=$(seen)
    "$@" >printed 2>said
    [ $? -eq 2 ] && grep -qF "$reason" said && ! grep -q 'written: ' printed && [ "$before" = "$(seen)" ] && return
    cat said
    wrong "$*: not noticed as '$reason'"
}
for name in old taken dangling; do
    fails "there/$name.ply is there already" ./shellfix -i there "${forty[@]}" $name.stl
done
# Runs $1.. on a disk that is full after some kilobytes: the file of one key is longer.
full() { (trap '' XFSZ && ulimit -f 8 && exec "$@"); }
fails 'cannot write there/grid.ply: File too large' full ./shellfix -i there "${forty[@]:0:3}" plain/grid.ply "${forty[@]:3}"
# Runs $1.. so that what it prints goes to a full disk.
unprinted() { "$@" >/dev/full; }
rm -r out && mkdir out && fails 'cannot print: No space left on device' unprinted ./shellfix -i out "${forty[@]}"
# A user who may not write to the folder, nor read one of the files.
user=()
[ "$(id -u)" -ne 0 ] || user=(setpriv --reuid=65534 --regid=65534 --clear-groups)
mkdir -m 777 open && chmod 555 there && cp made/none.stl closed.stl && chmod 0 closed.stl || exit 1
if "${user[@]}" true 2>/dev/null; then
    fails 'cannot write to there: Permission denied' "${user[@]}" ./shellfix -i there "${forty[@]}"
    "${user[@]}" ./shellfix -i open closed.stl made/none.stl >found
    [ $? -eq 2 ] && grep -qx 'closed.stl: cannot be read: Permission denied' found || wrong "a closed file is not noticed"
else
    echo "keys: no other user here, so that every folder can be written to"
fi

# The library is asked once. One that refuses a key by itself is believed, and so is one that refuses all, or says that a shell is not sound.
cat >fault.c <<'LIBRARY'
#include "shell.h"
#include <stdio.h>
#include <stdlib.h>
#include <string.h>
/* The call, but for what the environment asks for: SPOILT, a key whose first corner is no point; ALL, the number and the place of a refusal of all. */
ShellPanel faulty_panel(const double *points, size_t points_len, const uint32_t *faces, size_t faces_len, const uint32_t *pc, size_t pc_len, const uint32_t *fc,
                        size_t fc_len, double s, uint32_t options, double *out, size_t out_len, uint32_t *out_faces, size_t out_faces_len, uint32_t *report,
                        size_t report_len, uint32_t *origins, size_t origins_len, uint32_t *meshes, size_t meshes_len, uint32_t *work, size_t work_len) {
    const char *spoilt = getenv("SPOILT"), *all = getenv("ALL");
    uint32_t *given = malloc(4 * faces_len + 4), number, place;
    size_t at = 0;
    memcpy(given, faces, 4 * faces_len);
    for (int k = 0; spoilt != NULL && k < atoi(spoilt); k++)
        at += 3 * fc[k];
    if (spoilt != NULL)
        given[at] = pc[atoi(spoilt)];
    fprintf(stderr, "asked for %zu keys\n", pc_len);
    ShellPanel found = shell_repair_panel(points, points_len, given, faces_len, pc, pc_len, fc, fc_len, s, options, out, out_len, out_faces, out_faces_len,
                                          report, report_len, origins, origins_len, meshes, meshes_len, work, work_len);
    free(given);
    if (all != NULL && sscanf(all, "%u %u", &number, &place) == 2)
        return (ShellPanel){.number = number, .place = place};
    return found;
}
ShellCheck faulty_check(uint64_t point_count, const uint32_t *faces, size_t faces_len, uint32_t *work, size_t work_len) {
    ShellCheck found = shell_check(point_count, faces, faces_len, work, work_len);
    found.yes = getenv("UNSOUND") == NULL && found.yes;
    return found;
}
LIBRARY
gcc "${flags[@]}" -Dshell_repair_panel=faulty_panel -c -o keys.o "$here/host/keys.c" || exit 1
gcc "${flags[@]}" -Dshell_check=faulty_check -c -o shellfix.o "$here/host/shellfix.c" || exit 1
gcc "${flags[@]}" -o faulty shellfix.o keys.o fault.c "$here"/host/{faults,lists}.c libshell.a || exit 1
rm -r out && mkdir out && ./faulty -i out "${forty[@]}" >/dev/null 2>said && [ "$(cat said)" = "asked for 40 keys" ] || wrong "not one call for 40 keys"
alone '' "${forty[@]}" >wanted
for spoilt in 0 17 39; do
    rm -r out && mkdir out && SPOILT=$spoilt ./faulty -i out "${forty[@]}" >found 2>/dev/null
    [ $? -eq 1 ] && tail -n 1 found | grep -q '^40 keys: 39 mended, 1 refused; read: .*; written: 39 files to out$' || wrong "key $spoilt of 40 is not refused"
    sed "$((spoilt + 1))s/; mended: .*/; repair refused, number 5, place 0: a corner is no point; the first such face/" wanted | diff - <(head -n 40 found) ||
        wrong "other words where key $spoilt of 40 is refused"
    [ "$(diff -rq out alone)" = "Only in alone: $(file_of "${forty[spoilt]}")" ] || wrong "other files where key $spoilt of 40 is refused"
done
rm -r out && mkdir out || exit 1
{
    for all in '1 0' '1 1' '2 0' '3 0' '6 0' '6 5'; do
        ALL=$all told ./faulty -i out keyboard/q.stl keyboard/u.stl
    done
    UNSOUND=1 told ./faulty -i out keyboard/q.stl keyboard/e.stl
} | grep -v '^asked for' >found
diff found - <<'WANTED' || wrong "other words of a library with a fault"
panel refused, number 1, place 0: the row of point counts does not fit
exit status 1
panel refused, number 1, place 1: the row of face counts does not fit
exit status 1
panel refused, number 2, place 0: too many keys; 1 were read, and at most 256 are mended in one call
exit status 1
panel refused, number 3, place 0: a bad setting; 0 threshold, 1 options
exit status 1
panel refused, number 6, place 0: the points room is too short
exit status 1
panel refused, number 6, place 5: the work room is too short
exit status 1
keyboard/q.stl: read: 100 points, 158 faces; mended: 100 points, 158 faces; 105 faces reoriented; sound: no
keyboard/e.stl: read refused, number 4, place 5: a coordinate is not a number, infinite or beyond 2^100; the first such corner or point
2 keys: 0 mended, 2 refused; read: 100 points, 158 faces; mended: 0 points, 0 faces; written: 0 files to out
exit status 1
WANTED
[ -z "$(ls out)" ] || wrong "a key that is refused is written"

if can_watch; then
    watched=(valgrind -q --error-exitcode=9 --leak-check=full --errors-for-leak-kinds=definite)
    "${watched[@]}" ./shellfix -i out keyboard/{u.stl,q.stl,w.ply,e.stl,r.stl,t.ply,y.stl} scans/{random-1,empty}.ply >/dev/null
    [ $? -eq 2 ] || wrong "a fault in memory"
    "${watched[@]}" ./shellfix -i out many/*.stl >/dev/null
    [ $? -eq 1 ] || wrong "a fault in memory where all are refused"
    "${watched[@]}" ./shellfix -i out keyboard/*.stl 2>/dev/null
    [ $? -eq 2 ] || wrong "a fault in memory where a file is there"
else
    echo "keys: no valgrind here, so the rooms' neighbours are not watched"
fi
echo "keys: $count keys mended together as each by itself, or refused in the same words"
