#!/usr/bin/env bash
# Mending lists: on every small mesh and on random ones shell_list writes the list of a repair that the documents say, shell_apply makes of it what the repair
# gives, and of any other text what the documents say, in rooms of every kind (host/mending.c); it judges the lists of the rules' own tables as these compute.
# shellfix writes the lists of shells from disk, and mends them by lists; what it prints, word for word, and its exit status are those expected of lists that
# apply, of lists with lines struck, and of bad lists of every kind; where a list cannot be read or written that is noticed.
set -u
here=$(cd "$(dirname "${BASH_SOURCE[0]}")/.." && pwd)
. "$here/tests/machine.sh" || exit 1
room=$(mktemp -d) || exit 1
trap 'rm -rf "$room"' EXIT
bash "$here/host/build.sh" "$room" || exit 1
cd "$room" || exit 1
flags=(-std=c11 -Wall -Wextra -Wpedantic -Werror -O2 -g -ffp-contract=off -I.)
gcc "${flags[@]}" "-I$here/fuzz" -o mending "$here"/host/{mending,lists}.c "$here"/fuzz/{mending,lend,uses}.c libshell.a -lm || exit 1
gcc "${flags[@]}" -o shellfix "$here"/host/{shellfix,keys,faults,lists}.c libshell.a || exit 1
[ -z "$emulated" ] || echo "mending: under an emulator a sample, of the small meshes and of the random ones"
./mending $((5000 / share)) || exit 1
python3 "$here/tests/mending.py" judged "$here/crates/rules/specs/MendingExamples.antt" >judged && ./mending known <judged || exit 1
python3 "$here/tests/mending.py" make made || exit 1
python3 "$here/tests/origins.py" make scans || exit 1
cp "$here/tests/cases/stl/by-admesh.stl" made/ || exit 1
./mending list 1e-12 made/every.ply >made/every.list || exit 1

# Says what a shellfix printed, errors too, and its exit status.
told() {
    "$@" 2>&1
    echo "exit status $?"
}

# Says how shellfix begins to answer words that it does not understand. It must go on with its usage, print nothing else, and end with status 2.
puzzled() {
    ./shellfix "$@" 2>said >printed
    [ $? -eq 2 ] && [ ! -s printed ] && grep -q '^usage: shellfix' said || echo "another answer to $*"
    head -n 1 said
}

before=$(ls -la made)
{
    for name in every legs no-faces empty; do
        told ./shellfix --list list --words made/$name.ply
        cat list && rm list
    done
    told ./shellfix made/legs.ply -s 1 -wllist -o out.ply --origins=origins
    cat list && rm list out.ply origins
    told ./shellfix -l list made/by-admesh.stl && rm list
    told ./shellfix -l never.list made/whole.list
    told ./shellfix --apply made/every.list --words made/every.ply
    for name in whole struck only-turned untrue split nothing; do
        echo "$name.list"
        told ./shellfix -w -a made/$name.list -o out.ply made/legs.ply
        [ -e out.ply ] && rm out.ply || echo "nothing was written"
    done
    for name in no-newline carriage-returns letter blank-line blanks strange few-fields many-fields half-a-split leading-zero 33-bits no-number signed long \
        other-pass no-reason falling-faces face-twice kinds-exchanged lines-exchanged line-twice no-face no-face-splits dropped dropped-turned dropped-splits \
        old new new-again without without-then no-point no-point-split used used-by-the-second many-splits; do
        echo "$name.list"
        told ./shellfix made/legs.ply -a made/$name.list -o never.ply
    done
    told ./shellfix -wa made/no-point-split.list made/legs.ply
    told ./shellfix --apply=made/old.list made/no-faces.ply
    told ./shellfix --apply=made/nothing.list made/empty.ply
    told ./shellfix --apply made/whole.list made/whole.list
    told ./shellfix --apply made/none.list made/legs.ply
    told ./shellfix --apply made made/legs.ply
    told ./shellfix --apply made/whole.list made/none.ply
    told ./shellfix -a made/whole.list -o nowhere/out.ply made/legs.ply
    puzzled -a
    puzzled made/legs.ply --apply
    puzzled -a made/whole.list
    puzzled -a made/whole.list -a made/struck.list made/legs.ply
    puzzled -a made/whole.list made/legs.ply made/every.ply
    puzzled -a made/whole.list -s 0.5 made/legs.ply
    puzzled -a made/whole.list -f never.txt made/legs.ply
    puzzled -w made/legs.ply
    puzzled --words=yes -a made/whole.list made/legs.ply
    puzzled -c -a made/whole.list made/legs.ply
    puzzled -cw made/legs.ply
    puzzled -a made/whole.list -o made/../made/whole.list made/legs.ply
    puzzled -l
    puzzled made/legs.ply --list
    puzzled -l list
    puzzled -l never.list --list=never.txt made/legs.ply
    puzzled -c -l never.list made/legs.ply
    puzzled -cwl never.list made/legs.ply
    puzzled -a made/whole.list -l never.list made/legs.ply
    puzzled -l made/../made/legs.ply made/legs.ply
    puzzled -l never.ply -o ./never.ply made/legs.ply
    puzzled -o never.ply -l never.list -f made/../never.list made/legs.ply
    ./shellfix -a made/whole.list -h | head -n 1
} >found
diff found "$here/tests/cases/mending/shellfix.out" || exit 1
[ "$before" = "$(ls -la made)" ] && [ ! -e never.ply ] && [ ! -e never.txt ] && [ ! -e never.list ] || exit 1

# Shells that lose faces in each pass: shellfix writes the list that the documents say, and that list writes the file that the repair writes. The empty list
# writes a scan as it is.
./shellfix -a made/nothing.list -o scans/by-admesh.ply made/by-admesh.stl >/dev/null
[ $? -eq 3 ] || exit 1
for scan in scans/*.ply; do
    ./mending list 1e-12 "$scan" >wanted.list && ./shellfix -o mended.ply -l "$scan.list" "$scan" >/dev/null || exit 1
    cmp wanted.list "$scan.list" || { echo "mending: the list of $scan"; exit 1; }
    ./shellfix --apply "$scan.list" -o applied.ply "$scan" >/dev/null && cmp mended.ply applied.ply || { echo "mending: $scan"; exit 1; }
done
./shellfix -o mended.ply -l list made/by-admesh.stl >/dev/null && ./shellfix -a list -o applied.ply made/by-admesh.stl >found || exit 1
cmp mended.ply applied.ply && grep -qx 'applied: 105 faces turned over' found || exit 1

# With some lines struck a list applies where it then names no point that a face has; what it makes may be sound or not, and is written.
python3 "$here/tests/mending.py" strike scans/*.list || exit 1
for scan in scans/*.ply; do
    rm -f applied.ply
    ./shellfix -a "$scan.list.struck" -o applied.ply "$scan" >found
    status=$?
    echo "$status"
    case $status in
    0 | 3) [ -e applied.ply ] ;;
    1) [ ! -e applied.ply ] && tail -n 1 found | grep -qE 'is not isolated: face [0-9]+ has it$' ;;
    *) false ;;
    esac || { echo "mending: $scan.list.struck"; cat found; }
done >statuses
! grep -v '^[013]$' statuses || exit 1
for status in 0 1 3; do
    grep -q $status statuses || exit 1
done

# Long lists: no step may look at each pair of lines, faces or points.
python3 "$here/tests/mending.py" large large || exit 1
for name in drops splits; do
    ./shellfix -a large/$name.list -o applied.ply large/$name.ply 2>/dev/null
    cmp applied.ply large/$name.wanted || exit 1
done >found
diff found - <<'WANTED' || exit 1
read: 524289 points, 262144 faces
list: 786429 lines
applied: 262143 thin faces dropped, 524286 isolated points dropped
mended: 3 points, 1 faces
sound: yes
3 edges, 1 boundary loops
written: 257 bytes to applied.ply
read: 1 points, 65536 faces
list: 327681 lines
applied: 196608 points split off, 131073 isolated points dropped
mended: 65536 points, 65536 faces
sound: no
65536 faces that repeat a corner; the first is face 0, with corners 0 0 0
65536 directed edges that are walked more than once; the first leads from point 0 at 0 0 0 to point 0 at 0 0 0, and face 0 walks it more than once
65536 points where several surfaces touch; the first is point 0 at 0 0 0, whose faces form 3 groups
edges refused, number 7, place 0: an edge occurs more than twice; its position among the sorted edges
written: 2425012 bytes to applied.ply
WANTED
./shellfix -o mended.ply -l listed large/scan.ply >/dev/null 2>&1 && ./shellfix -a listed -o applied.ply large/scan.ply >/dev/null 2>&1 || exit 1
cmp mended.ply applied.ply && [ "$(cut -c 1 listed | uniq | tr -d '\n')" = dodsu ] || exit 1
rm -r large

# Where writing fails shellfix ends with status 2 and a reason; nothing in its folder is changed, and nothing is new.
mkdir there && cd there && cp ../made/every.ply . || exit 1
for name in old.ply old.list old.origins; do
    echo "what was there" >$name
done
mkdir folder && ln -s none dangling || exit 1
# What stands in the folder.
seen() { ls -laR . | grep -v ' \.\.*$' && cat old.*; }
# Runs $2.. and wants it to end with status 2 and the reason $1.
fails() {
    local reason=$1 before
    shift
    before=$(seen)
    "$@" >../printed 2>../said
    [ $? -eq 2 ] && grep -qF "$reason" ../said && ! grep -q '^written' ../printed && [ "$before" = "$(seen)" ] && return
    echo "mending: $*: not noticed as '$reason':"
    cat ../said
    exit 1
}
for output in '' '-o old.ply' '-o new.ply -f old.origins'; do
    # Without quotes: some words or none.
    fails 'cannot write folder: Is a directory' ../shellfix $output -l folder every.ply
    fails 'cannot write nowhere/list: No such file or directory' ../shellfix $output --list nowhere/list every.ply
    fails 'cannot write dangling: No such file or directory' ../shellfix $output -w --list dangling every.ply
done
fails 'cannot write nowhere/out.ply: No such file or directory' ../shellfix -o nowhere/out.ply -l old.list every.ply
fails 'cannot write folder: Is a directory' ../shellfix -f folder -l new.list every.ply
# Runs $1.. on a disk that is full after some kilobytes: the list of a repair that drops every face is longer.
full() { (trap '' XFSZ && ulimit -f 8 && exec "$@"); }
fails 'cannot write old.list: File too large' full ../shellfix -l old.list -f old.origins ../made/repeating.ply
fails 'cannot write new.list: File too large' full ../shellfix -l new.list ../made/repeating.ply

# Written lists: one keeps its mode, and what a link leads to gets the lines, also where that is a pipe; the link stays.
chmod 640 old.list && ln -s old.list link && ln -s /proc/self/fd/1 standard || exit 1
../shellfix -o old.ply -l link every.ply >/dev/null || exit 1
[ -L link ] && cmp old.list ../made/every.list && [ "$(stat -c %a old.list)" = 640 ] || exit 1
../shellfix -l standard every.ply | sort >../printed
[ -L standard ] && [ "$(grep -cxFf old.list ../printed)" = 13 ] || exit 1
[ "$(ls)" = "$(printf '%s\n' dangling every.ply folder link old.list old.origins old.ply standard)" ] || exit 1
cd ..

# A library with a fault: it refuses a list at another line than the first bad one.
cat >fault.c <<'LIBRARY'
#include "shell.h"
ShellApplied faulty_apply(const double *points, size_t points_len, const uint32_t *faces, size_t faces_len, const uint8_t *text, size_t text_len,
                          double *out, size_t out_len, uint32_t *out_faces, size_t out_faces_len, uint32_t *work, size_t work_len) {
    ShellApplied found = shell_apply(points, points_len, faces, faces_len, text, text_len, out, out_len, out_faces, out_faces_len, work, work_len);
    found.number = SHELL_BAD_LIST;
    found.place++;
    return found;
}
LIBRARY
gcc "${flags[@]}" -Dshell_apply=faulty_apply -c -o shellfix.o "$here/host/shellfix.c" || exit 1
gcc "${flags[@]}" -o faulty shellfix.o fault.c "$here"/host/{keys,faults,lists}.c libshell.a || exit 1
for name in whole used; do
    told ./faulty -a made/$name.list made/legs.ply
done >found
diff found - <<'WANTED' || exit 1
read: 5 points, 3 faces
list: 3 lines
apply refused, number 15, place 1: the list does not apply; its first bad line, from 0
the library does not apply the list, and shellfix finds nothing wrong with that line: one of them has a fault
exit status 1
read: 5 points, 3 faces
list: 1 lines
apply refused, number 15, place 1: the list does not apply; its first bad line, from 0
the library does not apply the list, and shellfix finds nothing wrong with that line: one of them has a fault
exit status 1
WANTED

if can_watch; then
    watched=(valgrind -q --error-exitcode=9 --leak-check=full --errors-for-leak-kinds=definite)
    "${watched[@]}" ./mending 50 || exit 1
    "${watched[@]}" ./shellfix -w -a made/every.list -o out.ply made/every.ply >/dev/null || exit 1
    "${watched[@]}" ./shellfix -w -l list -o out.ply made/every.ply >/dev/null || exit 1
    "${watched[@]}" ./shellfix -l list made/empty.ply >/dev/null || exit 1
    for name in no-newline many-splits; do
        "${watched[@]}" ./shellfix -a made/$name.list made/legs.ply >/dev/null
        [ $? -eq 1 ] || exit 1
    done
else
    echo "mending: no valgrind here, so the rooms' neighbours are not watched"
fi
