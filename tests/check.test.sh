#!/usr/bin/env bash
# shellfix --check: shells from disk are checked as they are. What is printed, word for word, and the exit status are those expected of sound shells, of shells
# with each kind of fault, and of files that are refused; of random shells they are those that a rule in Python gives; and as many faces as there may be at one
# point are judged too. Nothing is written. A library that says no to a sound shell is told to have a fault.
set -u
here=$(cd "$(dirname "${BASH_SOURCE[0]}")/.." && pwd)
. "$here/tests/machine.sh" || exit 1
room=$(mktemp -d) || exit 1
trap 'rm -rf "$room"' EXIT
bash "$here/host/build.sh" "$room" || exit 1
cd "$room" || exit 1
flags=(-std=c11 -Wall -Wextra -Wpedantic -Werror -O2 -g -I.)
gcc "${flags[@]}" -o shellfix "$here"/host/{shellfix,keys,faults,lists}.c libshell.a || exit 1
python3 "$here/tests/check.py" make made || exit 1
python3 "$here/tests/ply.py" shell plain || exit 1
cp "$here/tests/cases/stl/by-admesh.stl" made/ || exit 1

# Says what a shellfix printed, errors too, and its exit status.
checked() {
    "$@" 2>&1
    echo "exit status $?"
}

# Says how shellfix begins to answer words that it does not understand. It must go on with its usage, print nothing else, and end with status 2.
puzzled() {
    ./shellfix "$@" 2>said >printed
    [ $? -eq 2 ] && [ ! -s printed ] && grep -q '^usage: shellfix' said || echo "another answer to $*"
    head -n 1 said
}

before=$(ls -la made)
{
    for name in hourglass bowtie three-bowties one-patch repeated one-corner same-way face-twice three-on-an-edge moebius all-kinds body two-bodies both-sides \
        unused-points no-faces empty bent-header not-a-number no-such-corner; do
        echo "$name.ply"
        checked ./shellfix --check made/$name.ply
    done
    for name in hourglass body by-admesh; do
        echo "$name.stl"
        checked ./shellfix made/$name.stl -c
    done
    checked ./shellfix -c plain/one-less.ply
    checked ./shellfix -c plain/too-many.ply
    checked ./shellfix -c made/none.ply
    puzzled -c
    puzzled -c made/body.ply made/bowtie.ply
    puzzled -c -s 0.5 made/body.ply
    puzzled -c -o out.ply made/body.ply
    puzzled -co out.ply made/body.ply
    puzzled --check=yes made/body.ply
    checked ./shellfix -cc --check made/body.ply
    ./shellfix -ch | head -n 3
} >found
diff found "$here/tests/cases/check/shellfix.out" || exit 1
[ "$before" = "$(ls -la made)" ] && [ ! -e out.ply ] || exit 1

# What is mended is sound, and the hourglass is two bodies then.
./shellfix -o mended.ply made/hourglass.ply >/dev/null && ./shellfix -c mended.ply >found || exit 1
[ "$(cat found)" = "$(printf 'read: 8 points, 8 faces\nsound: yes')" ] || exit 1

# Every shell by a rule in Python.
shells=(made/random-*.ply)
for name in hourglass bowtie three-bowties one-patch repeated one-corner same-way face-twice three-on-an-edge moebius all-kinds body unused-points empty; do
    shells+=(made/$name.ply)
done
for shell in "${shells[@]}"; do
    basename "$shell"
    checked ./shellfix --check "$shell"
done >found
python3 "$here/tests/check.py" told "${shells[@]}" >wanted || exit 1
diff found wanted || exit 1
for line in 'sound: yes' 'faces that repeat' 'directed edges that' 'points where'; do
    [ "$(grep -c "$line" found)" -gt 20 ] || exit 1
done

# As many faces as there may be, all at one point: no step of it may look at each pair of them.
python3 "$here/tests/check.py" large large || exit 1
for name in apart fan fan-and-one; do
    echo "$name"
    ./shellfix -c large/$name.ply 2>/dev/null
    echo "exit status $?"
done >found
diff found - <<'WANTED' || exit 1
apart
read: 2097153 points, 1048576 faces
sound: no
1 points where several surfaces touch; the first is point 0 at 0 0 0, whose faces form 1048576 groups
exit status 3
fan
read: 1048577 points, 1048575 faces
sound: yes
exit status 0
fan-and-one
read: 1048577 points, 1048576 faces
sound: no
3 directed edges that are walked more than once; the first leads from point 0 at 0 0 0 to point 1048575 at 0 0 0, and faces 1048574 and 1048575 walk it
exit status 3
WANTED
rm -r large

# A library with a fault: its check says no whatever the shell is.
cat >fault.c <<'LIBRARY'
#include "shell.h"
ShellCheck faulty_check(uint64_t point_count, const uint32_t *faces, size_t faces_len, uint32_t *work, size_t work_len) {
    ShellCheck found = shell_check(point_count, faces, faces_len, work, work_len);
    found.yes = 0;
    return found;
}
LIBRARY
gcc "${flags[@]}" -Dshell_check=faulty_check -c -o shellfix.o "$here/host/shellfix.c" || exit 1
gcc "${flags[@]}" -o faulty shellfix.o fault.c "$here"/host/{keys,faults,lists}.c libshell.a || exit 1
checked ./faulty --check made/body.ply >found
diff found - <<'WANTED' || exit 1
read: 4 points, 4 faces
sound: no
the library says no, and shellfix finds nothing wrong: one of them has a fault
exit status 3
WANTED

if can_watch; then
    watched=(valgrind -q --error-exitcode=9 --leak-check=full --errors-for-leak-kinds=definite)
    for name in hourglass all-kinds one-corner; do
        "${watched[@]}" ./shellfix -c made/$name.ply >/dev/null
        [ $? -eq 3 ] || exit 1
    done
    "${watched[@]}" ./shellfix -c made/body.ply >/dev/null || exit 1
    "${watched[@]}" ./shellfix -c made/empty.ply >/dev/null || exit 1
    "${watched[@]}" ./shellfix -c made/bent-header.ply >/dev/null
    [ $? -eq 1 ] || exit 1
else
    echo "check: no valgrind here, so the rooms' neighbours are not watched"
fi
