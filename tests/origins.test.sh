#!/usr/bin/env bash
# Where the faces of a mended shell come from: the origins of meshes that are known, with options of every kind, in rooms of every length (host/origins.c); and
# the list that `shellfix --origins` writes, word for word for small shells, and for others followed back to the scan by a reader in Python. Where it cannot be
# written that is noticed, and nothing is changed, the mended shell neither.
set -u
here=$(cd "$(dirname "${BASH_SOURCE[0]}")/.." && pwd)
. "$here/tests/machine.sh" || exit 1
room=$(mktemp -d) || exit 1
trap 'rm -rf "$room"' EXIT
bash "$here/host/build.sh" "$room" || exit 1
cd "$room" || exit 1
flags=(-std=c11 -Wall -Wextra -Wpedantic -Werror -O2 -g -I.)
gcc "${flags[@]}" -o origins "$here/host/origins.c" libshell.a || exit 1
gcc "${flags[@]}" -o shellfix "$here"/host/{shellfix,keys,faults,lists}.c libshell.a || exit 1
./origins || exit 1
python3 "$here/tests/origins.py" make made || exit 1
python3 "$here/tests/ply.py" shell plain || exit 1
cp "$here/tests/cases/stl/by-admesh.stl" made/ || exit 1

# Says what shellfix printed, errors too, and its exit status; then what stands in the file of origins, if there is one, which is taken away.
listed() {
    ./shellfix "$@" 2>&1
    echo "exit status $?"
    [ ! -e list ] || { cat list && rm list; }
}

# Says how shellfix begins to answer words that it does not understand. It must go on with its usage, print nothing else, and end with status 2.
puzzled() {
    ./shellfix "$@" 2>said >printed
    [ $? -eq 2 ] && [ ! -s printed ] && grep -q '^usage: shellfix' said || echo "another answer to $*"
    head -n 1 said
}

{
    for name in two-passes three-on-an-edge nothing-left minus-zero empty; do
        listed --origins list made/$name.ply
    done
    listed -f list made/two-passes.stl
    listed made/minus-zero.stl --origins=list -o out.ply
    listed -flist -s 1 made/three-on-an-edge.ply
    listed -f list plain/comment.ply
    listed -f list plain/negative.ply
    listed -f list made/none.ply
    puzzled -f
    puzzled --origins
    puzzled made/empty.ply --origins
    puzzled -f list -f other made/empty.ply
    puzzled -f list --origins other made/empty.ply
    puzzled -c -f list made/empty.ply
    puzzled --check --origins=list made/empty.ply
    puzzled -o list -f list made/empty.ply
    puzzled -o list -f ./list made/empty.ply
    puzzled -o made/list -f made/../made/list made/empty.ply
    echo >made/there && ln -s there made/link && puzzled -o made/link -f made/there made/empty.ply
    puzzled -f made/empty.ply made/empty.ply
    puzzled -f made/../made/empty.ply made/empty.ply
    puzzled -o made/two-passes.ply -f ./made/two-passes.ply made/empty.ply
    [ ! -e list ] && [ ! -e other ] || echo "a list was written"
} >found
diff found "$here/tests/cases/origins/shellfix.out" || exit 1

# Followed back to the scan, from shells that lose faces in each pass; by the file that -o writes the list has its order.
for scan in made/*.ply made/*.stl plain/grid.ply; do
    ./shellfix -o "$scan.mended" -f "$scan.list" "$scan" >/dev/null || { echo "origins: $scan is not mended"; exit 1; }
done
python3 "$here/tests/origins.py" follow made/*.ply made/*.stl plain/grid.ply || exit 1
./shellfix -f alone made/random-2.stl >/dev/null && cmp made/random-2.stl.list alone || exit 1

# Where writing fails shellfix ends with status 2 and a reason; nothing in its folder is changed, and nothing is new.
mkdir there && cd there && cp ../plain/grid.ply . || exit 1
echo "what was there" >old.ply
echo "its origins" >old.list
mkdir folder
# What stands in the folder.
seen() { ls -laR . | grep -v ' \.\.*$' && cat old.ply old.list; }
# Runs $2.. and wants it to end with status 2 and the reason $1.
fails() {
    local reason=$1 before
    shift
    before=$(seen)
    "$@" >../printed 2>../said
    [ $? -eq 2 ] && grep -qF "$reason" ../said && ! grep -q '^written' ../printed && [ "$before" = "$(seen)" ] && return
    echo "origins: $*: not noticed as '$reason':"
    cat ../said
    exit 1
}
# A device that is always full: one of this test's own where the user may change /dev, since a wrong shellfix could put a file in its place.
device=/dev/full
if [ -w /dev ]; then
    device=../full
    mknod ../full c 1 7 2>/dev/null
fi
if [ -c "$device" ] && (echo >"$device") 2>&1 | grep -q 'No space left'; then
    fails "cannot write $device: No space left on device" ../shellfix -f "$device" grid.ply
    fails "cannot write $device: No space left on device" ../shellfix -o old.ply -f "$device" grid.ply
    fails "cannot write $device: No space left on device" ../shellfix -o "$device" -f old.list grid.ply
    [ -c "$device" ] || exit 1
else
    echo "origins: no device here that is always full, so only a limit of the file's length stands for it"
fi
for output in '' '-o old.ply' '-o new.ply'; do
    # Without quotes: two words or none.
    fails 'cannot write folder: Is a directory' ../shellfix $output -f folder grid.ply
    fails 'cannot write nowhere/list: No such file or directory' ../shellfix $output --origins nowhere/list grid.ply
    fails 'cannot write old.list/list: Not a directory' ../shellfix $output -f old.list/list grid.ply
    fails 'cannot write : No such file or directory' ../shellfix $output -f '' grid.ply
done
fails 'cannot write nowhere/out.ply: No such file or directory' ../shellfix -o nowhere/out.ply -f old.list grid.ply
fails 'cannot write folder: Is a directory' ../shellfix -o folder -f new.list grid.ply
# Runs $1.. on a disk that is full after some kilobytes: the list is longer.
full() { (trap '' XFSZ && ulimit -f 8 && exec "$@"); }
fails 'cannot write old.list: File too large' full ../shellfix -f old.list grid.ply
fails 'cannot write new.list: File too large' full ../shellfix -f new.list grid.ply
fails 'cannot write old.ply: File too large' full ../shellfix -o old.ply -f old.list grid.ply
if [ "$(id -u)" -ne 0 ]; then
    chmod a-w old.list
    fails 'cannot write old.list: Permission denied' ../shellfix -o old.ply -f old.list grid.ply
    chmod u+w old.list
fi

# Written lists: one keeps its mode, a link leads to it still, a file that has the first name for the unfinished one is kept, a pipe gets the lines.
../shellfix -f ../wanted grid.ply >/dev/null && [ "$(cat ../wanted)" = "$(seq 0 6961)" ] || exit 1
chmod 640 old.list && ln -s old.list link && echo "another's" >old.list.part || exit 1
../shellfix -o old.ply -f link grid.ply >/dev/null || exit 1
[ -L link ] && cmp old.list ../wanted && [ "$(stat -c %a old.list)" = 640 ] && [ "$(cat old.list.part)" = "another's" ] || exit 1
mkfifo pipe && { cat pipe >piped & } && ../shellfix -f pipe grid.ply >/dev/null && wait $! && cmp piped ../wanted || exit 1
[ "$(ls)" = "$(printf '%s\n' folder grid.ply link old.list old.list.part old.ply pipe piped)" ] || exit 1
cd ..

if can_watch; then
    watched=(valgrind -q --error-exitcode=9 --leak-check=full --errors-for-leak-kinds=definite)
    "${watched[@]}" ./origins || exit 1
    "${watched[@]}" ./shellfix -o mended.ply -f list made/random-3.stl >/dev/null || exit 1
    "${watched[@]}" ./shellfix -f list made/empty.ply >/dev/null || exit 1
else
    echo "origins: no valgrind here, so the rooms' neighbours are not watched"
fi
