#!/usr/bin/env bash
# PLY: what the calls read and write of hard and random meshes is what a reader and a writer in Python find, bit by bit, there and back, in rooms of every
# kind; files that are not of the form, and meshes that are refused, are refused as they must be. shellfix mends such a file from disk and writes one, notices
# where it cannot, and says of a file that it does not read which line of the header differs. Other programs read what is written, where they are.
set -u
here=$(cd "$(dirname "${BASH_SOURCE[0]}")/.." && pwd)
. "$here/tests/machine.sh" || exit 1
room=$(mktemp -d) || exit 1
trap 'rm -rf "$room"' EXIT
bash "$here/host/build.sh" "$room" || exit 1
cd "$room" || exit 1
flags=(-std=c11 -Wall -Wextra -Wpedantic -Werror -O2 -g -I.)
gcc "${flags[@]}" -o ply "$here/host/ply.c" libshell.a || exit 1
gcc "${flags[@]}" -o shellfix "$here"/host/{shellfix,keys,faults,lists}.c libshell.a || exit 1

# Both directions.
python3 "$here/tests/ply.py" make made || exit 1
./ply read made/*.ply >found || exit 1
python3 "$here/tests/ply.py" expect made/*.ply >wanted || exit 1
cmp found wanted || exit 1
./ply write made/*.mesh >written || exit 1
python3 "$here/tests/ply.py" written made/*.mesh >wanted || exit 1
cmp written wanted || exit 1
for number in '13 0' '2 0' '2 1' '14 0' '14 3' '4 0' '4 3' '5 0' '5 1'; do
    grep -q "^file .* refused $number\$" found || exit 1
done
for number in '1 0' '1 1' '2 1' '4 0' '4 3' '5 0' '5 1'; do
    grep -q "^mesh .* refused $number\$" written || exit 1
done
[ "$(grep -c ' points ' found)" -gt 60 ] && [ "$(grep -c ' bytes ' written)" -gt 60 ] || exit 1

# Says what shellfix printed, errors too, and its exit status.
fixed() {
    ./shellfix "$@" 2>&1
    echo "exit status $?"
}

# Says how shellfix begins to answer words that it does not understand. It must go on with its usage, print nothing else, and end with status 2.
puzzled() {
    ./shellfix "$@" 2>said >printed
    [ $? -eq 2 ] && [ ! -s printed ] && grep -q '^usage: shellfix' said || echo "another answer to $*"
    head -n 1 said
}

# Whether two files are the same, in words.
same() { cmp -s "$1" "$2" && echo "the same" || echo "$1 and $2 differ"; }

python3 "$here/tests/ply.py" shell . || exit 1
cp "$here"/tests/cases/ply/*.ply "$here"/tests/cases/stl/by-admesh.stl . || exit 1
{
    fixed -o out.ply bowtie.ply
    same out.ply bowtie-mended.ply
    fixed good.ply --output=again.ply
    same again.ply good.ply
    fixed --output admesh.ply by-admesh.stl
    fixed admesh.ply -o admesh.ply
    fixed -o none.ply empty.ply
    same none.ply empty.ply
    fixed --threshold=0.5 bowtie.ply
    for name in carriage-returns carriage-return comment long-comment float index leading-zero no-count forty-digits one-less one-more only-ply half-a-header \
        without-newline more-faces four-corners nan negative too-many by-cgal by-meshio by-assimp; do
        fixed -o never.ply $name.ply
    done
    [ ! -e never.ply ] || echo "a file was written for one that is refused"
    ./shellfix --help
    echo "exit status $?"
    ./shellfix -h good.ply | head -n 1
    puzzled
    puzzled -o
    puzzled good.ply --output
    puzzled good.ply --threshold
    puzzled --outpu
    puzzled --mend good.ply
    puzzled --help=yes
    puzzled -o one.ply -o two.ply good.ply
    puzzled -o out.ply -xs 0.5 good.ply
    puzzled good.ply empty.ply
} >found
[ ! -e one.ply ] && [ ! -e two.ply ] || exit 1
diff found "$here/tests/cases/ply/shellfix.out" || exit 1

# Where writing fails shellfix ends with status 2 and a reason; nothing in its folder is changed, and nothing is new.
mkdir there && cd there && cp ../grid.ply . || exit 1
echo "what was there" >old.ply
mkdir folder
# Runs $2.. and wants it to end with status 2 and the reason $1.
fails() {
    local reason=$1 before
    shift
    before=$(ls -laR . | grep -v ' \.\.*$'; cat old.ply)
    "$@" >../printed 2>../said
    [ $? -eq 2 ] && grep -qF "$reason" ../said && [ "$before" = "$(ls -laR . | grep -v ' \.\.*$'; cat old.ply)" ] && return
    echo "ply: $*: not noticed as '$reason':"
    cat ../said
    exit 1
}
# A device that is always full: one of this test's own where the user may change /dev, since a wrong shellfix could put a file in its place.
device=/dev/full
if [ -w /dev ]; then
    device=../full
    mknod ../full c 1 7 2>/dev/null
fi
if [ -c "$device" ] && (echo >"$device") 2>&1 | grep -q 'No space left'; then
    fails "cannot write $device: No space left on device" ../shellfix -o "$device" grid.ply
    [ -c "$device" ] || exit 1
else
    echo "ply: no device here that is always full, so only a limit of the file's length stands for it"
fi
fails 'cannot write folder: Is a directory' ../shellfix -o folder grid.ply
fails 'cannot write nowhere/out.ply: No such file or directory' ../shellfix -o nowhere/out.ply grid.ply
fails 'cannot write old.ply/out.ply: Not a directory' ../shellfix -o old.ply/out.ply grid.ply
fails 'cannot write : No such file or directory' ../shellfix -o '' grid.ply
# Runs $1.. on a disk that is full after some kilobytes: the file is longer.
full() { (trap '' XFSZ && ulimit -f 8 && exec "$@"); }
fails 'cannot write old.ply: File too large' full ../shellfix -o old.ply grid.ply
fails 'cannot write new.ply: File too large' full ../shellfix -o new.ply grid.ply
if [ "$(id -u)" -ne 0 ]; then
    chmod a-w old.ply
    fails 'cannot write old.ply: Permission denied' ../shellfix -o old.ply grid.ply
    chmod u+w old.ply && chmod a-w .
    fails 'cannot write old.ply: Permission denied' ../shellfix -o old.ply grid.ply
    chmod u+w .
fi
# Runs $1.. so that what it prints goes to a full disk.
unprinted() { "$@" >/dev/full; }
fails 'cannot print: No space left on device' unprinted ../shellfix grid.ply
fails 'cannot print: No space left on device' unprinted ../shellfix --help
fails 'cannot print: No space left on device' unprinted ../shellfix ../comment.ply

# Written files: one keeps its mode, a link leads to it still, a file beside it that has the first name for the unfinished one is kept, a pipe gets the bytes.
chmod 640 old.ply && ln -s old.ply link.ply && echo "another's" >old.ply.part || exit 1
../shellfix -o link.ply ../bowtie.ply >/dev/null || exit 1
[ -L link.ply ] && cmp old.ply ../bowtie-mended.ply && [ "$(stat -c %a old.ply)" = 640 ] && [ "$(cat old.ply.part)" = "another's" ] || exit 1
(umask 027 && ../shellfix -o new.ply ../bowtie.ply >/dev/null) || exit 1
[ "$(stat -c %a new.ply)" = 640 ] && cmp new.ply ../bowtie-mended.ply || exit 1
mkfifo pipe && { cat pipe >piped & } && ../shellfix -o pipe ../bowtie.ply >/dev/null && wait $! && cmp piped ../bowtie-mended.ply || exit 1
[ "$(ls)" = "$(printf '%s\n' folder grid.ply link.ply new.ply old.ply old.ply.part pipe piped)" ] || exit 1
cd ..

# Other programs, where they are or can be installed: CGAL and meshio read every bit and write it again, assimp keeps single precision. It loses its place where
# the body begins with byte 10.
files=(grid.ply bowtie.ply bowtie-mended.ply made/hard.ply made/repeated.ply made/newlines.ply made/random-{1,2,3,4,5,6,7,8,9}.ply)
# Whether CGAL's headers are here.
has_cgal() { echo '#include <CGAL/version.h>' | own g++ -fsyntax-only -x c++ - 2>/dev/null; }
# Whether some Python here has meshio, and which.
meshio_python() {
    for python in python3 /usr/bin/python3; do
        "$python" -c 'import meshio' 2>/dev/null && return
    done
    false
}
if ! { has_cgal && meshio_python && command -v assimp >/dev/null; }; then
    bash "$here/tests/install.sh" libcgal-dev python3-meshio assimp-utils
fi
if has_cgal && own g++ -O1 -DNDEBUG -std=c++17 -o cgal_ply "$here/bench/cgal_ply.cpp" -lgmp -lmpfr 2>/dev/null; then
    for file in "${files[@]}"; do
        ./cgal_ply "$file" by-cgal.ply >/dev/null && python3 "$here/tests/ply.py" body "$file" by-cgal.ply || exit 1
    done
else
    echo "ply: no CGAL here, so it reads and writes nothing of ours"
fi
if meshio_python; then
    "$python" "$here/tests/ply.py" meshio "${files[@]}" || exit 1
else
    echo "ply: no meshio here, so it reads and writes nothing of ours"
fi
if command -v assimp >/dev/null; then
    for file in grid.ply bowtie.ply bowtie-mended.ply made/hard.ply; do
        assimp export "$file" by-assimp.ply -fplyb >/dev/null && python3 "$here/tests/ply.py" rounded "$file" by-assimp.ply || exit 1
    done
else
    echo "ply: no assimp here, so it reads nothing of ours"
fi

if can_watch; then
    watched=(valgrind -q --error-exitcode=9 --leak-check=full --errors-for-leak-kinds=definite)
    "${watched[@]}" ./ply read made/random-1*.ply made/empty.ply made/head-*.ply made/count-*.ply made/bad-*.ply >/dev/null || exit 1
    "${watched[@]}" ./ply write made/random-1*.mesh made/empty.mesh made/lengths-*.mesh made/far-*.mesh >/dev/null || exit 1
    "${watched[@]}" ./shellfix -o out.ply bowtie.ply >/dev/null || exit 1
    "${watched[@]}" ./shellfix comment.ply >/dev/null
    [ $? -eq 1 ] || exit 1
else
    echo "ply: no valgrind here, so the rooms' neighbours are not watched"
fi
