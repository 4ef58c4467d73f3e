#!/usr/bin/env bash
# Binary STL: what the call reads of files at the limits, of random ones and of files that other programs wrote is what a reader in Python finds, corner by
# corner, with every room as it must be; and shellfix mends such a file from disk, says of its degenerate faces how many there were of each kind, and says how
# many edges there are also where the loops are refused.
set -u
here=$(cd "$(dirname "${BASH_SOURCE[0]}")/.." && pwd)
. "$here/tests/machine.sh" || exit 1
room=$(mktemp -d) || exit 1
trap 'rm -rf "$room"' EXIT
bash "$here/host/build.sh" "$room" || exit 1
cd "$room" || exit 1
flags=(-std=c11 -Wall -Wextra -Wpedantic -Werror -O2 -g -I.)
gcc "${flags[@]}" -o corners "$here/host/corners.c" libshell.a || exit 1
gcc "${flags[@]}" -o shellfix "$here"/host/{shellfix,keys,faults,lists}.c libshell.a || exit 1

# Files of the tests' own writer, and those of other programs that are stored.
python3 "$here/tests/stl.py" make made || exit 1
cp "$here"/tests/cases/stl/*.stl made/ || exit 1
./corners made/*.stl >found || exit 1
python3 "$here/tests/stl.py" expect made/*.stl >wanted || exit 1
cmp found wanted || exit 1
[ "$(grep -c '^file' found)" -gt 100 ] || exit 1

# The same shell by the program itself, where it is or can be installed.
if ! command -v admesh >/dev/null; then
    bash "$here/tests/install.sh" admesh
fi
if command -v admesh >/dev/null; then
    python3 "$here/tests/stl.py" ascii text.stl || exit 1
    admesh --no-check --write-binary-stl=written.stl text.stl >/dev/null || exit 1
    python3 "$here/tests/stl.py" same text.stl written.stl || exit 1
    ./corners written.stl >found || exit 1
    python3 "$here/tests/stl.py" expect written.stl >wanted || exit 1
    cmp found wanted || exit 1
else
    echo "stl: no admesh here, so only its stored file is read"
fi

# Says what shellfix printed, and its exit status.
fixed() {
    ./shellfix "$@" 2>/dev/null
    echo "exit status $?"
}

# Says how shellfix begins to answer words that it does not understand. It must go on with its usage, print nothing else, and end with status 2.
puzzled() {
    ./shellfix "$@" 2>said >printed
    [ $? -eq 2 ] && [ ! -s printed ] && grep -q '^usage: shellfix' said || echo "another answer to $*"
    head -n 1 said
}
# What shellfix says of meshes whose loops are refused: none comes out of its repair, so they are given to the function that counts edges and loops.
cat >untied.c <<'END'
#define main shellfix
#include "shellfix.c"
#undef main

/* Counts the edges and loops of so many of the points and faces in a dirty work room, and says whether that was good. */
static void untied(const char *what, size_t points, const uint32_t *faces, size_t count) {
    static double at[] = {0, 0, 0, 1, 0, 0, 0, 1, 0, -1, 0, 0.1f, 0, -1, 0};
    uint32_t corners[12], work[SHELL_WORK_ROOM(5, 4)];
    memcpy(corners, faces, 12 * count);
    memset(work, 0x5a, sizeof work);
    Mesh mesh = {at, corners, points, count, 0};
    printf("%s\n", what);
    printf("good: %d\n", count_edges(&mesh, work, SHELL_WORK_ROOM(points, count)));
}

int main(void) {
    untied("a bowtie", 5, (const uint32_t[]){0, 1, 2, 0, 3, 4}, 2);
    untied("a bowtie at vertex 3", 5, (const uint32_t[]){0, 1, 3, 3, 4, 2}, 2);
    untied("an edge walked twice the same way", 4, (const uint32_t[]){0, 1, 2, 0, 1, 3}, 2);
    untied("three faces on an edge", 5, (const uint32_t[]){0, 1, 2, 0, 1, 3, 0, 1, 4}, 3);
    untied("two faces on an edge", 4, (const uint32_t[]){0, 1, 2, 0, 3, 1}, 2);
    untied("a closed shell", 4, (const uint32_t[]){0, 2, 1, 0, 1, 3, 1, 2, 3, 2, 0, 3}, 4);
    return 0;
}
END
gcc "${flags[@]}" "-I$here/host" -o untied untied.c "$here"/host/{keys,faults,lists}.c libshell.a || exit 1
{
    fixed made/by-admesh.stl
    fixed made/by-assimp.stl
    fixed made/none.stl
    fixed made/ascii.stl
    fixed made/one-facet-too-many.stl
    fixed made/payload-7.stl
    fixed made/no-such-file.stl
    fixed made/kinds.stl
    for threshold in 0 -0 1e-400 1e-12 0.0009 0.001 0x1p-9 1; do fixed -s $threshold made/kinds.stl; done
    fixed made/kinds.stl -s 0.001
    fixed -s 0.5 made/by-admesh.stl
    puzzled
    for threshold in nan 1.0000000000000002 -1e-300 inf 1e400 '' ' 0.5' 0.5x 1e-12,5 zero; do puzzled -s "$threshold" made/kinds.stl; done
    puzzled made/kinds.stl -s
    puzzled -t 0.5 made/kinds.stl
    puzzled made/kinds.stl made/none.stl
    ./untied
} >found
diff found "$here/tests/cases/stl/shellfix.out" || exit 1

if can_watch; then
    valgrind -q --error-exitcode=9 ./corners made/random-1*.stl made/zeros.stl made/subnormals.stl made/payload-*.stl >/dev/null || exit 1
    valgrind -q --error-exitcode=9 --leak-check=full --errors-for-leak-kinds=definite ./shellfix -s 0.001 made/kinds.stl >/dev/null || exit 1
    valgrind -q --error-exitcode=9 --leak-check=full --errors-for-leak-kinds=definite ./shellfix made/by-admesh.stl >/dev/null || exit 1
    valgrind -q --error-exitcode=9 --leak-check=full --errors-for-leak-kinds=definite ./untied >/dev/null || exit 1
else
    echo "stl: no valgrind here, so the rooms' neighbours are not watched"
fi
