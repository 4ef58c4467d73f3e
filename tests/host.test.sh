#!/usr/bin/env bash
# The library in a C program: the example prints what it must, the header is good for C++, recorded answers come out through the calls with every room as it
# must be, degenerate faces are counted by kind and their sums printed up to the limits, the edges of bowties are listed though their loops are refused, in work
# rooms of every kind, the edge check answers by its rule on every small mesh and what is found wrong is what the rule says, damaged meshes are after a repair
# what is proved of them, with their faces traced by the origins, their mending lists written and applied, in packs what they are alone, and go to a PLY file
# and back, what fuzzing found worth keeping comes out as the documents say, and a call takes no memory but its rooms and no more stack than is promised; a
# sample under valgrind too, so that nothing outside a room is touched.
set -u
here=$(cd "$(dirname "${BASH_SOURCE[0]}")/.." && pwd)
. "$here/tests/machine.sh" || exit 1
room=$(mktemp -d) || exit 1
trap 'rm -rf "$room"' EXIT
bash "$here/host/build.sh" "$room" || exit 1
cd "$room" || exit 1
flags=(-std=c11 -Wall -Wextra -Wpedantic -Werror -O2 -g -ffp-contract=off -I.)
for program in example kinds bowties stack; do
    gcc "${flags[@]}" -o "$program" "$here/host/$program.c" libshell.a -lm || exit 1
done
gcc "${flags[@]}" "-I$here/fuzz" -o replay "$here/host/replay.c" "$here"/fuzz/{passes,uses}.c libshell.a -lm || exit 1
gcc "${flags[@]}" -o chain "$here"/host/{chain,damaged,lists}.c libshell.a || exit 1
gcc "${flags[@]}" -o checks "$here"/host/{checks,faults}.c libshell.a || exit 1
g++ -std=c++17 -Wall -Werror -fsyntax-only -x c++ shell.h || exit 1
# The call that the header itself parts the work room for, in a program of two files, and with no room at all.
cat >list.cpp <<'END'
#include "shell.h"
ShellList listed(uint32_t *work, size_t work_len);
#ifdef OTHER
ShellList listed(uint32_t *work, size_t work_len) { return shell_list(nullptr, 0, nullptr, 0, 0, SHELL_ALL_OPTIONS, nullptr, 0, work, work_len); }
#else
int main() {
    uint32_t work[SHELL_WORK_ROOM(0, 0)] = {1};
    ShellList none = listed(nullptr, 0), there = listed(work, SHELL_WORK_ROOM(0, 0));
    return !(none.number == SHELL_SHORT_ROOM && none.place == 1 && there.number == SHELL_ACCEPTED && there.bytes == 0 && work[0] == 0);
}
#endif
END
plus=(g++ -std=c++17 -Wall -Wextra -Wpedantic -Werror -I.)
"${plus[@]}" -DOTHER -c -o other.o list.cpp && "${plus[@]}" -o list list.cpp other.o libshell.a && ./list || exit 1
# A call takes no memory but its rooms and the stack, and keeps nothing: the library names no function of the system but these, and has no data of its own.
if nm -u libshell.a | sed -n 's/^ *U //p' | grep -vxE 'memset|memcpy|memmove|memcmp|bcmp' || nm libshell.a | grep -E ' [bBcCdD] '; then
    echo "host: the library wants or keeps something"
    exit 1
fi
# The stack, beside what follows. Every shape for small meshes and on both sides of the limits; at the largest size the shape with most points.
few=()
[ -z "$emulated" ] || { few=(--shapes 2) && echo "host: under an emulator a sample, of the random meshes and of the stack's shapes and sizes"; }
{ ./stack "${few[@]}" 0 1 64 682 683 4096 4097 30000 && ./stack --shapes 1 $((1048576 / share)); } >stacked &
stacked=$!
./example >found || exit 1
diff found "$here/host/example.out" || exit 1
./kinds || exit 1
./bowties || exit 1
./checks 100000 || exit 1
# A program that hands the edge call the rooms of the loops too, as edition 2 has it, does not compile; and one that asks for that edition is told so.
cat >both.c <<'END'
#include "shell.h"
#ifdef ASKS
#if SHELL_VERSION != 2
#error "written for edition 2 of shell.h"
#endif
#endif
uint64_t loops(double *points, uint32_t *faces, double *lengths, uint32_t *room);
uint64_t loops(double *points, uint32_t *faces, double *lengths, uint32_t *room) {
    return shell_edges(points, 9, faces, 3, room, 6, lengths, 3, room + 6, 3, room + 9, 3, room + 12, 3, room + 15, 176).loop_ends;
}
END
! gcc "${flags[@]}" -fsyntax-only both.c 2>told && grep -q 'too many arguments' told || exit 1
! gcc "${flags[@]}" -DASKS -fsyntax-only both.c 2>told && grep -q 'written for edition 2' told || exit 1
# A program that hands the repair four rooms, as edition 6 and those before it have it, does not compile, whether it lends ten counts or eleven; and one that
# asks for its edition is told so.
cat >four.c <<'END'
#include "shell.h"
#ifdef ASKS
#if SHELL_VERSION != 6
#error "written for edition 6 of shell.h"
#endif
#endif
uint64_t mended(double *points, uint32_t *faces, double *out, uint32_t *room);
uint64_t mended(double *points, uint32_t *faces, double *out, uint32_t *room) {
    return shell_repair(points, 9, faces, 3, 0, 63, out, 18, room, 3, room + 3, COUNTS, room + 3 + COUNTS, 176).faces;
}
END
for counts in 10 11; do
    ! gcc "${flags[@]}" -DCOUNTS=$counts -fsyntax-only four.c 2>told && grep -q 'too few arguments' told || exit 1
    ! gcc "${flags[@]}" -DCOUNTS=$counts -DASKS -fsyntax-only four.c 2>told && grep -q 'written for edition 6' told || exit 1
    sed 's/room + 3 + COUNTS, 176/room, 1, &/' four.c >five.c
    gcc "${flags[@]}" -DCOUNTS=$counts -fsyntax-only five.c || exit 1
done
# A program that lends ten counts, though it has all five rooms, is told so by its compiler, if it asks for its edition, and by the library.
sed '/^#define SHELL_VERSION /d; s/^#define SHELL_REPORT_ROOM .*/#define SHELL_REPORT_ROOM ((size_t)10)/' shell.h >old.h
sed 's/"shell.h"/"old.h"/' "$here/host/example.c" >old.c
! gcc "${flags[@]}" -fsyntax-only old.c 2>told && grep -q 'written for edition' told || exit 1
sed -i '/^#if SHELL_VERSION/,/^#endif/d' old.c
gcc "${flags[@]}" -o old old.c libshell.a || exit 1
! ./old >found || exit 1
[ "$(cat found)" = "repair: refused 6 at 2" ] || exit 1
./replay "$here/tests/cases/lib.cases.bin" "$here/tests/cases/lib.answers.bin" || exit 1
shared=$here/../shared/cases/open
if [ -d "$shared" ]; then
    ./replay "$shared/lib.cases.bin" "$shared/lib.answers.bin" || exit 1
fi
./chain $((20000 / share)) || exit 1

# The fuzz targets without a fuzzer, on the inputs kept from it. meshfix is asked in this process: its main, read and write have other names here.
bash "$here/host/made.sh" meshfix . || exit 1
objcopy --redefine-sym main=meshfix_main --redefine-sym read=text_read --redefine-sym write=text_write meshfix.o main.o || exit 1
fuzz=$here/fuzz
gcc "${flags[@]}" "-I$fuzz" -DBLOCKS_ANCHOR=shell_line -o calls "$fuzz"/{replay,calls,document,passes,panel,ply,uses,lend,blocks}.c libshell.a -lm || exit 1
gcc "${flags[@]}" "-I$fuzz" -DBLOCKS_ANCHOR=meshfix_main -o text "$fuzz"/{replay,text,blocks}.c main.o libshell.a libos_c.a liblibc_c.a || exit 1
gcc "${flags[@]}" "-I$fuzz" "-I$here/host" -DBLOCKS_ANCHOR=shell_apply -o lists "$fuzz"/{replay,lists,mending,uses,lend,blocks}.c "$here/host/lists.c" \
    libshell.a -lm || exit 1
./calls "$here"/tests/cases/fuzz/calls/* || exit 1
./lists "$here"/tests/cases/fuzz/lists/* || exit 1
./text "$here"/tests/cases/fuzz/text/* "$here"/tests/cases/text/*.txt || exit 1
wait $stacked || { cat stacked; exit 1; }
cat stacked

if can_watch; then
    watched=(valgrind -q --error-exitcode=9)
    "${watched[@]}" ./example >found || exit 1
    diff found "$here/host/example.out" || exit 1
    "${watched[@]}" ./kinds || exit 1
    "${watched[@]}" ./bowties || exit 1
    "${watched[@]}" ./checks 1000 || exit 1
    "${watched[@]}" ./replay "$here/tests/cases/lib.cases.bin" "$here/tests/cases/lib.answers.bin" || exit 1
    "${watched[@]}" ./chain 300 || exit 1
    "${watched[@]}" ./meshfix <"$here/examples/shell.txt" >found || exit 1
    diff found "$here/examples/shell.out" || exit 1
else
    echo "host: no valgrind here, so the rooms' neighbours are not watched"
fi
