#!/usr/bin/env bash
# Which entries of its rooms a repair stores. No contract can see a store, so they are counted on the compiled library: valgrind's lackey lists every one, and a
# face before the first fault of any pass must be stored once, by the copy into the room; one after it once more for each pass that drops a face before it; a
# corner in passes 5 and 6 only where its number changes; points likewise; and an origin before the first face that leaves once, one after it once more for each
# pass that drops a face before it (host/stores.c, tests/stores.py). The counter is tried on a list of stores that is known, and on stand-ins that close up in
# the sparing way and in the plain one.
#
# Without valgrind the faces before the first that leaves are put on read-only pages, and what closes up is called alone (host/pages.c), from the bench library.
# That watch is tried on right and wrong stand-ins in any case. VALGRIND=none takes this way where valgrind is there.
set -u
here=$(cd "$(dirname "${BASH_SOURCE[0]}")/.." && pwd)
. "$here/tests/machine.sh" || exit 1
room=$(mktemp -d) || exit 1
trap 'rm -rf "$room"' EXIT
cd "$room" || exit 1
flags=(-std=c11 -Wall -Wextra -Wpedantic -Werror -O2 -g -I.)
valgrind=${VALGRIND:-valgrind}
# Under an emulator it is a valgrind for x86-64, too.
if [ -n "$emulated" ] && [ "$valgrind" = valgrind ]; then
    unpacked=/usr/local/lib/valgrind-x86-64
    bash "$here/tests/unpack.sh" valgrind $unpacked
    valgrind=$unpacked/usr/bin/valgrind.bin
    export VALGRIND_LIB=$unpacked/usr/libexec/valgrind
fi

# Counts the stores of the library, and judges them.
count() {
    bash "$here/host/build.sh" . && gcc "${flags[@]}" -o stores "$here/host/stores.c" libshell.a || return 1
    "$valgrind" --tool=lackey --trace-mem=yes --basic-counts=no --log-fd=9 ./stores 9>&1 >told | LC_ALL=C grep '^ [SM] ' >listed
    [ "${PIPESTATUS[0]}" -eq 0 ] || { echo "stores: host/stores ended badly"; return 1; }
    python3 "$here/tests/stores.py" judge told listed
}

# Closes lists up on read-only pages, by what is given to link. Returns the status of host/pages, and puts what it says in the file `said`.
watch() {
    gcc "${flags[@]}" -o pages "$here/host/pages.c" "$@" || return 2
    ./pages >said
}

# Tries the watch on a stand-in that begins so many faces before the first that leaves: if that is 0 every list must be closed up rightly, else none.
try_watch() {
    local status wrong=$(($1 == 0 ? 0 : 5))
    watch "-DEARLY=$1" leaf.c
    status=$?
    [ "$status" -eq 77 ] && return 77
    [ "$status" -eq $((wrong != 0)) ] && [ "$(tail -n 1 said)" = "pages: 5 lists, $wrong closed up not as they must be" ] && return
    echo "stores: a stand-in that begins $1 faces early: status $status, and"
    cat said
    return 1
}

python3 "$here/tests/stores.py" self || exit 1
cat >leaf.c <<'END_OF_LEAF'
#include <stddef.h>
#include <stdint.h>

size_t bench_retain(uint32_t *faces, size_t faces_len, const uint32_t *work, size_t work_len, size_t flags, size_t n);

/* Keeps the faces whose flag is 0, and stores them, from EARLY places before the first that leaves on. */
size_t bench_retain(uint32_t *faces, size_t faces_len, const uint32_t *work, size_t work_len, size_t flags, size_t n) {
    size_t i = 0, early = EARLY;
    while (i < n && work[flags + i] == 0)
        i++;
    i = i < early ? 0 : i - early;
    size_t m = i;
    for (; i < n && 3 * i < faces_len && flags + i < work_len; i++)
        if (work[flags + i] == 0) {
            for (size_t j = 0; j < 3; j++)
                *(volatile uint32_t *)(faces + 3 * m + j) = faces[3 * i + j];
            m++;
        }
    return m;
}
END_OF_LEAF
watched=yes
for early in 0 1 1000000; do
    try_watch "$early"
    case $? in
    0) ;;
    77) watched=no ;;
    *) exit 1 ;;
    esac
done

if command -v "$valgrind" >/dev/null; then
    count
    exit
fi
echo "stores: no valgrind here, so what closes up is called alone, on read-only pages"
[ "$watched" = yes ] || exit 77
bash "$here/host/made.sh" bench . || exit 1
watch libbench.a
status=$?
cat said
exit "$status"
