#!/usr/bin/env bash
# Writes the machine code of a proved crate to a folder: bash host/made.sh CRATE FOLDER
# Of a static library that is libCRATE.a; of a program CRATE and CRATE.o, with libos_c.a and liblibc_c.a, which the latter is linked with.
#
# `rt ci` leaves the libraries that it proved in crates/*/out/rlib, but no static library and not every object file, and `rt lib` and `rt run` build on none of
# its libraries: they would prove them again. So where these are known to be of the files that stand here, the crate alone is proved and compiled over them, by
# the words with which rt does it. Where they are not, `rt lib` or `rt run` is called, which proves what lies below if nothing of it is kept.
# They are known by a note in target/, which the gate takes: `bash host/made.sh --before` prints a word before `rt ci`, and `bash host/made.sh --after WORD` goes
# behind one that passed.
# What was made is kept in target/made, and made anew where a file of a crate or the kit is another.
set -eu
usage() { echo "usage: bash host/made.sh CRATE FOLDER | --before | --after WORD"; exit 2; }
case $#:${1:-} in
1:--before | 2:--after) ;;
2:[a-z]*) to=$(mkdir -p "$2" && cd "$2" && pwd) ;;
*) usage ;;
esac
cd "$(dirname "${BASH_SOURCE[0]}")/.."

# A sum of all files that are named on standard input, with their names.
sum() { LC_ALL=C sort -z | xargs -0 -r sha256sum | sha256sum | cut -d' ' -f1; }
# Of the kit and of what the crates are made from, and of the libraries that stand in out/.
sources() { { rt version; find crates crates.txt -path 'crates/*/out' -prune -o -type f -print0 | sum; } | sha256sum | cut -d' ' -f1; }
libraries() { find crates/*/out/rlib -type f -print0 2>/dev/null | sum; }

# With no library in out/, those that stand there afterwards are all of `rt ci`, which else puts back what stood there.
case $1 in
--before)
    compgen -G 'crates/*/out/rlib' >/dev/null && echo none || sources
    exit
    ;;
--after)
    [ "$2" = "$(sources)" ] || exit 0
    mkdir -p target
    echo "$2 $(libraries)" >target/ci.sum
    exit
    ;;
esac

crate=$1
[ -d "crates/$crate/src" ] || { echo "made: there is no crate $crate"; exit 2; }
kit=$(dirname "$(rt doc)")
files=("lib$crate.a")
[ ! -f "crates/$crate/src/main.rt" ] || files=("$crate.o" "$crate")
made=$PWD/target/made log=$PWD/target/made/$crate.log
mkdir -p "$made"

# What was made, as a sum, with what it was made from.
from() { { sources; (cd "$made" && sha256sum "${files[@]}" 2>/dev/null); } | sha256sum | cut -d' ' -f1; }

# What a line of crates.txt names of the repository and of the kit, and all libraries of the repository below a crate.
named() { sed -n "s/#.*//; s/^$1\( [a-z0-9_= ]*\)\?:\(.*\)/\2/p" crates.txt; }
below() {
    local name
    for name in $(named "$1"); do
        [ ! -d "crates/$name" ] || { echo "$name"; below_once "$name"; }
    done
}
below_once() {
    case " $seen " in *" $1 "*) return ;; esac
    seen="$seen $1"
    below "$1"
}

# Proves and compiles the crate over what `rt ci` left.
compile() {
    local name words seen=''
    words=(--crate-name "$crate" "src/lib.rt" --extern "std=$kit/rlibs/std.rlib" -L "dependency=$kit/rlibs")
    [ ! -f "crates/$crate/src/main.rt" ] || words[2]=src/main.rt
    for name in $(named "$crate"); do
        [ -d "crates/$name" ] && words+=(--extern "$name=$PWD/crates/$name/out/rlib/$name.rlib") || words+=(--extern "$name=$kit/rlibs/$name.rlib")
    done
    below "$crate" >"$made/$crate.below"
    while read -r name; do
        words+=(-L "dependency=$PWD/crates/$name/out/rlib")
    done < <(sort -u "$made/$crate.below")
    rm "$made/$crate.below"
    words+=(--antt-project "$kit/rattle/logic/antt-project.json" --logic-built "$kit/logic_built" --jobs 2 --toolchain "$kit/toolchain" --backend llvm)
    [ -f "crates/$crate/src/main.rt" ] || words+=(--crate-type staticlib)
    (cd "crates/$crate" && "$kit/bin/rattle" build "${words[@]}" -o "$made/${files[0]}") >"$log" 2>&1 && grep -q '^logic=proved ' "$log" || return 1
    [ "${#files[@]}" -eq 1 ] ||
        "$kit/bin/rattle-link" --target x86_64-unknown-linux-gnu --toolchain "$kit/toolchain" -o "$made/$crate" "$made/$crate.o" "$kit"/c/lib{os,libc}_c.a >>"$log" 2>&1
}

# The same by rt.
ask() {
    local verb=lib name
    [ "${#files[@]}" -eq 1 ] || verb=run
    (cd "crates/$crate" && rt $verb) </dev/null >"$log" 2>&1 || return 1
    for name in "${files[@]}"; do
        cp "crates/$crate/out/$name" "$made/$name" || return 1
    done
}

if [ "$(cat "$made/$crate.sum" 2>/dev/null)" != "$(from)" ]; then
    rm -f "$made/$crate.sum" "${files[@]/#/$made/}"
    if [ "$(cat target/ci.sum 2>/dev/null)" = "$(sources) $(libraries)" ]; then
        compile || { tail -n 5 "$log"; echo "made: $crate was not made over what rt ci left, so rt makes it, and all below it"; rm -f target/ci.sum; }
    fi
    [ -f target/ci.sum ] && [ -f "$made/${files[-1]}" ] || ask || { tail -n 20 "$log"; exit 1; }
    from >"$made/$crate.sum"
fi
cp "${files[@]/#/$made/}" "$to/"
[ "${#files[@]}" -eq 1 ] || cp "$kit"/c/lib{os,libc}_c.a "$to/"
