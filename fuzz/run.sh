#!/usr/bin/env bash
# Builds a fuzz target with libFuzzer and the address sanitizer and runs it: bash fuzz/run.sh calls|text|lists SECONDS [WORDS for libFuzzer...]
# What it finds worth keeping stands in target/fuzz/NAME.corpus; an input that fails, in target/fuzz. It wants clang with its run-time library (Debian:
# clang, libclang-rt-14-dev). The sanitizer watches the C side; the library's steps beyond a room are seen by the pages around each room.
set -eu
cd "$(dirname "${BASH_SOURCE[0]}")/.."
[ "$(uname -m)" = x86_64 ] || { echo "fuzz: the library is x86-64 code, and clang has no run-time library for that here, on $(uname -m)"; exit 1; }
name=$1 seconds=$2
shift 2
folder=$PWD/target/fuzz
mkdir -p "$folder/$name.corpus"
bash host/build.sh "$folder"
flags=(-std=c11 -Wall -Wextra -Werror -O1 -g -ffp-contract=off -fsanitize=address,fuzzer "-I$folder" -Ifuzz)
case $name in
    calls)
        code=$folder/libshell.a anchor=shell_line
        clang "${flags[@]}" -DBLOCKS_ANCHOR=$anchor -o "$folder/calls" fuzz/{calls,document,passes,panel,ply,uses,lend,blocks}.c "$code" -lm
        words=(-max_len=600 -entropic_scale_per_exec_time=1)
        ;;
    text)
        bash host/made.sh meshfix "$folder"
        code=$folder/main.o anchor=meshfix_main
        objcopy --redefine-sym main=meshfix_main --redefine-sym read=text_read --redefine-sym write=text_write "$folder/meshfix.o" "$code"
        clang "${flags[@]}" -DBLOCKS_ANCHOR=$anchor -o "$folder/text" fuzz/{text,blocks}.c "$code" "$folder"/lib{shell,os_c,libc_c}.a
        words=(-max_len=8300 "-dict=$PWD/fuzz/text.words")
        ;;
    lists)
        code=$folder/libshell.a anchor=shell_apply
        clang "${flags[@]}" -Ihost -DBLOCKS_ANCHOR=$anchor -o "$folder/lists" fuzz/{lists,mending,uses,lend,blocks}.c host/lists.c "$code" -lm
        words=(-max_len=400 "-dict=$PWD/fuzz/lists.words")
        ;;
    *)
        echo "usage: bash fuzz/run.sh calls|text|lists SECONDS [WORDS...]"
        exit 2
        ;;
esac
python3 fuzz/blocks.py "$folder/$name" $anchor "$code" >"$folder/$name.blocks"
cd "$folder"
BLOCKS=$folder/$name.blocks exec "./$name" "${words[@]}" "-max_total_time=$seconds" -print_final_stats=1 "$@" "$name.corpus" "$OLDPWD/tests/cases/fuzz/$name"
