#!/usr/bin/env bash
# Builds the library and prints how long the calls for mending lists take: bash bench/lists.sh [FACES...]
# At 1,000, 10,000 and 100,000 faces where none are given. Of many more the length of a list that is searched for takes minutes.
set -eu
cd "$(dirname "${BASH_SOURCE[0]}")/.."
. tests/machine.sh
bash host/build.sh target/host
gcc -std=c11 -Wall -Wextra -Wpedantic -Werror -O2 -Itarget/host -o target/host/lists bench/lists.c target/host/libshell.a
[ $# -gt 0 ] || set -- 1000 10000 100000
exec target/host/lists "$@"
