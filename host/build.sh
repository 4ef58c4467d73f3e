#!/usr/bin/env bash
# Writes the static library and its header to one folder, for a stranger to link: bash host/build.sh FOLDER
# It is made by host/made.sh, of the crate shell_c; its name is libshell.a.
set -eu
folder=$(mkdir -p "$1" && cd "$1" && pwd)
cd "$(dirname "${BASH_SOURCE[0]}")/.."
bash host/made.sh shell_c "$folder"
mv "$folder/libshell_c.a" "$folder/libshell.a"
cp host/shell.h "$folder/"
