#!/usr/bin/env bash
# Names each crate folder of the repository $1 that its crates.txt does not list, each listed crate that has no folder,
# and each file of Rattle or antt that stands outside the listed crates. Fails if there is any.
set -u
cd "$1" || exit 1
faults=0
say() {
    faults=$((faults + 1))
    echo "listed: $*"
}

names=$(sed -e 's/#.*//' crates.txt | sed -n 's/^\([a-z0-9_]*\)\( [a-z0-9_= ]*\)\?:.*/\1/p')
[ -n "$names" ] || say "crates.txt lists no crate"

for folder in crates/* crates/.[!.]*; do
    [ -e "$folder" ] || continue
    grep -qxF "$(basename "$folder")" <<<"$names" || say "$folder is not listed in crates.txt"
done

for name in $names; do
    [ -d "crates/$name/src" ] || say "crates.txt lists $name, and there is no crates/$name/src"
done

while IFS= read -r file; do
    name=${file#./crates/}
    if [ "$name" = "$file" ] || ! grep -qxF "${name%%/*}" <<<"$names"; then
        say "$file is in no listed crate, so nothing proves it"
    fi
done < <(find . \( -path ./target -o -path ./.git -o -path './crates/*/out' \) -prune -o \( -name '*.rt' -o -name '*.antt' \) -print)

[ "$faults" -eq 0 ]
