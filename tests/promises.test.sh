#!/usr/bin/env bash
# docs/PROMISES.md: every must-fail edit, file and crate that it names stands where it says, and every `File.name` is a definition or theorem of that file.
set -u
cd "$(dirname "${BASH_SOURCE[0]}")/.." || exit 1
faults=0
count=0

# Name $1 must be file or folder $2.
stands() {
    count=$((count + 1))
    [ -e "$2" ] && return
    faults=$((faults + 1))
    echo "promises: $1 is not there"
}

while read -r name; do
    case $name in
    crates/* | docs/* | host/* | tests/*) stands "$name" "$name" ;;
    */specs/*.antt) stands "$name" "crates/$name" ;;
    *) stands "$name" "crates/${name%%/*}/must-fail/${name#*/}.edit" ;;
    esac
done < <(grep -oE '`[a-z_0-9]+/[A-Za-z_0-9./]+`' docs/PROMISES.md | tr -d '`' | sort -u)
while read -r name; do
    count=$((count + 1))
    grep -qE "^ *(unfoldable |abbrev )?pub (record |data )?${name#*.}( |$)" crates/*/{specs,proofs}/"${name%%.*}.antt" 2>/dev/null && continue
    faults=$((faults + 1))
    echo "promises: $name is not there"
done < <(grep -oE "\`[A-Z][A-Za-z0-9]*\.[a-z◌][^ .\`]*\`" docs/PROMISES.md | tr -d '`' | grep -v '\.antt$' | sort -u)
echo "promises: $count names, $faults not there"
[ "$faults" -eq 0 ] && [ "$count" -gt 50 ]
