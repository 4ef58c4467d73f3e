#!/usr/bin/env bash
# The rules against recorded answers of the Rust: antt runs every definition on a sample of them, and each must come out as recorded.
# Where ../shared/cases is absent those of tests/cases are taken. EVERY=1 takes all that are small enough.
set -u
here=$(cd "$(dirname "${BASH_SOURCE[0]}")/.." && pwd)
. "$here/tests/machine.sh" || exit 1
cases=${CASES:-$here/../shared/cases/open}
[ -d "$cases" ] || cases=$here/tests/cases
room=$(mktemp -d) || exit 1
trap 'rm -rf "$room"' EXIT
for crate in root rules; do
    mkdir -p "$room/crates/$crate/src"
    cp -r "$here/crates/$crate/specs" "$room/crates/$crate/"
    echo '// Only the definitions.' >"$room/crates/$crate/src/lib.rt"
done
printf '%s\n' 'root:' 'rules: root' 'recorded: root rules' >"$room/crates.txt"
own gcc -std=c11 -O2 -ffp-contract=off -shared -fPIC "-I$here/host" "-I$here/fuzz" -o "$room/passes.so" "$here"/fuzz/{passes,uses}.c -lm || exit 1
python3 "$here/tests/recorded.py" "$cases" "$room/crates/recorded" "${EVERY:-16}" "$room/passes.so" || exit 1
cd "$room/crates/recorded" || exit 1
log=$room/log
rt check >"$log" 2>&1
status=$?
# A claim that antt breaks off at its step limit is neither shown nor refused; in the gate's sample there is none.
long=$(grep -c ': error: .*stopped at the step limit' "$log")
grep -E ': error' "$log" | grep -v 'stopped at the step limit' | cut -c1-300 | head -n 20
[ "$long" -eq 0 ] || echo "recorded: $long claims are too long for antt"
if [ "$status" -eq 3 ] && [ "$long" -gt 0 ] && [ "$long" -le 20 ] && [ -n "${EVERY:-}" ]; then
    exit 0
fi
[ "$status" -eq 0 ] || tail -n 3 "$log"
exit "$status"
