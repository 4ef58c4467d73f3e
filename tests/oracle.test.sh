#!/usr/bin/env bash
# The library against the Rust's own files: faults that the harness must see, recorded answers that it must expect, one mesh of a million faces, and two fixed
# seeds on two cores. Under an emulator these are a sample.
# Where the Rust's files or rustc are absent it says so, and is counted as skipped; the recorded answers of tests/cases are replayed by tests/host.test.sh in any case.
set -u
here=$(cd "$(dirname "${BASH_SOURCE[0]}")/.." && pwd)
. "$here/tests/machine.sh" || exit 1
room=$(mktemp -d) || exit 1
trap 'rm -rf "$room"' EXIT
bash "$here/oracle/build.sh" "$room"
case $? in
    0) ;;
    3)
        echo "oracle: nothing is compared with the Rust here; tests/host.test.sh replays its recorded answers instead"
        exit 77
        ;;
    *) exit 1 ;;
esac
oracle=$room/oracle

"$oracle" --self-test >"$room/faults"
status=$?
[ "$status" -eq 0 ] || cat "$room/faults"
tail -n 1 "$room/faults"
[ "$status" -eq 0 ] || exit 1

for cases in "$here/tests/cases" "$here/../shared/cases/open"; do
    [ ! -d "$cases" ] || "$oracle" --recorded "$cases/lib.cases.bin" "$cases/lib.answers.bin" || exit 1
done

meshes=$((150 / share)) faces=$((1000000 / share)) cases=$((300000 / share))
if [ -n "$emulated" ]; then
    cases=$((cases / 2))
    echo "oracle: under an emulator a sample is compared: $meshes planted meshes, one of $faces faces, and $cases cases of each seed"
fi
"$oracle" --planted "$meshes" || exit 1
"$oracle" --large "$faces" || exit 1

"$oracle" --seed 1 --cases "$cases" >"$room/one" 2>&1 &
one=$!
"$oracle" --seed 2 --cases "$cases" >"$room/two" 2>&1
two=$?
wait "$one"
one=$?
cat "$room/one"
[ "$two" -eq 0 ] && tail -n 1 "$room/two" || cat "$room/two"
[ "$one" -eq 0 ] && [ "$two" -eq 0 ]
