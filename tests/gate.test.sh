#!/usr/bin/env bash
# The gate's own test: a small repository passes, and each way to fool the gate fails with a line that names the fault.
set -u
here=$(cd "$(dirname "${BASH_SOURCE[0]}")/.." && pwd)
. "$here/tests/machine.sh" || exit 1
room=$(mktemp -d) || exit 1
trap 'rm -rf "$room"' EXIT
faults=0

# A new small repository in $room/one, with the gate of this one and no host tests.
fresh() {
    rm -rf "$room/one"
    mkdir -p "$room/one/crates/more/src" "$room/one/crates/more/must-fail" "$room/one/tests" "$room/one/host" "$room/one/.ci"
    cp "$here/test.sh" "$here/kit.txt" "$room/one/"
    cp "$here/.ci/run" "$room/one/.ci/"
    cp "$here/host/made.sh" "$room/one/host/"
    cp "$here"/tests/{listed,machine}.sh "$room/one/tests/"
    cd "$room/one" || exit 1
    echo 'more:' >crates.txt
    printf '%s\n' '// Numbers.' '#![tactic(auto)]' '' 'ghost use Rattle.std.specs.Prelude.{◌≡◌, ◌+◌};' '' \
        '// One more than x.' 'pub fn more(x: u8) -> u64' '    ensures { result ≡ x + 1 }' '{' '    x as u64 + 1' '}' >crates/more/src/lib.rt
    printf '%s\n' 'file: src/lib.rt' 'old: as u64 + 1' 'new: as u64 + 2' >crates/more/must-fail/two.edit
}

# Runs the gate there: $1 is the status and $2 a text that must stand in what it prints.
expect() {
    local out status last
    out=$(bash .ci/run 2>&1)
    status=$?
    last=$(tail -n 1 <<<"$out")
    if [ "$1" -ne "$status" ] || ! grep -qF -- "$2" <<<"$out" || ! [[ $last =~ ^[0-9]+\ passed,\ [0-9]+\ failed$ ]]; then
        faults=$((faults + 1))
        echo "gate: expected status $1 and '$2', got status $status and:"
        tail -n 5 <<<"$out"
    fi
}

fresh
expect 0 '3 passed, 0 failed'

# The library for C is made over what the gate left, by its C name, and by rt where the gate left nothing.
printf '%s\n' 'more:' 'more_c staticlib: more' >crates.txt
mkdir -p crates/more_c/src
printf '%s\n' '// Numbers for C.' '#![tactic(auto)]' '' 'ghost use Rattle.std.specs.Prelude.{◌≡◌, ◌+◌};' '' '// One more than x.' '#[unsafe(no_mangle)]' \
    'pub extern "C" fn one_more(x: u8) -> u64' '    ensures { result ≡ x + 1 }' '{' '    more::more(x)' '}' >crates/more_c/src/lib.rt
rm -rf crates/*/out
expect 0 '4 passed, 0 failed'
[ -s target/ci.sum ] && bash host/made.sh more_c over && grep -q '^statements more: ' target/made/more_c.log && [ ! -e crates/more_c/out/libmore_c.a ] ||
    { faults=$((faults + 1)); echo "gate: no library was made over what rt ci left"; }
rm -rf crates/*/out target
bash host/made.sh more_c by-rt && [ -e crates/more_c/out/libmore_c.a ] && cmp over/libmore_c.a by-rt/libmore_c.a && nm by-rt/libmore_c.a | grep -q ' T one_more$' ||
    { faults=$((faults + 1)); echo "gate: rt made another library"; }

fresh
mkdir -p crates/other
expect 1 'crates/other is not listed in crates.txt'

fresh
mkdir -p crates/other/src
echo '// nothing' >crates/other/src/lib.rt
expect 1 'crates/other is not listed in crates.txt'

fresh
mkdir docs
echo '// nothing' >docs/stray.rt
expect 1 './docs/stray.rt is in no listed crate'

fresh
echo '-- nothing' >stray.antt
expect 1 './stray.antt is in no listed crate'

fresh
mkdir crates/more/specs
printf '%s\n' '-- nothing' >crates/more/specs/Lib.antt
printf '%s\n' '-- nothing' >crates/more/specs/Stray.antt
expect 1 'Stray'

fresh
sed -i 's/x as u64 + 1/x as u64 + 2/' crates/more/src/lib.rt
expect 1 'more NOT PROVED'

fresh
sed -i 's/old: .*/old: pub fn more/; s/new: .*/new: pub  fn more/' crates/more/must-fail/two.edit
expect 1 'NOT REFUSED'

fresh
sed -i 's/old: .*/old: as u32 + 1/' crates/more/must-fail/two.edit
expect 1 'FAILED: 1 must-fail edits cannot be applied'

fresh
sed -i 's/    x as/  x as/' crates/more/src/lib.rt
expect 1 'run rt fmt'

fresh
: >crates.txt
expect 1 'crates.txt lists no crate'

fresh
echo 'exit 1' >tests/bad.test.sh
expect 1 'FAILED: tests/bad.test.sh'

fresh
echo 'exit 77' >tests/away.test.sh
expect 0 'SKIPPED: tests/away.test.sh'
expect 0 '3 passed, 0 failed'

fresh
echo 'another kit' >kit.txt
expect 0 'none of those that the proofs were checked with'

[ "$faults" -eq 0 ] && echo "gate: 15 repositories judged as they must be"
