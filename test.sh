#!/usr/bin/env bash
# The whole test: what is listed, every crate with its must-fail edits by `rt ci`, and the host tests of tests/.
# Exit status and last line, `N passed, M failed`, are the verdict; the lines before it say how long `rt ci` and the host tests took, and how many tests were
# skipped.
set -u
shopt -s lastpipe
cd "$(dirname "${BASH_SOURCE[0]}")" || exit 1
passed=0
failed=0
skipped=0

# Runs a test under its name, and counts it. Status 77 says that what it compares with is not here.
try() {
    local name=$1 status
    shift
    "$@" </dev/null
    status=$?
    case $status in
    0) passed=$((passed + 1)) ;;
    77)
        skipped=$((skipped + 1))
        echo "test: SKIPPED: $name"
        ;;
    *)
        failed=$((failed + 1))
        echo "test: FAILED: $name"
        ;;
    esac
}

# Every crate by `rt ci`, whose last line is added to the count. It must agree with the exit status, and something must have passed. A must-fail edit that
# cannot be applied fails nothing there; it does here: the line `rt: ok` counts such edits as bad.
crates() {
    local line last='' ok='' status
    rt ci 2>&1 | while IFS= read -r line; do
        printf '%s\n' "$line"
        last=$line
        case $line in
        "rt: ok;"*) ok=$line ;;
        esac
    done
    status=${PIPESTATUS[0]}
    if [[ $ok =~ ,\ ([0-9]+)\ bad ]]; then
        failed=$((failed + BASH_REMATCH[1]))
        echo "test: FAILED: ${BASH_REMATCH[1]} must-fail edits cannot be applied"
    fi
    if [[ $last =~ ^([0-9]+)\ passed,\ ([0-9]+)\ failed$ ]]; then
        passed=$((passed + BASH_REMATCH[1]))
        failed=$((failed + BASH_REMATCH[2]))
        [ "$status" -eq 0 ] && [ "${BASH_REMATCH[1]}" -gt 0 ] && [ "${BASH_REMATCH[2]}" -eq 0 ] && [ -n "$ok" ] && return
        [ "$status" -ne 0 ] && [ "${BASH_REMATCH[2]}" -gt 0 ] && return 1
    fi
    failed=$((failed + 1))
    echo "test: FAILED: rt ci ended with status $status, the line '$ok' and the line '$last'"
    return 1
}

# So many seconds, as minutes and seconds.
minutes() {
    printf '%d min %02d s' $(($1 / 60)) $(($1 % 60))
}

kit=$(rt version 2>&1)
grep -qxF -- "$kit" kit.txt || echo "test: the kit here is '$kit', none of those that the proofs were checked with (kit.txt)"

try listed bash tests/listed.sh .
# What `rt ci` proved is noted, so that the library for C is made over it.
noted=$(bash host/made.sh --before)
began=$SECONDS
crates && bash host/made.sh --after "$noted"
hosted=$SECONDS
# For all host tests at once. Where it fails they do, each by itself.
. tests/machine.sh
for t in tests/*.test.sh; do
    [ -f "$t" ] && try "$t" bash "$t"
done

echo "test: rt ci $(minutes $((hosted - began))), host tests $(minutes $((SECONDS - hosted))), $(minutes $SECONDS) in all"
[ "$skipped" -eq 0 ] || echo "test: $skipped skipped"
echo "$passed passed, $failed failed"
[ "$failed" -eq 0 ] && [ "$passed" -gt 0 ]
