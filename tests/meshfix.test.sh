#!/usr/bin/env bash
# The program meshfix: recorded texts and their answers, texts at the limits, and the README's example, byte for byte.
set -u
here=$(cd "$(dirname "${BASH_SOURCE[0]}")/.." && pwd)
. "$here/tests/machine.sh" || exit 1
room=$(mktemp -d) || exit 1
trap 'rm -rf "$room"' EXIT
cd "$here" || exit 1
bash host/made.sh meshfix "$room" || exit 1
program=$room/meshfix
faults=0
count=0

# The answer to text $1 must be file $2, which is told as $3 if that is given.
answers() {
    count=$((count + 1))
    "$program" <"$1" >"$room/found" || echo "meshfix: $1: status $?" >>"$room/found"
    cmp -s "$room/found" "$2" && return
    faults=$((faults + 1))
    echo "meshfix: $1: another answer than ${3:-$2}"
}

# The answer $2 to text $1 with eleven counts. One that was recorded with ten has all degenerate faces in the first: of these the faces of the text that repeat
# a corner, if the options drop them, are the first of two counts, and the others the second.
counted() {
    awk -F '\t' -v OFS='\t' '
        of == "text" && $1 == "o" { drops = $2 % 2 }
        of == "text" && $1 == "f" && ($2 == $3 || $3 == $4 || $4 == $2) { repeated++ }
        of == "text" { next }
        $1 == "r" && NF == 11 { $2 = (drops * repeated) OFS ($2 - drops * repeated) }
        { print }
    ' of=text "$1" of=answer "$2"
}

# Every text of folder $1 that has an answer.
replay() {
    local text
    for text in "$1"/*.txt; do
        [ -f "${text%.txt}.out" ] || continue
        counted "$text" "${text%.txt}.out" >"$room/wanted"
        answers "$text" "$room/wanted" "${text%.txt}.out"
    done
}

# A text of $1 points and $2 faces, with the options that run no pass.
mesh() {
    local i
    printf 'o\t0\t3f50000000000000\n'
    for ((i = 0; i < $1; i++)); do printf 'p\t%016x\t0000000000000000\t0000000000000000\n' "$i"; done
    for ((i = 0; i < $2; i++)); do printf 'f\t%d\t1\t2\n' $((i % $1)); done
}

# With no pass the mesh comes back, and eleven zeros.
back() {
    tail -n +2 "$1"
    printf 'r\t0\t0\t0\t0\t0\t0\t0\t0\t0\t0\t0\n'
}

# Faces that repeat a corner and one whose corners are in a row, with options $1 and threshold $2.
kinds() {
    printf 'o\t%d\t%s\n' "$1" "$2"
    mesh 3 0 | tail -n +2
    printf 'f\t0\t0\t1\nf\t1\t2\t1\nf\t2\t2\t2\nf\t0\t1\t2\n'
}

replay "$here/tests/cases/text"
answers crates/meshfix/stdin crates/meshfix/stdout
answers examples/shell.txt examples/shell.out

printf 'x\t11\n' >"$room/eleven"
mesh 64 64 >"$room/most"
back "$room/most" >"$room/most.back"
answers "$room/most" "$room/most.back"
mesh 65 64 >"$room/points"
answers "$room/points" "$room/eleven"
mesh 64 65 >"$room/faces"
answers "$room/faces" "$room/eleven"
: >"$room/empty"
answers "$room/empty" "$room/eleven"
# The longest text in the form, 5,662 bytes, is read to its end: options above 63 are refused 3. One byte less is a bad line.
{
    printf 'o\t4294967295\t3f50000000000000\n'
    mesh 64 0 | tail -n +2
    for ((i = 0; i < 64; i++)); do printf 'f\t4294967295\t4294967295\t4294967295\n'; done
} >"$room/longest"
printf 'x\t3\n' >"$room/three"
answers "$room/longest" "$room/three"
head -c 5661 "$room/longest" >"$room/cut"
answers "$room/cut" "$room/eleven"
# A long answer is written to its end: each of 64 faces 0 0 0 is split, which makes 191 copies of point 0.
{
    printf 'o\t8\t3f50000000000000\n'
    mesh 64 0 | tail -n +2
    for ((i = 0; i < 64; i++)); do printf 'f\t0\t0\t0\n'; done
} >"$room/split"
{
    mesh 64 0 | tail -n +2
    for ((i = 0; i < 191; i++)); do mesh 1 0 | tail -n 1; done
    printf 'f\t64\t64\t64\n'
    for ((i = 1; i < 64; i++)); do printf 'f\t%d\t%d\t%d\n' $((63 + 3 * i)) $((63 + 3 * i)) $((63 + 3 * i)); done
    printf 'r\t0\t0\t0\t0\t0\t0\t1\t191\t0\t0\t0\n'
} >"$room/split.back"
answers "$room/split" "$room/split.back"
# A face that repeats a corner is never counted as thin, whatever the threshold; without bit 0 neither kind is counted.
{
    mesh 3 0 | tail -n +2
    printf 'r\t3\t1\t0\t0\t0\t0\t0\t0\t0\t0\t0\n'
} >"$room/by-kind"
for threshold in 0000000000000000 3f50000000000000 3ff0000000000000; do
    kinds 1 $threshold >"$room/kinds"
    answers "$room/kinds" "$room/by-kind"
done
kinds 0 3ff0000000000000 >"$room/kinds"
back "$room/kinds" >"$room/kinds.back"
answers "$room/kinds" "$room/kinds.back"
# 64 `p` lines and the `o` line have at most 3,422 bytes, 64 `f` lines of the largest numbers 2,240: no text of the form reaches 8,192 bytes, so
# both sides of that limit are refused 11, and also a text far beyond it.
head -c 8192 /dev/zero | tr '\0' 'p' >"$room/limit"
answers "$room/limit" "$room/eleven"
head -c 8193 /dev/zero | tr '\0' 'p' >"$room/beyond"
answers "$room/beyond" "$room/eleven"
yes "$(head -n 2 "$room/most" | tail -n 1)" | head -c 1000000 >"$room/far"
answers "$room/far" "$room/eleven"

shared=${CASES:-$here/../shared/cases/open}
if [ -d "$shared" ]; then
    replay "$shared"
else
    echo "meshfix: no recorded texts at $shared, so only our own are run"
fi
echo "meshfix: $count texts, $faults with another answer"
[ "$faults" -eq 0 ]
