#!/usr/bin/env bash
# Builds the harness that compares the library with the Rust: bash oracle/build.sh FOLDER writes FOLDER/oracle.
# The original files are copied from ../shared/docs/src (or ORIGINALS) to FOLDER. Status 3: they are not there, or there is no rustc for x86-64.
set -eu
folder=$(mkdir -p "$1" && cd "$1" && pwd)
cd "$(dirname "${BASH_SOURCE[0]}")/.."
from=${ORIGINALS:-../shared/docs/src}/engeom/src
[ -d "$from" ] || { echo "oracle: the Rust's files are not at $from"; exit 3; }
. tests/machine.sh || exit 1

# The compiler of the machine. Where that is not for x86-64, Debian's, with what the programs find their C library by.
rust=(rustc)
if [ -n "$emulated" ]; then
    standard=$(bash oracle/rust.sh) || { echo "oracle: no rustc for x86-64 here"; exit 3; }
    libraries=/usr/x86_64-linux-gnu/lib
    rust=(/usr/bin/rustc --target x86_64-unknown-linux-gnu -L "$standard" -C linker=x86_64-linux-gnu-gcc
        -C "link-arg=-Wl,--dynamic-linker=$libraries/ld-linux-x86-64.so.2,-rpath=$libraries")
fi
command -v "${rust[0]}" >/dev/null || { echo "oracle: no rustc here"; exit 3; }

# Whole files as they are; of points.rs and common.rs, which want much else, the items that those files use.
to=$folder/engeom/original
mkdir -p "$to"
cp -f oracle/engeom/*.rs "$folder/engeom/"
cp -f "$from"/geom3/half_edge3/repair.rs "$from"/geom3/mesh/{edges,patches,algorithms/normals}.rs "$from"/common/index_mask.rs "$to/"
sed -n '/^pub fn triangle_area</,/^}/p' "$from/common/points.rs" >"$to/points.rs"
sed -n '/^pub trait PCoords</,/^}/p; /^impl<const D: usize> PCoords<D> for Point</,/^}/p' "$from/common.rs" >"$to/common.rs"
DEGENERATE_SIN=$(sed -n 's/^const DEGENERATE_SIN: f64 = \(.*\);$/\1/p' "$to/normals.rs")
export DEGENERATE_SIN

# The calls that the library has: these are compared.
bash host/build.sh "$folder"
names=$(nm "$folder/libshell.a" 2>/dev/null | sed -n 's/^[0-9a-f]* T shell_//p')
calls=()
for call in repair edges loops check patches line write_ply read_ply ply_counts repair_panel; do
    calls+=(--check-cfg "cfg(has_$call)")
    ! grep -qx "$call" <<<"$names" || calls+=(--cfg "has_$call")
done

# The passes in plain C, for the origins that the Rust does not tell.
for file in passes uses; do
    gcc -std=c11 -O2 -ffp-contract=off "-I$folder" -Ifuzz -c -o "$folder/$file.o" fuzz/$file.c
done
rm -f "$folder/libpasses.a"
ar rc "$folder/libpasses.a" "$folder/passes.o" "$folder/uses.o"

rust+=(--edition 2024 -O -D warnings)
"${rust[@]}" --crate-type rlib --crate-name engeom --out-dir "$folder" "$folder/engeom/lib.rs"
"${rust[@]}" "${calls[@]}" --extern "engeom=$folder/libengeom.rlib" -L "$folder" -l static=shell -l static=passes -l m -o "$folder/oracle" oracle/src/main.rs
