#!/usr/bin/env bash
# Builds the library and the Rust's own files in release, times one against the other in one run, and prints the tables in Markdown:
# bash bench/run.sh [--short] [--install] [--write]. --short takes no mesh of a million faces; --install gets admesh, CGAL and meshio by apt; --write puts
# the tables into docs/SPEED.md instead, below its mark.
set -eu
cd "$(dirname "${BASH_SOURCE[0]}")/.."
short='' install='' write=''
for word in "$@"; do
    case $word in
        --short) short=--short ;;
        --install) install=--install ;;
        --write) write=yes ;;
        *)
            echo "usage: bash bench/run.sh [--short] [--install] [--write]"
            exit 2
            ;;
    esac
done
[ "$(uname -m)" = x86_64 ] || { echo "bench: the library is x86-64 code, and times under an emulator say nothing"; exit 1; }
folder=target/bench
mkdir -p "$folder"
bash oracle/build.sh "$folder" >&2
bash bench/others.sh $install "$folder" >&2
bash bench/leaves.sh >"$folder/leaves.txt"
{
    echo "Measured on $(date -u +%Y-%m-%d) on $(nproc) cores of $(sed -n 's/^model name[^:]*: *//p' /proc/cpuinfo | head -n 1), load $(cut -d' ' -f1 /proc/loadavg) at the"
    echo "beginning, by \`bash bench/run.sh${short:+ }$short\`; $(rustc --version | cut -d' ' -f1,2), $(rt version)."
    echo
    python3 bench/table.py "$folder" $short
} | if [ -n "$write" ]; then
    cat >"$folder/tables.md"
    sed -i '/^<!-- measured -->$/q' docs/SPEED.md
    { echo; cat "$folder/tables.md"; } >>docs/SPEED.md
else
    cat
fi
