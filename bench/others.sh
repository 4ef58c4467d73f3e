#!/usr/bin/env bash
# Builds the programs that time CGAL, where CGAL is: bash bench/others.sh [--install] FOLDER. --install first installs CGAL, admesh and meshio by apt.
set -eu
if [ "$1" = --install ]; then
    shift
    bash "$(dirname "${BASH_SOURCE[0]}")/../tests/install.sh" admesh libcgal-dev python3-meshio
fi
folder=$(mkdir -p "$1" && cd "$1" && pwd)
cd "$(dirname "${BASH_SOURCE[0]}")/.."
echo '#include <CGAL/version.h>' | g++ -fsyntax-only -x c++ - 2>/dev/null || { echo "bench: no CGAL here"; exit 0; }
for program in cgal cgal_ply; do
    g++ -O3 -DNDEBUG -std=c++17 -o "$folder/$program" bench/$program.cpp -lgmp -lmpfr
done
