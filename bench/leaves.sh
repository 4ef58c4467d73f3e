#!/usr/bin/env bash
# Builds the bench library and prints the leaves' times and ratios, in one run: bash bench/leaves.sh
set -eu
cd "$(dirname "${BASH_SOURCE[0]}")/.."
. tests/machine.sh
bash host/made.sh bench target/bench
g++ -O3 -std=c++17 -o target/bench/leaves bench/leaves.cpp target/bench/libbench.a
exec target/bench/leaves
