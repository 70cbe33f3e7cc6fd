#!/usr/bin/env bash
# Times the machine: a new state of the largest shape, and the steps of ten lives of each of 65,535 rows.
# The count of steps is printed on standard output, the times on standard error. One core.
set -euo pipefail
cd "$(dirname "$0")/.."
python3 crates/build.py boards_bench boards_bench 2>/dev/null
crates/boards_bench/out/boards_bench machine
