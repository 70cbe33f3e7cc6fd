#!/usr/bin/env bash
# Times 20,000,000 loads of a root's link by `link_load`, and as many loads of a bare atomic word, on one thread. What was
# found is printed on standard output, the times on standard error.
set -euo pipefail
cd "$(dirname "$0")/.."
python3 crates/build.py boards_bench boards_bench 2>/dev/null
crates/boards_bench/out/boards_bench counted
