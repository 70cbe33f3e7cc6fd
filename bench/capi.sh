#!/usr/bin/env bash
# Compares the queue for C with a ring under a mutex, on 1, 2 and 4 threads, which take turns in one run: capi.sh [PAIRS
# [ROUNDS]]. Prints medians, in millions of pairs of a put and a take a second. The figures go to docs/SPEED.md with date and
# machine.
set -euo pipefail
cd "$(dirname "$0")/.."
make --no-print-directory -s -C capi library ${LIBRARY:+"LIBRARY=$(realpath "$LIBRARY")"}
"${CC:-cc}" -std=c11 -O2 -Wall -Wextra -Icapi -o capi/out/bench bench/capi.c capi/out/libmooringakee.a -lpthread
uptime
capi/out/bench "$@"
