#!/usr/bin/env bash
# Proves the library for C, builds its archive, and prints where that lies in the last line.
set -eu
cd "$(dirname "$0")/../crates/mooringakee_c"
rt lib "$@" >&2
echo "$PWD/out/libmooringakee_c.a"
