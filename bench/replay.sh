#!/usr/bin/env bash
# Times the replay of a trace of 200,000 steps by the proved program, and the audits of two: of one that is at rest after almost
# each step, and of one in which a row is linked, retired, scanned and freed again and again.
set -eu
cd "$(dirname "$0")/.."
MOORINGAKEE_BUILD=here ./mooringakee </dev/null >/dev/null
trace=$(mktemp)
trap 'rm -f "$trace" "$trace.time"' EXIT

timed() {
  /usr/bin/time -f "$1: %e s, %M KB resident" -o "$trace.time" crates/mooringakee/out/mooringakee --mode "$2" <"$trace"
  cat "$trace.time"
}

{ printf 'shape 2 1 2 8\n0 enroll\n1 enroll\n'; yes '0 count 0' | head -n 199998; } >"$trace"
timed replay replay

enrolled='shape 64 1 4 549755813888\n0 enroll\n1 enroll\n2 enroll\n3 enroll\n'
{ printf "$enrolled"; yes '0 count 0' | head -n 199996; } >"$trace"
timed 'audit, mostly at rest' audit

# 3,846 lives of row 0, 52 steps each
awk -v enrolled="$enrolled" 'BEGIN {
  printf enrolled
  for (life = 0; life < 3846; life++) {
    print "0 look 0\n0 count 0\n0 take 0\n0 publish 1 0\n0 count 0\n0 cas r0 - 0\n0 inc 0\n0 cas r0 0 -\n0 arm 0\n0 dec 0"
    print "0 set 0 " 2 * (life + 1) "\n0 clear 0\n0 takein 0\n0 clear 1\n0 takein 1\n0 start 0"
    for (k = 0; k < 32; k++) print "0 slot " k
    print "0 end 0\n0 store 0 -\n0 unretire 0\n0 free 0"
  }
}' >"$trace"
timed 'audit, 3,846 lives of a row' audit
