#!/usr/bin/env bash
# Times pipelines: mode stages with 60,000 generated posts, by one poster through 1, 3 and 6 stages, in turns, in medians of the
# rounds. Reading the file and writing the text are in the times. The figures go to docs/SPEED.md with date and machine. Argument: how
# many rounds.
set -euo pipefail
cd "$(dirname "$0")/.."
MOORINGAKEE_BUILD=here ./mooringakee </dev/null >/dev/null
uptime
python3 - "${1:-9}" <<'PY'
import os, statistics, subprocess, sys, time

PROGRAM = 'crates/mooringakee/out/mooringakee'
LINES, STAGES, ROUNDS = 60000, (1, 3, 6), int(sys.argv[1])
JOBS = subprocess.run([PROGRAM, '--mode', 'make', '--lines', str(LINES)], check=True, capture_output=True).stdout

# Wall and processor time, in seconds.
def run(stages):
    words = [PROGRAM, '--mode', 'stages', '--stages', str(stages)]
    before, start = os.times(), time.monotonic()
    told = subprocess.run(words, input=JOBS, check=True, capture_output=True).stdout
    after, wall = os.times(), time.monotonic() - start
    assert told.count(b'\nout ') == LINES
    return wall, sum(after[2:4]) - sum(before[2:4])

rounds = {stages: [] for stages in STAGES}
for _ in range(ROUNDS):
    for stages in STAGES:
        rounds[stages].append(run(stages))
for stages, times in rounds.items():
    wall, processor = (statistics.median(column) for column in zip(*times))
    print('%d posts, %d stages: wall %.3f s, processor %.3f s, %.0f items a second' % (
        LINES, stages, wall, processor, LINES / wall), flush=True)
PY
