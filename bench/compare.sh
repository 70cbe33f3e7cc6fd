#!/usr/bin/env bash
# Compares two binaries of the stress program, which take turns: compare.sh BEFORE AFTER [ROUNDS]. Prints for the queue and for
# the list of 128 keys on both domains, with 1, 2 and 4 threads, the medians of calls a second over the rounds (31, if no
# number is given), and the second by the first.
set -euo pipefail
python3 - "$1" "$2" "${3:-31}" <<'PY'
import statistics, subprocess, sys

BINARIES = sys.argv[1:3]
ROUNDS = int(sys.argv[3])

def speed(binary, words):
    told = subprocess.run([binary, *words.split()], check=True, capture_output=True, text=True).stdout
    return next(int(line.split('|')[4]) for line in told.splitlines() if line.split('|')[2].endswith('calls a second'))

print('| Container | Domain | Threads | Before | After | After by before |')
print('|---|---|---|---|---|---|')
for container, calls, words in (('queue', 60000, ''), ('list', 12000, ' --keys 256 --mix 34/33/33')):
    for domain in ('plain', 'reclaiming'):
        for threads in (1, 2, 4):
            run = '--container %s --domain %s --threads %d --calls %d%s' % (container, domain, threads, calls // threads, words)
            laps = [[speed(binary, run) for binary in BINARIES] for _ in range(ROUNDS)]
            before, after = (statistics.median(column) for column in zip(*laps))
            print('| %s | %s | %d | %.2f | %.2f | %.2f |' % (
                container, domain, threads, before / 1e6, after / 1e6, after / before), flush=True)
PY
