#!/usr/bin/env bash
# Runs the stress program with 1,000, 10,000 and 60,000 keys: the set that doubles its buckets up to 256, beside sets of 16 and of
# 256 buckets, over the domain whose rows are reclaimed, on 1, 2 and 4 threads; 90 of 100 calls ask for a key. Each run is made
# with some calls and with three times as many, and the runs of a round take turns. Prints, in medians of the rounds (5, or as many
# as the first word says), the mean time of a thread's call by the difference of the two, how many times that for 1,000 keys it is
# for 60,000, and what 60,000 keys take besides, once. STRESS names another program than ./mooringakee-stress. The figures go to
# docs/SPEED.md with date and machine.
set -euo pipefail
cd "$(dirname "$0")/.."
export STRESS="${STRESS:-./mooringakee-stress}"
"$STRESS" --calls 1 >/dev/null
python3 - "${1:-5}" <<'PY'
import os, statistics, subprocess, sys

STRESS = os.environ['STRESS']
ROUNDS = int(sys.argv[1])
KEYS = (1000, 10000, 60000)
# the calls of each thread in the shorter run: fewer where each takes longer
CALLS = {1000: 60000, 10000: 20000, 60000: 5000}
SETS = (('doubling', 'split --roots 256'), ('16 buckets', 'set --roots 16'), ('256 buckets', 'set --roots 256'))

def seconds(words, keys, threads, calls):
    """What a run took; each second key below twice their number is there."""
    done = subprocess.run(
        [STRESS, '--whole', '--container', *words.split(), '--domain', 'reclaiming', '--threads', str(threads),
         '--calls', str(calls), '--keys', str(2 * keys)], check=True, capture_output=True, text=True)
    for line in done.stdout.splitlines():
        _, _, name, _, value, _ = line.split('|')
        if name.endswith('calls a second'):
            return threads * calls / int(value)

def costs(words, keys, threads):
    """The nanoseconds of a thread's call, and the milliseconds that were spent once."""
    few = CALLS[keys]
    short, long = seconds(words, keys, threads, few), seconds(words, keys, threads, 3 * few)
    call = (long - short) / (2 * few)
    return 1e9 * call, 1e3 * (short - few * call)

def row(*cells):
    print('| ' + ' | '.join(str(cell) for cell in cells) + ' |', flush=True)

print('Nanoseconds of a call, 90/5/5, over the domain whose rows are reclaimed')
row('Set', 'Threads', *('%s keys' % format(keys, ',') for keys in KEYS), 'Growth', 'Once, ms')
for threads in (1, 2, 4):
    rounds = [[[costs(words, keys, threads) for keys in KEYS] for _, words in SETS] for _ in range(ROUNDS)]
    for place, (name, _) in enumerate(SETS):
        times, once = zip(*(map(statistics.median, zip(*(lap[place][i] for lap in rounds))) for i in range(len(KEYS))))
        row(name, threads, *('%.0f' % time for time in times), '%.1f' % (times[-1] / times[0]), '%.0f' % once[-1])
PY
