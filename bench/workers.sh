#!/usr/bin/env bash
# Times workers of the board. Races: posts with falling ids on 1, 2 and 4 threads over plain domains, by workers and by the same
# container calls made bare, in turns, in medians of the rounds; the takes of all jobs follow. Runs: 60,000 generated lines over
# plain domains, and over reclaiming ones by the program's mode trial, in turns, in medians, each the whole process. Sets: mode trial
# over lists and over the split-ordered set, in turns. Growth: one poster with more and
# more open ids. The figures go to docs/SPEED.md with date and machine. Arguments: how many rounds of races, and how many runs.
set -euo pipefail
cd "$(dirname "$0")/.."
MOORINGAKEE_BUILD=here ./mooringakee </dev/null >/dev/null
python3 crates/build.py workers_bench workers_bench 2>/dev/null
uptime
python3 - "${1:-21}" "${2:-5}" <<'PY'
import os, statistics, subprocess, sys, time

BENCH = 'crates/workers_bench/out/workers_bench'
PROGRAM = 'crates/mooringakee/out/mooringakee'
ROUNDS, RUNS = int(sys.argv[1]), int(sys.argv[2])
DOMAINS = ('plain', 'reclaiming')

def medians(rounds):
    return [statistics.median(column) for column in zip(*rounds)]

def race(lines, rounds):
    words = [BENCH, '--lines', str(lines), '--buckets', '256', '--rounds', str(rounds)]
    told = subprocess.run(words, check=True, capture_output=True, text=True).stderr
    laps = [line.split() for line in told.splitlines()]
    for threads in ('1', '2', '4'):
        (post, total), (bare_post, bare_total) = (
            medians([int(word) / 1000 for word in lap[2:]] for lap in laps if lap[:2] == [who, threads]) for who in ('workers', 'bare'))
        print('%d posts, %s threads: posts %.2f ms, bare %.2f ms, ratio %.2f; with takes %.1f ms, bare %.1f ms, ratio %.2f' % (
            lines, threads, post, bare_post, post / bare_post, total, bare_total, total / bare_total), flush=True)

# Memory of less than this script's own, 14 MB or so, is not told apart.
def run(words):
    start = time.perf_counter()
    child = subprocess.Popen(words, stdout=subprocess.DEVNULL, stderr=subprocess.PIPE, text=True)
    told = child.stderr.read()
    _, status, use = os.wait4(child.pid, 0)
    wall = time.perf_counter() - start
    assert status == 0, told
    return wall, use.ru_utime + use.ru_stime, use.ru_maxrss / 1024

def work(program, mode, lines, posters, takers, kind):
    words = ['--mode', mode, '--lines', lines, '--posters', posters, '--takers', takers] + kind
    return run([program] + [str(word) for word in words])

def trial(lines, posters, takers, buckets):
    return work(PROGRAM, 'trial', lines, posters, takers, ['--buckets', buckets] if buckets else ['--set', 'split'])

# The same lines over domains of these kinds.
def over(domain, lines, posters, takers, buckets):
    if domain == 'plain':
        return work(BENCH, 'run', lines, posters, takers, ['--buckets', buckets])
    return trial(lines, posters, takers, buckets)

# The program alone, whose set is lists or split-ordered, in turns.
def sets(lines, posters, takers):
    kinds = {16: '16 lists', 256: '256 lists', 0: 'split-ordered'}
    rounds = {kind: [] for kind in kinds}
    for _ in range(RUNS):
        for kind in kinds:
            rounds[kind].append(trial(lines, posters, takers, kind))
    for kind, name in kinds.items():
        print('%d lines, %d and %d, %s: wall %.3f s, processor %.3f s, memory %.0f MB' % (
            lines, posters, takers, name, *medians(rounds[kind])), flush=True)

def runs(posters, takers, buckets):
    rounds = {domain: [] for domain in DOMAINS}
    for _ in range(RUNS):
        for domain in DOMAINS:
            rounds[domain].append(over(domain, 60000, posters, takers, buckets))
    found = {domain: medians(rounds[domain]) for domain in DOMAINS}
    for domain, (wall, processor, memory) in found.items():
        print('60,000 lines, %d and %d, %d buckets, %s: wall %.3f s, processor %.3f s, memory %.0f MB' % (
            posters, takers, buckets, domain, wall, processor, memory), flush=True)
    print('    reclaiming / plain: wall %.2f, processor %.2f' % tuple(
        found['reclaiming'][column] / found['plain'][column] for column in (0, 1)), flush=True)

# With one poster and no taker an insert of a rising id visits all open ids of its bucket, and a take the first alone.
def growth(lines, buckets):
    visits = lines * lines / buckets / 2
    for domain in DOMAINS:
        wall = medians(over(domain, lines, 1, 0, buckets) for _ in range(RUNS))[0]
        print('%d lines, up to %d open ids a bucket, %s: %.3f s, %.1f us a post, %.0f ns a visited node' % (
            lines, lines // buckets, domain, wall, wall / lines * 1e6, wall / visits * 1e9), flush=True)

race(60000, ROUNDS)
race(5140, 10 * ROUNDS)
for buckets in (16, 256):
    runs(1, 0, buckets)
    runs(4, 4, buckets)
for lines in (1000, 60000):
    sets(lines, 1, 0)
    sets(lines, 4, 4)
for lines in (4000, 8000, 16000, 32000):
    growth(lines, 16)
PY
