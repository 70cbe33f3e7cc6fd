#!/usr/bin/env bash
# Runs the stress program at full length, and a model in C++ of its atomic steps (model.cpp). Prints calls a second in medians
# of the rounds (5, or as many as the first word says), and from the last round the share of calls that were answered, the most
# retired rows that a pass had to work through, and the nodes that were out at the end.
# The figures go to docs/SPEED.md with date and machine.
set -euo pipefail
cd "$(dirname "$0")/.."
MOORINGAKEE_BUILD=here ./mooringakee-stress --calls 1 >/dev/null
scratch=$(mktemp -d)
trap 'rm -rf "$scratch"' EXIT
"${CXX:-g++}" -std=c++17 -O2 -pthread -o "$scratch/model" bench/model.cpp
python3 - "$scratch/model" "${1:-5}" <<'PY'
import statistics, subprocess, sys

STRESS = 'crates/stress/out/stress'
MODEL = sys.argv[1]
ROUNDS = int(sys.argv[2])

def told(words):
    """The figures of one run, by name."""
    done = subprocess.run([STRESS, *words.split()], check=True, capture_output=True, text=True)
    figures = {}
    for line in done.stdout.splitlines():
        _, _, name, _, value, share = line.split('|')
        for known in ('calls a second', 'answers a second', 'largest backlog', 'nodes out'):
            if name.endswith(known):
                figures[known] = int(value)
                figures[known, 'share'] = float(share)
    return figures

def speeds(*runs):
    """For each of several runs, which take turns, the median of its calls a second, and its last figures."""
    rounds = [[told(words) for words in runs] for _ in range(ROUNDS)]
    return [(statistics.median(figures['calls a second'] for figures in lap), lap[-1]) for lap in zip(*rounds)]

def row(*cells):
    print('| ' + ' | '.join(str(cell) for cell in cells) + ' |', flush=True)

def million(speed):
    return '%.2f' % (speed / 1e6)

# the calls of each thread: of a queue as many as the rows allow for where none comes back, as over a plain domain, or while an
# agent that is stopped holds a node, and by it each node behind
def calls(container, threads):
    return (120000 if container == 'queue' else 200000) // threads

print('Each container on each domain; million calls a second')
row('Container', 'Domain', 'Threads', 'Speed', 'Answered', 'Stalled: speed', 'Answered', 'Most retired', 'Nodes out')
for container in ('queue', 'list', 'set'):
    for domain in ('plain', 'reclaiming'):
        for threads in (1, 2, 4):
            words = '--whole --container %s --domain %s --threads %d --calls %d --keys %d' % (
                container, domain, threads, calls(container, threads), 256 if container == 'list' else 2000)
            (free, went), (held, stalled) = speeds(words, words + ' --stall')
            row(container, domain, threads, million(free), '%.1f %%' % went['answers a second', 'share'], million(held),
                '%.1f %%' % stalled['answers a second', 'share'], stalled['largest backlog'], stalled['nodes out'])

print('A set of 1,000 keys, 90/5/5, against a sorted VecDeque on one thread; million calls a second')
row('Domain', 'Buckets', 'One thread', 'Two threads', 'VecDeque', 'One thread to VecDeque')
for domain in ('plain', 'reclaiming'):
    for roots in (16, 256):
        words = '--whole --container set --domain %s --roots %d --keys 2000 --calls ' % (domain, roots)
        (one, _), (two, _), (plain, _) = speeds(
            words + '400000 --threads 1', words + '200000 --threads 2', '--container sorted --keys 2000 --calls 400000')
        row(domain, roots, million(one), million(two), million(plain), '%.2f' % (one / plain))

def modelled(words):
    return statistics.median(float(subprocess.run([MODEL, *words.split()], check=True, capture_output=True, text=True).stdout)
                             for _ in range(ROUNDS))

print('The reclaiming domain against the same atomic steps in C++; million calls a second')
row('Calls', 'Agents', 'Threads', 'Steps of a call', 'Speed', 'C++', 'C++ to this', 'C++ with all steps', 'That to this')

def against(calls, agents, threads, steps, words, bare_words):
    # a container's speed and that of the same steps in C++; of one thread also with all steps
    [(mine, _)] = speeds('--whole --domain reclaiming --threads %d --agents %d %s' % (threads, agents, words))
    bare = modelled(bare_words if threads == 1 else '%s %d' % (bare_words, threads))
    more = modelled(bare_words + ' all') if threads == 1 else None
    row(calls, agents, threads, steps, million(mine), million(bare), '%.2f' % (bare / mine), million(more) if more else '',
        '%.2f' % (more / mine) if more else '')

for agents, threads in ((1, 1), (2, 2), (4, 1), (16, 1)):
    against('enqueue, dequeue', agents, threads, '11 + 13, %d + 14' % (15 + 8 * agents),
        '--container queue --calls %d' % (500000 // threads), 'queue %d %d' % (agents, 500000 // threads))
for threads in (1, 2):
    against('list of 128 keys', threads, threads, '7 + 3 n + 4 + n', '--container list --calls %d --keys 256' % (100000 // threads),
        'list 128 %d' % (100000 // threads))
PY
