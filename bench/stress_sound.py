#!/usr/bin/env python3
"""Runs the stress program over the containers as they are, and tells which runs it calls wrong: none should be.

stress_sound.py [--runs N] [--calls N] [--program PATH | --unproved]

The runs (200) go in turn over the five containers, both domains, 1 to 8 threads, all rows and few, 64 turns and 1, whole calls and
some that stop, each mix, and each place where an agent is stopped, or none. The program is `./mooringakee-stress`, or that of PATH;
with --unproved one that `rt try` builds once, of which nothing is proved. Prints each run that isn't right, with its words, its
status and its lines WRONG|.., and in the end how many were right, and how many calls were answered, found nothing or were refused.
The status is 1 where one isn't right."""
import argparse
import collections
import os
import re
import subprocess
import sys
import tempfile

TOP = os.path.dirname(os.path.dirname(os.path.abspath(__file__)))
STOPS = {
    'queue': ('', '--stop first', '--stop tail'),
    'list': ('', '--stop first', '--stop marked'),
    'set': ('', '--stop first', '--stop marked'),
    'split': ('', '--stop first'),
    'cell': ('', '--stop staged'),
}
KEYS = {'list': 64, 'set': 200, 'split': 200}


def words_of(run, calls):
    """The words of this run: each choice goes round by itself."""
    container = tuple(STOPS)[run % 5]
    lap = run // 5
    mixes = ('pairs', 'apart') if container == 'queue' else ('90/5/5', '34/33/33')
    words = ['--container', container, '--domain', ('plain', 'reclaiming')[lap % 2], '--mix', mixes[lap // 2 % 2],
             '--threads', str(1 + (lap // 2 + lap) % 8), '--rows', ('65535', '40')[lap // 3 % 2], '--turns', ('64', '1')[lap // 5 % 2],
             '--calls', str(calls), '--keys', str(KEYS.get(container, 1000)), '--seed', str(run + 1)]
    stops = STOPS[container]
    return words + stops[lap % len(stops)].split() + (['--whole'] if lap // 7 % 2 else [])


def by_program(program, runs):
    """The status of each run and what it wrote."""
    for words in runs:
        done = subprocess.run([program, *words], stdin=subprocess.DEVNULL, capture_output=True, text=True)
        yield done.returncode, done.stdout.splitlines()


def unproved(runs):
    """The same of a build by `rt try`."""
    with tempfile.TemporaryDirectory() as folder:
        for run, words in enumerate(runs):
            open(f'{folder}/{run:03}', 'w', encoding='utf-8').close()
            with open(f'{folder}/{run:03}.args', 'w', encoding='utf-8') as it:
                it.write('\n'.join(words) + '\n')
        done = subprocess.run(['rt', 'try', '--cases', folder], cwd=f'{TOP}/crates/stress', stdin=subprocess.DEVNULL,
                              capture_output=True, text=True)
    lines, told = {}, {}
    for line in done.stdout.splitlines() + done.stderr.splitlines():
        begins = re.match(r'== (\d+)$', line)
        ended = re.match(r'case=(\d+) run=ended status=(\d+)', line)
        if begins:
            of_run = lines.setdefault(int(begins[1]), [])
        elif ended:
            told[int(ended[1])] = int(ended[2]), lines.get(int(ended[1]), [])
        elif lines:
            of_run.append(line)
    return [told.get(run, (None, ['no answer'])) for run in range(len(runs))]


def main():
    asked = argparse.ArgumentParser(description='Runs the stress program over sound containers.')
    asked.add_argument('--runs', type=int, default=200, metavar='N', help='how many runs (200)')
    asked.add_argument('--calls', type=int, default=5000, metavar='N', help='how many calls each thread makes (5000)')
    asked.add_argument('--program', default=f'{TOP}/mooringakee-stress', metavar='PATH', help='what is run')
    asked.add_argument('--unproved', action='store_true', help='build it by `rt try`, unproved')
    asked = asked.parse_args()
    runs = [words_of(run, asked.calls) for run in range(asked.runs)]
    answers, right = collections.Counter(), 0
    for words, (status, lines) in zip(runs, unproved(runs) if asked.unproved else by_program(asked.program, runs)):
        for line in lines:
            figure = re.match(r'RESULT\|.* (Ok|found nothing|Again|NoNode|Spent|Positions)\|\d+\|(\d+)\|', line)
            if figure:
                answers[figure[1]] += int(figure[2])
        right += status == 0
        if status != 0:
            print(f'status {status}: {" ".join(words)}', *(line for line in lines if not line.startswith('RESULT|')), sep='\n  ', flush=True)
    print(f'{right} of {len(runs)} runs were right:', ', '.join(f'{name} {count}' for name, count in answers.items()))
    return right < len(runs)


if __name__ == '__main__':
    sys.exit(main())
