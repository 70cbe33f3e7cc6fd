#!/usr/bin/env bash
# Runs the gate from nothing (`rt ci --anew`; plain `rt ci` under a kit that keeps nothing from run to run), and prints its processor
# minutes: of libraries, of crates of tests, and of the edits with the checks from which they begin, each as sampled once a second,
# and of all that it ran. With the words `first start`, runs the first line of the README in a clean clone instead, whose program is
# proved and built from nothing.
# As the host's speed changes from hour to hour, it also prints how much processor time a fixed piece of work took meanwhile, in the
# median: 0.11 s on the machine of docs/SPEED.md with nothing else to do. The figures go to docs/SPEED.md with date and machine.
set -euo pipefail
cd "$(dirname "$0")/.."
python3 - "$*" <<'PY'
import os, resource, statistics, subprocess, sys, tempfile, threading, time

TICK = os.sysconf('SC_CLK_TCK')
ADDITIONS = compile('total = 0\nfor number in range(1_000_000): total += number', 'additions', 'exec')

def fixed_work():
    """The processor seconds of 1,000,000 additions, which tell how fast the host is now."""
    begin = time.process_time()
    exec(ADDITIONS, {})
    return time.process_time() - begin

def below():
    """Of each process that this one began, or such a one: its number, and what the system tells of it."""
    told, own = {}, str(os.getpid())
    for pid in filter(str.isdigit, os.listdir('/proc')):
        try:
            told[pid] = open(f'/proc/{pid}/stat').read().rsplit(')', 1)[1].split()
        except (OSError, IndexError):
            continue
    for pid, status in told.items():
        above = status[1]
        while above in told and above != own:
            above = told[above][1]
        if above == own:
            yield pid, status

def provers():
    """Of each process that proves a crate for this one: its number and start, what it is, and its processor seconds."""
    for pid, status in below():
        try:
            words = open(f'/proc/{pid}/cmdline', 'rb').read().split(b'\0')
            if b'--crate-name' not in words:
                continue
            folder = os.readlink(f'/proc/{pid}/cwd')
        except OSError:
            continue
        if folder.startswith('/tmp/rt-edit'):
            kind = 'edits'
        elif b'--test' in words:
            kind = 'tests'
        else:
            kind = 'libraries'
        yield (pid, status[19]), kind, (int(status[11]) + int(status[12])) / TICK

def watch(done, seconds, speeds):
    """Samples what is proved, until it is done."""
    while not done.wait(1):
        for process, kind, used in provers():
            seconds[process] = (kind, used)
        if time.monotonic() - watch.last > 60:
            watch.last = time.monotonic()
            speeds.append(fixed_work())

def measure(command, **how):
    """Runs the command, and prints how long it took, and what."""
    seconds, speeds, done = {}, [fixed_work()], threading.Event()
    watch.last = time.monotonic()
    watcher = threading.Thread(target=watch, args=(done, seconds, speeds))
    watcher.start()
    begin = time.monotonic()
    status = subprocess.run(command, **how).returncode
    wall = time.monotonic() - begin
    done.set()
    watcher.join()
    used = resource.getrusage(resource.RUSAGE_CHILDREN)
    print('| Part | Processor minutes |')
    print('|---|---|')
    for part in ('libraries', 'tests', 'edits'):
        print('| %s | %.1f |' % (part, sum(one for kind, one in seconds.values() if kind == part) / 60))
    print('| all | %.1f |' % ((used.ru_utime + used.ru_stime) / 60))
    print('%.1f minutes of wall time; the fixed work took %.3f s of processor time; status %d'
          % (wall / 60, statistics.median(speeds), status))
    return status

if sys.argv[1] == 'first start':
    with tempfile.TemporaryDirectory() as scratch:
        subprocess.run(['git', 'clone', '--quiet', '.', scratch], check=True)
        sys.exit(measure(['./mooringakee'], cwd=scratch, stdin=open('examples/five.jobs'),
                         stdout=subprocess.DEVNULL, env=dict(os.environ, MOORINGAKEE_BUILD='here')))
if sys.argv[1]:
    sys.exit('gate: the words are `first start`, or none')
told = subprocess.run(['rt', '--help'], stdout=subprocess.PIPE, stderr=subprocess.STDOUT, text=True).stdout
sys.exit(measure(['rt', 'ci', *['--anew'] * ('--anew' in told)]))
PY
